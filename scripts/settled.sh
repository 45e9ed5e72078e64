#!/bin/sh
# Every public function of the libraries has a theorem that its contract settles its outcome (docs/CONTRACTS.md): in a
# file of crates/settled/proofs, over the function's own contract,
#     use Rattle.CRATE.specs.contracts.NAME as the_NAME
#     pub NAME_settled : Settles the_NAME.ended (λ M 𝓤. the_NAME.clauses) (λ M 𝓤. the_NAME.spec)
# (MODULES.NAME where it stands in modules). Says how many it saw, or what is wrong. That the theorems hold, that every file there is checked and every crate listed is `rt check`'s part.
set -eu
cd "$(dirname "$0")/.."

# Crates that are not looked at:
#   settled   the theorems; it has no code
#   timing    for the benchmark alone: it calls the public functions so many times, and nothing that is shipped uses it
#   stack     for the test of the stack alone: the reader, called once
#   exports_c the functions of exports under their C names; below it is held to their very signatures and clauses
unseen="settled timing stack exports_c"

# Libraries without a function, types, definitions and theorems alone; they are looked at all the same.
bare="model theorems layout format lines calls"

# Functions without a theorem: what is read and written lies outside the machine in which a contract is stated. In
# `front` that is all of them: the program's arguments, messages, files and the line of numbers; and the lines that
# `inspect`, `trace` and `batch` compose, whose words are tested, not proved.
exceptions="report::read_seen report::print_services report::print_line report::print_refusal"
exceptions="$exceptions front::called front::tell front::words front::word_at front::is_fronted front::is_command front::arg_count front::of front::none front::with"
exceptions="$exceptions front::say front::say_word front::misused front::too_long front::print front::no_output front::show_usage"
exceptions="$exceptions front::read_file front::read_argument front::read front::read_input front::no_input"
exceptions="$exceptions front::new front::as_bytes front::add_bytes front::add_name front::add_answer front::clear"

fail() {
    echo "settled: $1" >&2
    exit 1
}

# the libraries of crates.txt; a crate with src/main.rt is a program, whose functions are no other crate's to call
listed=$(awk '{ sub(/#.*/, "") } /:/ { sub(/:.*/, ""); print $1 }' crates.txt)
libraries=""
for crate in $listed; do
    [ -d "crates/$crate/src" ] || fail "crates.txt lists $crate, but there is no folder crates/$crate/src"
    case " $unseen " in *" $crate "*) continue ;; esac
    if [ -f "crates/$crate/src/lib.rt" ]; then
        libraries="$libraries $crate"
    elif [ ! -f "crates/$crate/src/main.rt" ]; then
        fail "crates/$crate/src has neither lib.rt nor main.rt"
    fi
done
[ -n "$libraries" ] || fail "crates.txt lists no library"

# every public function up to its body, without the C in front of it
promised() { awk '/^pub / { sub(/extern "C" /, ""); on = 1 } /^{/ { on = 0 } on' "$1"; }
[ -n "$(promised crates/exports/src/lib.rt)" ] || fail "no public function seen in crates/exports"
[ "$(promised crates/exports/src/lib.rt)" = "$(promised crates/exports_c/src/lib.rt)" ] ||
    fail "the functions of crates/exports_c are not those of crates/exports, with their clauses and in their order"

files=$(for crate in $libraries; do
    find "crates/$crate/src" -name '*.rt'
    find "crates/$crate" -path '*/specs/Lib.antt'
done)
LC_ALL=C awk -v libraries="$libraries" -v bare="$bare" -v exceptions="$exceptions" -f scripts/settled.awk \
    $files crates/settled/proofs/*.antt
