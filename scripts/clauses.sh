#!/bin/sh
# Single events typed by hand from the documents (tests/clauses; README.md there has the form): expands them into cases and
# what has to come of them, replays the cases with the proved program target/bin/singles (run as scripts/program.sh says)
# and with the second model, and compares what both print with what is typed, byte by byte.
# Prints one line; names the cases that differ and fails at any difference, or where a file is missing. The texts stay in
# target/clauses/. It needs cargo; nothing is fetched.
set -eu
export LC_ALL=C
root=$(CDPATH= cd -- "$(dirname -- "$0")/.." && pwd)
export CARGO_TARGET_DIR="$root/target/reference"
program="$root/target/bin/singles"
data=tests/clauses
texts=target/clauses
files='names passes inputs queues beyond networks order runs versions wide editions branches splits asks'

fail() {
    echo "clauses: $1" >&2
    exit 1
}

cd "$root"
[ -x "$program" ] || fail "target/bin/singles is missing: 'scripts/make.sh singles' makes it"
. "$root/scripts/program.sh"
can_run "$program" || fail "$why"

# The files by name, all that are there and no other.
set --
for name in $files; do
    [ -s "$data/$name.txt" ] || fail "$data/$name.txt is missing or empty"
    set -- "$@" "$data/$name.txt"
done
for file in "$data"/*.txt; do
    case " $* " in *" $file "*) ;; *) fail "$file is not among the files of scripts/clauses.sh" ;; esac
done

rm -rf "$texts"
mkdir -p "$texts"
awk -f "$data/places.awk" -f "$data/expand.awk" -v cases="$texts/cases" -v expected="$texts/expected" \
    -v events="$texts/events" "$@" || fail "the cases are not of the form that $data/README.md has"
(cd reference && cargo build --release --offline --quiet)
run "$program" < "$texts/cases" > "$texts/printed" || fail "target/bin/singles failed on $texts/cases"
"$CARGO_TARGET_DIR/release/replay" < "$texts/cases" > "$texts/replayed" ||
    fail "the second model failed on $texts/cases"

compare() {
    awk -f "$data/places.awk" -f "$data/compare.awk" -v who="$1" "$texts/events" "$texts/expected" "$texts/$2"
}
bad=0
compare 'target/bin/singles' printed > "$texts/counts" || bad=1
compare 'the second model' replayed > "$texts/counts" || bad=1
[ "$bad" = 0 ] || fail "not what is typed in $data"
read -r cases events < "$texts/counts"
echo "clauses: $cases cases typed by hand, 0 differences ($events events, by the product and by the second model)"
