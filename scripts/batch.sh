#!/bin/sh
# batch.sh: plays the whole corpus by the product's two players and compares with crates/batch/stdout, book for book: by
# `batch` (the run in lent words) with the names as arguments, and by `play` (the run by the book) file by file: archives with
# at most 9,000 draws, and six tori with 65,535, since by the book a draw copies the state. (`rt ci` runs `batch` with the
# same names on standard input.) Prints one line. The programs are target/bin/batch and
# target/bin/play (run as scripts/program.sh says), or those that FENNQUALO_BATCH and FENNQUALO_PLAY name, as seen from the
# root. Exit: 0 no difference, 1 a difference (the lines stay in target/batch.txt and target/by-book.txt), 2 no program.
# Why a name cannot be read goes to target/batch.err; scripts/programs.sh looks at such messages.
set -u
export LC_ALL=C
root=$(CDPATH= cd -- "$(dirname -- "$0")/.." && pwd) || exit 2
cd "$root" || exit 2
. "$root/scripts/program.sh"
. "$root/scripts/draws.sh"
program=$(from_root "${FENNQUALO_BATCH:-target/bin/batch}")
book=$(from_root "${FENNQUALO_PLAY:-target/bin/play}")
expected=$root/crates/batch/stdout
printed=$root/target/batch.txt

end() {
    echo "batch: $2"
    exit "$1"
}

can_run "$program" || end 2 "$why"
can_run "$book" || end 2 "$why"
mkdir -p "$root/target" && cd "$root/corpus" || exit 2
set -- --services
while IFS= read -r name || [ -n "$name" ]; do set -- "$@" "$name"; done <"$root/crates/batch/stdin"
run "$program" "$@" >"$printed" 2>"$root/target/batch.err"
cmp -s "$printed" "$expected" ||
    end 1 "not crates/batch/stdout: $(diff "$expected" "$printed" | grep -c '^[<>]') lines differ in target/batch.txt"

# by the book: its services, then the name before the line of the counts; a name that cannot be read has none
by_book=$root/target/by-book.txt
names=$root/target/by-book.names
while IFS= read -r name || [ -n "$name" ]; do
    [ -f "$name" ] || continue
    case $name in
        load-torus-4x4.bin | v2-load-torus-8x8.bin | e[23]-load-torus-4x4.bin | e[23]-load-torus-8x8.bin) echo "$name" ;;
        *) [ "$(draws "$name")" -gt 9000 ] || echo "$name" ;;
    esac
done <"$root/crates/batch/stdin" >"$names"
while IFS= read -r name; do
    run "$book" <"$name" | sed "\$s|^|$name: |"
done <"$names" >"$by_book"
lines_of "$names" "$expected" | cmp -s - "$by_book" ||
    end 1 "the run by the book is not crates/batch/stdout: its lines are in target/by-book.txt"
end 0 "the corpus as expected, $(tail -n 1 "$printed"); by the book $(grep -c . "$names") of them"
