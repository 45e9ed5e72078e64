#!/bin/sh
# Makes the corpus (crates/batch/data, of which corpus is a copy, file by file) and its expected outputs (crates/batch/stdout,
# for the names of crates/batch/stdin) anew under target/ (or the folder FENNQUALO_BUILD), and so the stored cases of
# crates/singles and the table of latencies (tests/latency/table.txt), and compares them with the committed ones. With --write
# the committed ones are replaced instead (not typed/, which is typed by hand, in crates/batch/data), and corpus is copied.
# It needs cargo; nothing is fetched.
set -eu
export LC_ALL=C
root=$(CDPATH= cd -- "$(dirname -- "$0")/.." && pwd)
build=${FENNQUALO_BUILD:-$root/target}
export CARGO_TARGET_DIR="$build/reference"
programs="$CARGO_TARGET_DIR/release"
fresh="$build/corpus"
data="$root/crates/batch/data"
copy="$root/corpus"
names="$root/crates/batch/stdin"
outputs="$root/crates/batch/stdout"
singles="$root/crates/singles"
table="$root/tests/latency/table.txt"

# Every archive of the corpus by name, and then names that lead to no archive and one that is longer than need be.
list() {
    (cd "$data" && ls -- *.bin)
    printf '%s\n' . missing.bin ''
    printf 'long-%.0s' $(seq 60)
    printf '%s\n%s' .bin ./01-run-r.bin
}

# The stored cases of `singles` and what comes of them, of seed 193: so many of the first form, so many of the second in
# edition 1, and behind them so many in edition 2, in edition 3, and with the outputs in the way.
stored='300 120 120 160 160'
cases() {
    "$programs/cases" 193 $stored "$1/stdin" "$1/stdout" > /dev/null
}

(cd "$root/reference" && cargo build --release --offline --quiet)
rm -rf "$fresh"
mkdir -p "$fresh"
"$programs/corpus" "$fresh"

if [ "${1:-}" = --write ]; then
    rm -f "$data"/*.bin
    cp "$fresh"/*.bin "$data/"
    rm -rf "$copy"
    cp -R "$data" "$copy"
    list > "$names"
    (cd "$data" && "$programs/batch" --services < "$names" > "$outputs")
    cases "$singles"
    "$programs/latency" > "$table"
    echo "expected: written, $(tail -n 1 "$outputs")"
    exit 0
fi

bad=0
differs() {
    echo "expected: $1" >&2
    bad=1
}

# The copy is one, with no file more or less. (It is no link, since rt wants none in a repository.)
if ! diff -r "$data" "$copy" > "$build/copy.txt" 2>&1; then
    differs "corpus is not a copy of crates/batch/data; --write makes it anew:"
    head -n 20 "$build/copy.txt" >&2
fi

# The committed archives are those that the recipes make.
for file in "$fresh"/*.bin; do
    name=${file##*/}
    cmp -s "$file" "$data/$name" || differs "crates/batch/data/$name is not what the recipes make"
done
for file in "$data"/*.bin; do
    name=${file##*/}
    [ -e "$fresh/$name" ] || differs "crates/batch/data/$name has no recipe"
done

# The committed outputs are those of the second model, for all of them.
list | cmp -s - "$names" || differs "crates/batch/stdin is not the corpus's names and the odd ones"
(cd "$data" && "$programs/batch" --services < "$names") > "$build/expected.txt"
if ! cmp -s "$build/expected.txt" "$outputs"; then
    differs "crates/batch/stdout is not what the second model prints:"
    diff "$outputs" "$build/expected.txt" | head -n 20 >&2 || true
fi

# The stored cases of `singles` are those of the second model.
cases "$fresh"
for name in stdin stdout; do
    cmp -s "$fresh/$name" "$singles/$name" ||
        differs "crates/singles/$name is not what the second model's \`cases 193 $stored\` writes; --write makes it anew"
done

# The table of latencies is the second model's.
"$programs/latency" > "$build/latency.txt"
if ! cmp -s "$build/latency.txt" "$table"; then
    differs "tests/latency/table.txt is not what the second model's \`latency\` prints; --write makes it anew:"
    diff "$table" "$build/latency.txt" | head -n 20 >&2 || true
fi

# The outputs typed by hand are those of the second model.
typed=0
for file in "$data"/typed/*.out; do
    name=${file##*/}
    name=${name%.out}
    "$programs/play" < "$data/$name.bin" | cmp -s - "$file" ||
        differs "crates/batch/data/typed/$name.out is not what the second model prints"
    typed=$((typed + 1))
done

[ "$bad" = 0 ] || exit 1
sum=$(echo "$stored" | tr ' ' '+')
stored="the $(($sum)) stored cases of singles; the $(($(wc -l < "$table"))) rows of latencies"
echo "expected: $(tail -n 1 "$outputs"), $typed typed by hand; $stored"
