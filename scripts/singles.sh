#!/bin/sh
# Single events through the product and the second model: makes COUNT cases (3000) of the first form, WIDE (400) of the
# second in edition 1, HELD (400) in edition 2, RESTRICTED (400) in edition 3 and ASKED (400) in every edition, with the
# outputs in the way, from SEED (1) with the second model, replays them with the proved program target/bin/singles (run
# as scripts/program.sh says) and compares what both print, byte by byte.
# Prints one line; fails at any difference, and leaves the texts in target/singles/.
# usage: scripts/singles.sh [COUNT] [SEED] [WIDE] [HELD] [RESTRICTED] [ASKED]. It needs cargo; nothing is fetched.
set -eu
export LC_ALL=C
root=$(CDPATH= cd -- "$(dirname -- "$0")/.." && pwd)
export CARGO_TARGET_DIR="$root/target/reference"
count=${1:-3000}
seed=${2:-1}
wide=${3:-400}
held=${4:-400}
restricted=${5:-400}
asked=${6:-400}
program="$root/target/bin/singles"
texts="$root/target/singles"

if [ ! -x "$program" ]; then
    echo "singles: target/bin/singles is missing: 'scripts/make.sh singles' makes it" >&2
    exit 1
fi
. "$root/scripts/program.sh"
if ! can_run "$program"; then
    echo "singles: $why" >&2
    exit 1
fi
(cd "$root/reference" && cargo build --release --offline --quiet)
mkdir -p "$texts"
"$CARGO_TARGET_DIR/release/cases" "$seed" "$count" "$wide" "$held" "$restricted" "$asked" \
    "$texts/cases" "$texts/expected" > "$texts/counters"
if ! run "$program" < "$texts/cases" > "$texts/printed"; then
    echo "singles: target/bin/singles failed on target/singles/cases" >&2
    exit 1
fi
if ! cmp -s "$texts/expected" "$texts/printed"; then
    echo "singles: target/singles/printed differs from target/singles/expected; a case of the first form has 18" \
        "lines, one of the second 66:" >&2
    diff "$texts/expected" "$texts/printed" | head -n 6 >&2 || true
    exit 1
fi
passed=$(awk '/not refused/ { print $1 + $2 + $3 + $4 }' "$texts/counters")
echo "singles: $count, $wide, $held, $restricted and $asked single events of seed $seed, $passed of them not refused," \
    "0 differences"
