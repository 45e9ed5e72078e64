#!/bin/sh
# fuzz.sh [SECONDS] [SEED]: plays fresh archives of both versions and all editions, a third of them damaged, one in three
# of version 2 in every edition, through the product and the second model, and stops at the first difference. Not part
# of the gate.
# The archive that differs stays under target/fuzz/. The product's programs are target/bin/play and
# target/bin/batch (run as scripts/program.sh says), or those that FENNQUALO_PLAY and FENNQUALO_BATCH name, as seen
# from the root; with batch it is much faster.
# Exit: 0 no difference, 1 a difference, 2 nothing compared.
set -eu
export LC_ALL=C
seconds=${1:-60}
seed=${2:-$(date +%s)}
each=2000
root=$(CDPATH= cd -- "$(dirname -- "$0")/.." && pwd)
cd "$root"
. "$root/scripts/program.sh"
play=$(from_root "${FENNQUALO_PLAY:-target/bin/play}")
batch=$(from_root "${FENNQUALO_BATCH:-target/bin/batch}")
export CARGO_TARGET_DIR="$root/target/reference"
second="$CARGO_TARGET_DIR/release"
folder="$root/target/fuzz"

if ! can_run "$play" && ! can_run "$batch"; then
    echo "fuzz: neither the product's play ($play) nor its batch can be run: $why; nothing is compared." >&2
    exit 2
fi
(cd "$root/reference" && cargo build --release --offline --quiet)

# Prints what the product says of the archives named on standard input, in the form of batch --services.
product() {
    if can_run "$batch"; then
        run "$batch" --services | sed '$d'
        return
    fi
    while read -r name; do
        run "$play" < "$name" | sed "\$s|^|$name: |"
    done
}

# Finds the first archive of the folder that differs by itself, and keeps it.
keep_first() {
    cd "$folder/batch"
    for name in *.bin; do
        echo "$name" | "$second/batch" --services | sed '$d' > ../one-second.txt
        echo "$name" | product > ../one-product.txt || true
        if ! cmp -s ../one-second.txt ../one-product.txt; then
            cp "$name" "../differs-$name"
            echo "fuzz: kept as target/fuzz/differs-$name; second model (<) and product (>):" >&2
            diff ../one-second.txt ../one-product.txt | head -n 10 >&2
            return
        fi
    done
    echo "fuzz: no archive differs by itself; all are in target/fuzz/batch" >&2
}

rm -rf "$folder/batch"
mkdir -p "$folder/batch"
end=$(($(date +%s) + seconds))
first=$seed
done=0
while :; do
    rm -f "$folder"/batch/*.bin
    "$second/generate" "$seed" "$each" "$folder/batch" > "$folder/coverage.txt"
    (cd "$folder/batch" && ls | "$second/batch" --services | sed '$d') > "$folder/second.txt"
    (cd "$folder/batch" && ls | product) > "$folder/product.txt" || true
    if ! cmp -s "$folder/second.txt" "$folder/product.txt"; then
        echo "fuzz: a difference after $done archives, seed $seed" >&2
        keep_first
        exit 1
    fi
    done=$((done + each))
    seed=$((seed + 1))
    [ "$(date +%s)" -lt "$end" ] || break
done
rm -rf "$folder/batch"
echo "fuzz: $done archives, seeds $first to $((seed - 1)), no difference"
