#!/bin/sh
# Builds the second model, runs its tests and checks the expected outputs. Prints little; fails at any fault. It builds
# under target/, or under the folder FENNQUALO_BUILD.
set -eu
root=$(CDPATH= cd -- "$(dirname -- "$0")/.." && pwd)
export CARGO_TARGET_DIR="${FENNQUALO_BUILD:-$root/target}/reference"
for tool in cargo rustc; do
    if ! command -v "$tool" > /dev/null 2>&1; then
        echo "reference: $tool is missing. The second model needs Rust (cargo and rustc), nothing else." >&2
        exit 1
    fi
done
cd "$root/reference"
cargo build --release --offline --quiet
log="$CARGO_TARGET_DIR/tests.log"
if ! cargo test --offline --quiet --test all > "$log" 2>&1; then
    cat "$log" >&2
    echo "reference: the second model's tests failed" >&2
    exit 1
fi
echo "reference: $(grep '^test result' "$log" | sed 's/; finished.*//')"
exec "$root/scripts/expected.sh"
