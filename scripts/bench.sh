#!/bin/sh
# bench.sh [ROUNDS]: times the product against the second model, in one process, and prints the tables of
# docs/PERFORMANCE.md. Not part of the gate. It needs cargo; nothing is fetched.
# The product's side is crate timing as a library: on x86-64 this makes it with scripts/make.sh. Elsewhere the
# programs run under an emulator only, whose times say nothing: there FENNQUALO_TIMING has to name a libtiming.a for
# that machine; scripts/timing.sh makes one from the kit's own LLVM module.
# Exit: 0 measured, 1 something failed, 2 nothing to measure here.
set -eu
export LC_ALL=C
root=$(CDPATH= cd -- "$(dirname -- "$0")/.." && pwd)
library=${FENNQUALO_TIMING:-}

if [ -z "$library" ] && [ "$(uname -m)" != x86_64 ]; then
    echo "bench: the kit compiles for x86-64, this machine is $(uname -m), and times under an emulator say nothing." >&2
    echo "bench: scripts/timing.sh makes a library for this machine; then name it by FENNQUALO_TIMING." >&2
    exit 2
fi
if [ -z "$library" ]; then
    mkdir -p "$root/target"
    sh "$root/scripts/make.sh" timing >"$root/target/bench.log" 2>&1 || {
        echo "bench: crate timing is not proved or not compiled: target/bench.log" >&2
        exit 1
    }
    library=$root/target/staticlib/libtiming.a
fi
if [ ! -f "$library" ] || [ "${library##*/}" != libtiming.a ]; then
    echo "bench: $library is no libtiming.a" >&2
    exit 2
fi
FENNQUALO_TIMING_FOLDER=$(CDPATH= cd -- "$(dirname -- "$library")" && pwd)
export FENNQUALO_TIMING_FOLDER
export CARGO_TARGET_DIR="$root/target/bench"
(cd "$root/bench" && cargo build --release --offline --quiet)
processor=$(sed -n 's/^model name[^:]*: *//p' /proc/cpuinfo 2>/dev/null | head -n 1)
[ -n "$processor" ] || processor=$(lscpu 2>/dev/null | sed -n 's/^Model name: *//p' | head -n 1)
echo "Processor: ${processor:-unknown}, $(uname -m). $(rustc --version)."
echo
exec "$CARGO_TARGET_DIR/release/bench" "$@"
