#!/bin/sh
# timing.sh: makes the benchmark's library for a machine that is not x86-64, target/timing/libtiming.a, as
# scripts/native.sh says. Prints its path. Exit: 0 made, 1 not proved or not compiled, 2 not possible here.
root=$(CDPATH= cd -- "$(dirname -- "$0")/.." && pwd) || exit 2
exec sh "$root/scripts/native.sh" timing "$root/target/timing"
