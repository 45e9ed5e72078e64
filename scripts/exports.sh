#!/bin/sh
# exports.sh [COUNT] [SEED]: builds the C and Rust library from the proved crate `exports_c` and tests it: the header,
# every function and the Rust wrapper against the second model on the corpus and COUNT (5000) fresh archives of SEED
# (1), and examples/compare_deliveries in C and Rust against their expected output.
# The library is for x86-64. There the tests are built with rustc and cc (or what RUSTC and CC name) and run. On another
# machine they are cross-compiled and run under the Rattle kit's emulator (or that which QEMU names), if rustc has the
# standard library of x86_64-unknown-linux-gnu, x86_64-linux-gnu-gcc is there and an empty program runs so; else they are
# run on the library's own LLVM module, compiled for this machine (scripts/native.sh); where that is not possible either,
# one line says that the tests are left out, and the exit status is 0.
# Prints one line for each part; fails at any fault. What it builds stays in target/library/. Nothing is fetched.
set -eu
export LC_ALL=C
root=$(CDPATH= cd -- "$(dirname -- "$0")/.." && pwd)
count=${1:-5000}
seed=${2:-1}
built=$root/target/library
rustc=${RUSTC:-rustc}

end() {
    echo "library: $2" >&2
    exit "$1"
}

# Runs a compiled program: as it is, or under the emulator with the kit's loader and C library.
libraries=''
run() {
    if [ -z "$libraries" ]; then
        "$@"
    else
        "$emulator" "$libraries/ld-linux-x86-64.so.2" --library-path "$libraries" "$@"
    fi
}

# Whether an empty program, compiled with the words given, runs.
can_run() {
    echo 'fn main() {}' >"$built/empty.rs"
    "$rustc" "$@" -o "$built/empty" "$built/empty.rs" >"$built/empty.log" 2>&1 &&
        run "$built/empty" >>"$built/empty.log" 2>&1
}

# The library, under the name that it is installed by.
sh "$root/scripts/library.sh" "$built" || end 1 "libfennqualo.a is not built"

# What it asks of those who link it: the header says memcpy and memset and nothing else.
if command -v nm >/dev/null 2>&1; then
    needs=$(nm -u "$built/libfennqualo.a" | awk '$1 == "U" { print $2 }' | sort -u | tr '\n' ' ')
    [ "$needs" = 'memcpy memset ' ] || end 1 "the library needs ${needs:-nothing}, not memcpy and memset alone"
else
    echo "library: what it needs of those who link it is left out, since nm is not there"
fi

# How to compile for x86-64.
set --
if [ "$(uname -m)" = x86_64 ]; then
    cc=${CC:-cc}
    command -v "$cc" >/dev/null 2>&1 || end 1 "$cc is not there: the C example needs a C compiler"
else
    cc=${CC:-x86_64-linux-gnu-gcc}
    tools=$(dirname -- "$(rt doc)")/on/$(uname -m)/toolchain
    emulator=${QEMU:-$tools/bin/qemu-x86_64}
    libraries=$tools/lib
    set -- --target x86_64-unknown-linux-gnu -C linker="$cc"
    if ! can_run "$@"; then
        set --
        libraries=''
        cc=${CC:-cc}
        status=0
        sh "$root/scripts/native.sh" exports_c "$built/native" >"$built/native.log" 2>&1 || status=$?
        if [ "$status" -eq 2 ] || ! command -v "$cc" >/dev/null 2>&1; then
            echo "library: built; its tests are left out, since this machine cannot make and run them"
            exit 0
        fi
        [ "$status" -eq 0 ] || end 1 "not made for this machine: $(tail -n 1 "$built/native.log")"
        cp "$built/native/libexports_c.a" "$built/libfennqualo.a"
        echo "library: built; tested as its own LLVM module compiled for $(uname -m)"
    fi
fi
set -- "$@" --edition 2021 -O -L "$built" -L native="$built"

# The header by itself, and the example in C.
cd "$root"
echo '#include <fennqualo.h>' >"$built/header.c"
for standard in c99 c11; do
    "$cc" -std=$standard -Wall -Wextra -pedantic -Werror -Iinclude -c "$built/header.c" -o "$built/header.o" ||
        end 1 "include/fennqualo.h does not compile as $standard"
done
"$cc" -std=c99 -O2 -Wall -Wextra -pedantic -Werror -Iinclude examples/compare_deliveries.c \
    -L"$built" -lfennqualo -o "$built/compare_deliveries_c" || end 1 "examples/compare_deliveries.c does not compile"

# The second model, the wrapper, the tests and the example in Rust: compiled NAME WORDS.. makes target/library/NAME.
compiled() {
    name=$1
    shift
    "$rustc" -o "$built/$name" "$@" || end 1 "target/library/$name does not compile"
}
compiled libreference.rlib "$@" --crate-type rlib --crate-name reference reference/src/lib.rs
compiled libfennqualo.rlib "$@" --crate-type rlib --crate-name fennqualo bindings/rust/src/lib.rs
compiled library "$@" --extern reference --extern fennqualo tests/library/main.rs
compiled compare_deliveries_rs "$@" --extern fennqualo examples/compare_deliveries.rs

# The wrapper by cargo too, with the example of its first lines; cargo compiles for this machine.
if [ -z "$libraries" ]; then
    (cd bindings/rust && FENNQUALO_LIB="$built" CARGO_TARGET_DIR="$built/cargo" cargo test --offline --quiet) \
        >"$built/cargo.log" 2>&1 || {
        cat "$built/cargo.log" >&2
        end 1 "bindings/rust fails by cargo"
    }
fi

run "$built/library" corpus "$count" "$seed" || end 1 "the library and the second model differ"

# What the example prints for each command of its expected output, which stands behind `$ `.
cd "$root/examples"
for language in c rs; do
    grep '^\$ compare_deliveries ' compare_deliveries.txt | while read -r _ _ archive log; do
        echo "\$ compare_deliveries $archive $log"
        status=0
        run "$built/compare_deliveries_$language" "$archive" "$log" 2>/dev/null || status=$?
        echo "exit $status"
    done >"$built/compare_deliveries_$language.txt"
    diff compare_deliveries.txt "$built/compare_deliveries_$language.txt" >&2 ||
        end 1 "examples/compare_deliveries.$language does not print what compare_deliveries.txt has (<)"
done
echo "library: compare_deliveries in C and Rust, $(grep -c '^\$ ' compare_deliveries.txt) comparisons each as expected"
