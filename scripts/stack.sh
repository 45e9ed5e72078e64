#!/bin/sh
# stack.sh: measures the stack that the calls of the C library (crate `exports_c`) and the archive reader (crate `stack`)
# take, on the corpus and on damaged archives, checks their answers, and fails where a limit is reached: tests/stack/
# has the limits and says what is counted. Then examples/small_stack.c, which checks archives in a task with 4 KiB of stack,
# against its expected output.
# On x86-64 both libraries are the kit's own. On another machine they are their own LLVM modules, compiled for it
# (scripts/native.sh), and the lines say so; where that is not possible one line says that the test is left out, and the
# exit status is 0. It needs cc (or what CC names). What it builds stays in target/stack/. Nothing is fetched.
set -eu
export LC_ALL=C
root=$(CDPATH= cd -- "$(dirname -- "$0")/.." && pwd)
built=$root/target/stack
cc=${CC:-cc}
machine=$(uname -m)

end() {
    echo "stack: $2" >&2
    exit "$1"
}

# The two libraries, as target/stack/libfennqualo.a and libstack.a, and the words for a machine that is not x86-64.
mkdir -p "$built"
set --
if [ "$machine" = x86_64 ]; then
    command -v "$cc" >/dev/null 2>&1 || end 1 "$cc is not there: the test needs a C compiler"
    sh "$root/scripts/library.sh" "$built" >"$built/library.log" 2>&1 ||
        end 1 "libfennqualo.a is not built: $(tail -n 1 "$built/library.log")"
    sh "$root/scripts/make.sh" stack >"$built/stack.log" 2>&1 ||
        end 1 "the crate stack is not proved or not built; target/stack/stack.log has the whole log"
    cp "$root/target/staticlib/libstack.a" "$built/libstack.a"
else
    for crate in exports_c stack; do
        status=0
        sh "$root/scripts/native.sh" "$crate" "$built/native-$crate" >"$built/$crate.log" 2>&1 || status=$?
        if [ "$status" -eq 2 ] || ! command -v "$cc" >/dev/null 2>&1; then
            echo "stack: the test is left out, since this machine cannot make and run it"
            exit 0
        fi
        [ "$status" -eq 0 ] || end 1 "$crate is not made for this machine: $(tail -n 1 "$built/$crate.log")"
    done
    cp "$built/native-exports_c/libexports_c.a" "$built/libfennqualo.a"
    cp "$built/native-stack/libstack.a" "$built/libstack.a"
    set -- "compiled for $machine"
fi

# memcpy and memset are bound when the program starts, not during a call.
cd "$root"
"$cc" -std=c99 -O2 -Wall -Wextra -pedantic -Werror -Iinclude tests/stack/*.c \
    -L"$built" -lfennqualo -lstack -Wl,-z,now -o "$built/stack" >"$built/cc.log" 2>&1 || {
    sed 's/^/stack: /' "$built/cc.log" >&2
    end 1 "tests/stack does not compile"
}
"$built/stack" corpus "$@" || end 1 "a limit is reached, or something is wrong: see above"

# What the example prints for each command of its expected output, which stands behind `$ `.
"$cc" -std=c99 -O2 -Wall -Wextra -pedantic -Werror -Iinclude examples/small_stack.c -L"$built" -lfennqualo -Wl,-z,now \
    -o "$built/small_stack" || end 1 "examples/small_stack.c does not compile"
cd "$root/examples"
grep '^\$ small_stack ' small_stack.txt | while read -r _ _ names; do
    echo "\$ small_stack $names"
    status=0
    # shellcheck disable=SC2086
    "$built/small_stack" $names || status=$?
    echo "exit $status"
done >"$built/small_stack.txt"
diff small_stack.txt "$built/small_stack.txt" >&2 || end 1 "examples/small_stack.c does not print what small_stack.txt has (<)"
echo "stack: small_stack, archives checked in a task with 4 KiB of stack, as expected"
