# program.sh: how a script runs a program that scripts/make.sh put into target/bin. To be sourced, with the repository's
# folder in `root`, or, by the installed front, with the folder of the programs in `programs`.
# These programs are compiled for x86-64. On another machine they run under the emulator that the Rattle kit has there:
# what they print is the same, how long they take says nothing. A program from elsewhere is run as it is.

# from_root PATH: the path as seen from the root.
from_root() {
    case $1 in
    /*) printf '%s\n' "$1" ;;
    *) printf '%s\n' "$root/$1" ;;
    esac
}

# can_run PATH: whether the program is there and can be run; if not, `why` says why.
can_run() {
    why=
    emulator=
    if [ ! -x "$1" ]; then
        why="the program is not there: $1"
        return 1
    fi
    case $1 in "$root"/target/bin/* | "${programs:-/}"/*) ;; *) return 0 ;; esac
    [ -z "${FENNQUALO_PROGRAMS:-}" ] || return 0
    machine=$(uname -m)
    [ "$machine" != x86_64 ] || return 0
    why="$1 is compiled for x86-64, this machine is $machine"
    if ! command -v rt >/dev/null 2>&1; then
        why="$why, and the Rattle kit with its emulator is not installed ('rt' is not on the PATH)"
        return 1
    fi
    tools=$(dirname -- "$(rt doc)")/on/$machine/toolchain
    emulator=$tools/bin/qemu-x86_64
    [ ! -x "$emulator" ] || return 0
    why="$why, and the Rattle kit has no emulator for it"
    return 1
}

# run PATH WORDS..: runs the program with these words; 126 if it can not be run.
run() {
    if ! can_run "$1"; then
        echo "$why" >&2
        return 126
    fi
    if [ -z "$emulator" ]; then
        "$@"
    else
        "$emulator" "$tools/lib/ld-linux-x86-64.so.2" --library-path "$tools/lib" "$@"
    fi
}
