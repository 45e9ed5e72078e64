#!/bin/sh
# make.sh NAME..: proves and builds these programs and static libraries, and the libraries that they stand on, as far as they
# have changed, and puts each where scripts, front and those who link look for it: a program as target/bin/NAME, a static
# library as target/staticlib/libNAME.a; that of crate exports_c is libexports.a.
# make.sh --taken FILE: proves nothing; puts every program there that `rt ci` has built, as old as the file.
# What is put there is as old as the begin of its build, so that a source that changed meanwhile is newer. Standard output
# has what rt said. Exit: 0 made, 1 not proved or not built, 2 wrong use.
set -u
root=$(CDPATH= cd -- "$(dirname -- "$0")/.." && pwd) || exit 2
work=$(mktemp -d) || exit 2
trap 'rm -rf "$work"' EXIT
trap 'exit 1' INT TERM HUP
begun=$work/begun

end() {
    echo "make: $2" >&2
    exit "$1"
}

# put FILE NAME: the file as target/NAME, whole, or the old one stays.
put() {
    mkdir -p "$root/target/${2%/*}" && cp -p -- "$1" "$root/target/$2.new" && touch -r "$begun" "$root/target/$2.new" &&
        mv -f -- "$root/target/$2.new" "$root/target/$2" || end 1 "target/$2 cannot be written"
}

[ $# -gt 0 ] || end 2 "usage: make.sh NAME.. | --taken FILE"
if [ "$1" = --taken ]; then
    [ $# -eq 2 ] && [ -f "$2" ] || end 2 "usage: make.sh --taken FILE"
    begun=$2
    for main in "$root"/crates/*/src/main.rt; do
        name=${main%/src/main.rt}
        name=${name##*/}
        [ ! -x "$root/crates/$name/out/$name" ] || put "$root/crates/$name/out/$name" "bin/$name"
    done
    rt version >"$root/target/kit" || end 1 "target/kit cannot be written"
    exit 0
fi

for name in "$@"; do
    cd "$root/crates/$name" 2>/dev/null || end 2 "there is no crate $name"
    : >"$begun"
    if [ -f src/main.rt ]; then
        # rt links a program only where it runs it too: on a single word and no input. How that ends is not asked.
        rt run -- --help 2>&1 </dev/null >/dev/null | tee "$work/said"
        grep -q "^rt: running out/$name;" "$work/said" || end 1 "$name is not proved or not built"
        put "out/$name" "bin/$name"
    else
        rt lib 2>&1 </dev/null || end 1 "$name is not proved or not built"
        [ -f "out/lib$name.a" ] || end 1 "$name is no program and no static library"
        put "out/lib$name.a" "staticlib/lib${name%_c}.a"
    fi
done
