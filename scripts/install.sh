#!/bin/sh
# install.sh PREFIX: proves and builds what is missing, and installs under PREFIX: the command bin/fennqualo, its programs
# and scripts in libexec/fennqualo, the library lib/libfennqualo.a with include/fennqualo.h and lib/pkgconfig/fennqualo.pc,
# the Rust wrapper share/fennqualo/rust, and the papers for users, share/fennqualo/docs. What is there under these names is
# replaced, nothing else is touched. If it fails, what it made is taken away and what it replaced is put back.
# Programs and library are for x86-64 Linux; the programs need glibc 2.34 or newer. On a machine that is not x86-64
# lib/libfennqualo.a is the library's own LLVM module compiled for that machine (scripts/native.sh), and the library for
# x86-64 is lib/x86_64-linux-gnu/libfennqualo.a. Needs the Rattle kit (`rt`). Exit: 0 installed, 1 not, 2 wrong use.
set -u
root=$(CDPATH= cd -- "$(dirname -- "$0")/.." && pwd) || exit 2
machine=$(uname -m)

tell() { echo "install: $1" >&2; }
[ $# -eq 1 ] && [ -n "$1" ] || {
    tell "usage: install.sh PREFIX"
    exit 2
}

# ---- whether there is room for it
for folder in . bin lib include share libexec; do
    if [ -e "$1/$folder" ] && { [ ! -d "$1/$folder" ] || [ ! -w "$1/$folder" ]; }; then
        tell "$1/$folder is not a folder that can be written; nothing is installed"
        exit 1
    fi
done

# ---- what is built
sh "$root/fennqualo" build || exit 1
sh "$root/scripts/library.sh" "$root/target/library" || exit 1
library=target/library/libfennqualo.a
if [ "$machine" != x86_64 ]; then
    sh "$root/scripts/native.sh" exports_c "$root/target/native" >/dev/null || {
        tell "the library cannot be compiled for $machine"
        exit 1
    }
    library=target/native/libexports_c.a
fi

# ---- under the prefix: new folders and files are noted, so that they can be taken away again
folders=
files=
undo() {
    trap - INT TERM HUP
    for file in $files; do
        rm -f -- "$prefix/$file" "$prefix/$file.new"
        [ ! -e "$prefix/$file.old" ] || mv -- "$prefix/$file.old" "$prefix/$file"
    done
    for folder in $folders; do rmdir -- "$prefix/$folder" 2>/dev/null; done
    [ -z "$fresh" ] || rmdir -- "$prefix" 2>/dev/null
    tell "$1; nothing is installed"
    exit 1
}

fresh=
if [ ! -d "$1" ]; then
    fresh=yes
    mkdir -p -- "$1" || {
        tell "$1 cannot be made"
        exit 1
    }
fi
prefix=$(CDPATH= cd -- "$1" && pwd) || exit 1
trap 'undo "stopped"' INT TERM HUP

# put MODE FILE NAME: a file of the repository as NAME under the prefix.
put() {
    folder=
    for part in $(dirname -- "$3" | tr / ' '); do
        folder=${folder:+$folder/}$part
        [ -d "$prefix/$folder" ] || {
            mkdir -- "$prefix/$folder" || undo "$prefix/$folder cannot be made"
            folders="$folder $folders"
        }
    done
    files="$files $3"
    [ ! -e "$prefix/$3" ] || cp -p -- "$prefix/$3" "$prefix/$3.old" || undo "$prefix/$3 cannot be kept"
    cp -- "$root/$2" "$prefix/$3.new" && chmod "$1" "$prefix/$3.new" && mv -- "$prefix/$3.new" "$prefix/$3" ||
        undo "$prefix/$3 cannot be written"
}

put 755 fennqualo bin/fennqualo
for program in play batch inspect trace mover quote; do put 755 "target/bin/$program" "libexec/fennqualo/$program"; done
for script in program.sh jobs.sh move.sh; do put 644 "scripts/$script" "libexec/fennqualo/$script"; done
put 644 "$library" lib/libfennqualo.a
[ "$machine" = x86_64 ] || put 644 target/library/libfennqualo.a lib/x86_64-linux-gnu/libfennqualo.a
put 644 include/fennqualo.h include/fennqualo.h
version=$(sed -n 's/^fennqualo //p' "$root/VERSION")
cat >"$root/target/fennqualo.pc" <<END || undo "target/fennqualo.pc cannot be written"
prefix=$prefix
libdir=\${prefix}/lib
includedir=\${prefix}/include

Name: fennqualo
Description: A proved model of a point-to-point multicast network
Version: $version
Libs: -L\${libdir} -lfennqualo
Cflags: -I\${includedir}
END
put 644 target/fennqualo.pc lib/pkgconfig/fennqualo.pc
for file in Cargo.toml build.rs src/lib.rs src/refusal.rs; do put 644 "bindings/rust/$file" "share/fennqualo/rust/$file"; done
for paper in MODEL FORMAT PROMISES TRACE MANY; do put 644 "docs/$paper.md" "share/fennqualo/docs/$paper.md"; done
put 644 VERSION share/fennqualo/VERSION
put 644 target/kit share/fennqualo/kit
trap - INT TERM HUP
for file in $files; do rm -f -- "$prefix/$file.old"; done
echo "install: under $prefix:"
for file in $files; do echo "install:   $file"; done
[ "$machine" = x86_64 ] || echo "install: lib/libfennqualo.a is compiled for $machine, lib/x86_64-linux-gnu has the one for x86-64"
