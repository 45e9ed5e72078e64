#!/bin/sh
# native.sh CRATE FOLDER: makes FOLDER/libCRATE.a, of a static library, for a machine that is not x86-64. The kit compiles
# for x86-64 alone, so this keeps the very LLVM module that the kit hands to its clang (a copy of the kit, made of links, has
# another program in clang's place), and has a clang of the kit for this machine compile it, at the kit's -O3: the same
# module, compiled by LLVM for another processor.
# Needs the kit and ar. Prints the library's path. Exit: 0 made, 1 not proved or not compiled, 2 not possible here.
set -eu
root=$(CDPATH= cd -- "$(dirname -- "$0")/.." && pwd)
machine=$(uname -m)
crate=${1:?"usage: native.sh CRATE FOLDER"}
out=${2:?"usage: native.sh CRATE FOLDER"}

end() {
    echo "native: $2" >&2
    exit "$1"
}

[ "$machine" != x86_64 ] || end 2 "not needed on x86-64: 'scripts/make.sh $crate' makes the library"
command -v rt >/dev/null 2>&1 || end 2 "the Rattle kit is not installed: 'rt' is not on the PATH"
command -v ar >/dev/null 2>&1 || end 2 "ar is not there"
home=$(dirname -- "$(rt doc)")
clang=$home/on/$machine/toolchain/bin/clang
[ -x "$clang" ] || end 2 "the kit has no clang for $machine"

# The folder is emptied only if it was made here.
[ ! -e "$out" ] || [ -f "$out/.native" ] || end 2 "$out is there, and was not made by native.sh"
rm -rf "$out"
mkdir -p "$out"
: >"$out/.native"
out=$(CDPATH= cd -- "$out" && pwd)

# A kit of links to the kit, but for clang, and for rt, which looks for its kit beside itself. It is made outside the
# repository, where rt wants no links.
work=$(mktemp -d)
trap 'rm -rf "$work"' EXIT
kit=$work/kit
at=
for next in toolchain bin clang; do
    mkdir -p "$kit$at"
    for entry in "$home$at"/*; do
        [ "${entry##*/}" = "$next" ] || ln -s "$entry" "$kit$at/${entry##*/}"
    done
    at=$at/$next
done
rm "$kit/bin"
mkdir "$kit/bin"
for entry in "$home"/bin/*; do
    case ${entry##*/} in rt | rtlib.py) cp "$entry" "$kit/bin" ;; *) ln -s "$entry" "$kit/bin" ;; esac
done
cat >"$kit$at" <<END
#!/bin/sh
for word in "\$@"; do
    case \$word in *.bc) cp "\$word" "$out/module.bc" ;; esac
done
exec "$home$at" "\$@"
END
chmod +x "$kit$at"
(cd "$root/crates/$crate" && "$kit/bin/rt" lib) >"$out/log" 2>&1 || end 1 "$crate is not proved: $out/log"
[ -f "$out/module.bc" ] || end 1 "the kit handed clang no module: $out/log"

# The module as text, for another target; then rt's own flags but for the processor.
"$clang" --target=x86_64-unknown-linux-gnu -O0 -Xclang -disable-llvm-passes -S -emit-llvm -x ir "$out/module.bc" \
    -o "$out/module.ll"
sed -e '/^target datalayout/d' -e "s/^target triple.*/target triple = \"$machine-unknown-linux-gnu\"/" \
    -e 's/"t[a-z]*-cpu"="[^"]*"//g' -e 's/"target-features"="[^"]*"//g' "$out/module.ll" >"$out/native.ll"
"$clang" --target="$machine-unknown-linux-gnu" -ffunction-sections -fdata-sections -mllvm -trap-unreachable \
    -mllvm -no-trap-after-noreturn --no-default-config -c -x ir "$out/native.ll" -o "$out/$crate.o" -fPIE -O3 \
    -Xclang -fmerge-functions -mllvm -mergefunc-use-aliases || end 1 "the module does not compile for $machine"
ar rcs "$out/lib$crate.a" "$out/$crate.o"
echo "$out/lib$crate.a"
