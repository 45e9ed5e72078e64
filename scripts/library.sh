#!/bin/sh
# library.sh FOLDER: makes FOLDER/libfennqualo.a from the crate `exports_c`, the C names of `exports`, which is proved for
# it, with what it stands on as far as that is not proved yet; one that is newer than every source is taken as it is. Prints
# nothing if all goes well; target/library.log has what rt said.
set -eu
root=$(CDPATH= cd -- "$(dirname -- "$0")/.." && pwd)
folder=${1:?"usage: library.sh FOLDER"}
log=$root/target/library.log
if ! command -v rt >/dev/null 2>&1; then
    echo "library: the Rattle kit is not installed ('rt' is not on the PATH): without it nothing can be built" >&2
    exit 1
fi
mkdir -p "$folder" "$root/target"
made=$root/target/staticlib/libexports.a
newer() {
    find "$root/crates" "$root/crates.txt" -path "$root/crates/*/out" -prune -o -type f -newer "$made" -print | head -n 1
}
if [ -f "$made" ] && [ -z "$(newer)" ]; then
    cp "$made" "$folder/libfennqualo.a"
    exit 0
fi
if ! sh "$root/scripts/make.sh" exports_c >"$log" 2>&1; then
    tail -n 20 "$log" >&2
    echo "library: the crate exports_c is not proved or not built; target/library.log has the whole log" >&2
    exit 1
fi
cp "$made" "$folder/libfennqualo.a"
