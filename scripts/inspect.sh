#!/bin/sh
# inspect.sh [COUNT] [SEED]: says of archives what is wrong and where, by the proved program target/bin/inspect (run as
# scripts/program.sh says) and by the second model, and compares the lines: of the corpus, of COUNT fresh archives, a third
# of them damaged, and of names that lead to no file. Every kind of line must have come among the fresh ones. The second
# model must also print the lines that were typed (crates/inspect/stdout; `rt ci` holds the program to them). Then the
# program's words: options, the usage, `--front` with its status, and what cannot be written. Prints one line. The
# program may also be one that FENNQUALO_INSPECT names, as seen from the root.
# Exit: 0 no difference, 1 a difference (the lines stay under target/inspect/), 2 nothing compared.
set -u
export LC_ALL=C
count=${1:-4000}
seed=${2:-1}
root=$(CDPATH= cd -- "$(dirname -- "$0")/.." && pwd) || exit 2
cd "$root" || exit 2
. "$root/scripts/program.sh"
program=$(from_root "${FENNQUALO_INSPECT:-target/bin/inspect}")
export CARGO_TARGET_DIR="$root/target/reference"
second=$CARGO_TARGET_DIR/release
folder=$root/target/inspect

end() {
    echo "inspect: $2"
    exit "$1"
}

can_run "$program" || end 2 "$why"
(cd "$root/reference" && cargo build --release --offline --quiet) || end 2 "the second model does not build"
rm -rf "$folder"
mkdir -p "$folder/fresh" || exit 2

# compared WHAT NAME..: the lines of both, from the folder that is the present one
compared() {
    what=$1
    shift
    "$second/inspect" "$@" >"$folder/$what.second"
    run "$program" "$@" >"$folder/$what.product" 2>"$folder/$what.said"
    cmp -s "$folder/$what.second" "$folder/$what.product" ||
        end 1 "the lines of $what differ: target/inspect/$what.second and .product"
}

# Of the typed words the first `--` ends the options, of which the second model has none.
cd "$root/crates/inspect/data" || exit 2
set --
while IFS= read -r name; do [ "$name" = -- ] || set -- "$@" "$name"; done <../args
"$second/inspect" "$@" | cmp -s - ../stdout || end 1 "the second model does not print crates/inspect/stdout"

cd "$root/corpus" || exit 2
compared corpus *.bin
"$second/generate" "$seed" "$count" "$folder/fresh" >/dev/null || exit 2
cd "$folder/fresh" || exit 2
compared fresh *.bin

# The kinds of lines, numbers taken out; N stands for one.
cat >"$folder/kinds" <<'END'
an archive of N bytes: N site, N sends, N draws
an archive of N bytes: N sites, N sends, N draws
an archive of N bytes, version N, edition N: N site, N sends, N draws
an archive of N bytes, version N, edition N: N sites, N sends, N draws
refused N: N bytes, fewer than the N of a head
refused N: N bytes, fewer than the N of a head of version N
refused N: N bytes, but bytes N and N say N
refused N: more than N bytes, but bytes N and N say N
refused N: byte N, the version, is N, not N or N
refused N: byte N, the edition, is N, not N, N or N
refused N: byte N, the number of sites, is N, not N to N
refused N: byte N, the limit of tries, is N, not N to N
refused N: byte N, the depth of the queues, is N, not N to N
refused N: bytes N to N, the seed, are N
refused N: N bytes, but N sites and N sends make N
refused N: the channel of site N, port N, byte N, is N, and N site has inputs N to N
refused N: the channel of site N, port N, byte N, is N, and N sites have inputs N to N
refused N: the channel of site N, port N, byte N, leads to input N, as site N, port N does
refused N: the channel of site N, port N, bytes N and N, is N, and N sites have inputs N to N
refused N: the channel of site N, port N, bytes N and N, leads to input N, as site N, port N does
refused N: the route from site N to itself, bytes N and N, is R, not R
refused N: the route from site N to site N, bytes N and N, lists no port
refused N: the route from site N to site N, bytes N and N, names port N, and ports are N to N
refused N: the route from site N to site N, bytes N and N, names port N twice
refused N: the route from site N to site N, bytes N and N, names port N, which has no channel
refused N: the route from site N to site N, bytes N and N, is R, with a N left of a port
refused N: send N, byte N, is from site N, and there is site N alone
refused N: send N, byte N, is from site N, and there are sites N to N
refused N: send N, bytes N and N, has an empty set
refused N: send N, bytes N and N, goes to site N, and there are sites N to N
refused N: send N, bytes N to N, has an empty set
refused N: send N, bytes N to N, goes to site N, and there are sites N to N
refused N: send N, bytes N and N, has draw number N, and there are N draws
refused N: send N, bytes N and N, has draw number N, below the N of the send before it
END
sed -e 's/^[^:]*: //' -e 's/is [0-9a-f]\{4\},/is R,/' -e 's/not 0000$/not R/' -e 's/[0-9][0-9]*/N/g' \
    "$folder/fresh.product" | sort | uniq -c >"$folder/met"
while IFS= read -r kind; do
    grep -qxF -e "$kind" <<END || end 1 "no fresh archive has a line like: $kind"
$(sed 's/^ *[0-9]* //' "$folder/met")
END
done <"$folder/kinds"

# Names that lead to no file, or that would break a line; a FIFO must not be waited for (if it is, it is
# opened after a while, and its line differs).
cd "$folder" || exit 2
mkfifo fifo || exit 2
{ sleep 20 && : >fifo; } >/dev/null 2>&1 &
opener=$!
cp "$root/corpus/01-run-r.bin" 'a line
end' || exit 2
cp "$root/corpus/01-run-r.bin" '	tab and \backslash' || exit 2
long=$(printf 'long-%.0s' $(seq 1000))
compared names . fifo /dev/null /dev/tty missing '' "$long" 'a line
end' '	tab and \backslash'
kill "$opener" 2>/dev/null
[ "$(wc -l <names.product)" -eq 9 ] || end 1 "nine names are not nine lines"

# status WANTED WORDS..: the status on descriptor 3 behind --front; standard output and error stay in out and err
status() {
    wanted=$1
    shift
    run "$program" --front 'the front' "$@" >out 2>err 3>told
    [ "$(cat told)" = "$wanted" ] || end 1 "the status of '$*' is '$(cat told)', not $wanted"
    head -n 1 err | grep -qv '^the front: ' && end 1 "a message of '$*' does not begin with the front's name"
    return 0
}

good=$root/corpus/01-run-r.bin
status 0 "$good"
status 0 -- "$good"
status 1 "$good" missing
status 1 "$root/corpus/bound-00-bytes.bin" "$good"
status 1 -- -x
status 2
status 2 --
status 2 -x "$good"
[ ! -s out ] || end 1 "a wrong option does not stop the program"
status 2 --wrong
status 0 --help
[ -s out ] && [ ! -s err ] || end 1 "--help does not print the usage on standard output"
run "$program" --front >out 2>err 3>told
[ "$(cat told)" = 2 ] || end 1 "--front without a name is not wrong"
run "$program" "$good" >out 2>err 3>told
[ ! -s told ] || end 1 "descriptor 3 is written without --front"
if [ -w /dev/full ]; then
    run "$program" --front 'the front' "$good" >/dev/full 2>err 3>told
    [ "$(cat told)" = 1 ] && [ -s err ] || end 1 "a line that cannot be written is not told"
fi
lines=$(wc -l <corpus.product)
end 0 "$((lines)) archives of the corpus and $count fresh ones as expected, $(grep -c . met) kinds of lines; the words"
