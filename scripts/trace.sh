#!/bin/sh
# trace.sh: traces the archives of the corpus and the examples, but for those with more than 5,000 draws, by the proved
# program target/bin/trace (run as scripts/program.sh says) and by the second model, with and without --all, and with --why,
# and compares all lines. (An event of a trace tests all 64 sites of the state; under an emulator that is a millisecond.)
# With --apart nothing is played: these lines are compared for all archives. The failed asks of --why have to be those that
# the trace shows: the tries that fail, and at T draws of a net-input that change nothing. Then it sees that the product's
# traces of the corpus tell the book: their services in order and their last lines are crates/batch/stdout. Then the
# program's words: what it says of odd names, and the status that a front gets on descriptor 3; and that
# crates/trace/stdout, examples/routes-*.txt and examples/torus-4x4-apart.txt are the second model's. Prints one line. It
# needs cargo; nothing is fetched.
# Exit: 0 no difference, 1 a difference (the lines stay in target/trace/), 2 no program.
set -u
export LC_ALL=C
root=$(CDPATH= cd -- "$(dirname -- "$0")/.." && pwd) || exit 2
cd "$root" || exit 2
. "$root/scripts/program.sh"
. "$root/scripts/draws.sh"
program=$(from_root "${FENNQUALO_TRACE:-target/bin/trace}")
export CARGO_TARGET_DIR="$root/target/reference"
second=$CARGO_TARGET_DIR/release/trace
folder=$root/target/trace

end() {
    printf 'trace: %s\n' "$2"
    exit "$1"
}

can_run "$program" || end 2 "$why"
(cd "$root/reference" && cargo build --release --offline --quiet) || end 2 "the second model is not built"
rm -rf "$folder"
mkdir -p "$folder" || exit 2

# same_asks: whether the failed asks in `printed--why` are those in `printed--all`: with each `seek, try` one, and the others
# draws in which this net-input did nothing
same_asks() {
    awk '
        part == 1 { if ($1 + 0 == $1) { packet[$1 ": site " $2 ", net-input " $3 ":"] = $4 "," } next }
        $5 != "net-input" { next }
        { draw = $2 " " $3 " " $4 " " $5 " " $6 }
        $9 == "seek," && $10 == "try" { if (packet[draw] != $8) exit; delete packet[draw]; next }
        $7 == "nothing" { delete packet[draw] }
        END { for (draw in packet) exit 1 }' part=1 "$folder/printed--why" part=2 "$folder/printed--all"
}

# told WORD: both models print the same of `file` with this word, or with none; it stays in `printed` and the word
told() {
    printed=$folder/printed$1
    "$second" $1 "$file" >"$folder/expected"
    run "$program" $1 -- "$file" >"$printed" || end 1 "the program failed on $name"
    cmp -s "$folder/expected" "$printed" ||
        end 1 "$name $1: $(diff "$folder/expected" "$printed" | grep -c '^[<>]') lines differ in target/trace/"
}

# the lines of each archive, the plain trace of the corpus kept under its name
sites=0
lines=0
files=0
longer=0
failed=0
for file in "$root"/corpus/*.bin "$root"/examples/*.bin; do
    name=${file##*/}
    told --apart
    sites=$((sites + $(grep -c '^[0-9]' "$printed")))
    if [ "$(draws "$file")" -gt 5000 ]; then
        longer=$((longer + 1))
        continue
    fi
    for word in '' --all --why; do
        told "$word"
        lines=$((lines + $(wc -l <"$printed")))
    done
    case $file in "$root"/corpus/*) cp "$folder/printed" "$folder/$name.txt" ;; esac
    same_asks || end 1 "$name: --why has other failed asks than --all shows, in target/trace/"
    failed=$((failed + $(grep -c '^[0-9]' "$folder/printed--why")))
    files=$((files + 1))
done

# the book of each trace, in the form of crates/batch/stdout; a name that cannot be read has none, and one that was not
# traced is left out of both
while IFS= read -r name || [ -n "$name" ]; do
    [ -f "$folder/${name##*/}.txt" ] || continue
    echo "$name" >>"$folder/names"
    awk -v name="$name" '
        { sub(", split operator: ", ", operator: ") }
        $1 == "draw" && $5 == "operator:" && $8 == "serviced" {
            sub(":", "", $2); sub(",", "", $11); print $2, $7, $11
        }
        { last = $0 }
        END { print name ": " last }' "$folder/${name##*/}.txt"
done <"$root/crates/batch/stdin" >"$folder/book"
lines_of "$folder/names" "$root/crates/batch/stdout" >"$folder/book-expected"
cmp -s "$folder/book-expected" "$folder/book" || end 1 "the traces' book is not crates/batch/stdout: target/trace/book"

# said STATUS TEXT WORDS..: behind a front's words the program gives this status on descriptor 3 and, if there is a text, a
# message that begins with the front's name and has it; without a front no status, and a message under its own name
said() {
    status=$1
    text=$2
    shift 2
    timeout 20 sh -c '. "$root/scripts/program.sh"; run "$@"' sh "$program" --front 'the desk' "$@" \
        3>"$folder/status" >"$folder/out" 2>"$folder/messages" || end 1 "the program hangs or fails on: $*"
    [ "$(cat "$folder/status")" = "$status" ] || end 1 "status $(cat "$folder/status"), not $status, of: $*"
    first=$(head -n 1 "$folder/messages")
    run "$program" "$@" 3>"$folder/status" >"$folder/out" 2>"$folder/messages" || end 1 "the program fails on: $*"
    [ ! -s "$folder/status" ] || end 1 "a status without a front: $*"
    own=$(head -n 1 "$folder/messages")
    if [ -z "$text" ]; then
        [ -z "$first$own" ] || end 1 "a message where none is due: $own"
    else
        case $first in "the desk: "*"$text"*) ;; *) end 1 "no message '$text' but '$first' of: $*" ;; esac
        case $own in "trace: "*"$text"*) ;; *) end 1 "no message '$text' but '$own' of: $*" ;; esac
    fi
}

export root
mkfifo "$folder/fifo" || exit 2
cp examples/two-sites.bin "$folder/--all" && cp examples/routes-one.bin "$folder/--why" || exit 2
cp examples/torus-4x4.bin "$folder/--apart" || exit 2
: >"$folder/empty"
head -c 100 examples/routes-one.bin >"$folder/half"
cd "$folder" || exit 2
said 0 '' --help
said 0 '' "$root/examples/two-sites.bin"
said 0 '' --all -- --all
said 1 '' empty
said 1 'missing.bin cannot be read: there is no such file' missing.bin
said 1 'cannot be read: it is a folder' .
said 1 'cannot be read: it is not a file' fifo
said 1 'cannot be read: it is not a file' /dev/zero
said 1 'a\nb cannot be read' "$(printf 'a\nb')"
said 1 'cannot be read: it is too long' "$(printf 'long-%.0s' $(seq 1200))"
said 2 'there is no option --al' --al "$root/examples/two-sites.bin"
said 2 'there is no option -a' -a
said 2 'trace takes one file' --all
said 2 'trace takes one file' a b
for tells in why apart; do
    said 0 '' --$tells --help
    grep -q "^usage: trace --$tells \\[--] FILE\$" out || end 1 "no usage of --$tells: $(cat out)"
    said 1 '' --$tells empty
    said 1 '' half --$tells
    [ "$(cat out)" = 'refused 1' ] || end 1 "--$tells prints of half a file: $(cat out)"
    said 1 'missing.bin cannot be read: there is no such file' --$tells missing.bin
    said 2 "--all does not go with --$tells" --all --$tells "$root/examples/two-sites.bin"
    said 2 "--all does not go with --$tells" --$tells "$root/examples/two-sites.bin" --all
    said 2 "there is no option --${tells%?}" --${tells%?} "$root/examples/two-sites.bin"
    said 2 "$tells takes one file" --$tells
    said 2 "$tells takes one file" --$tells a b
done
said 0 '' --why "$root/examples/two-sites.bin"
[ ! -s out ] || end 1 "--why prints lines of a run without failed asks: $(cat out)"
said 0 '' --why -- --why
cmp -s "$root/examples/routes-one.txt" out || end 1 "--why of a file of that name prints other lines"
said 0 '' --apart "$root/examples/two-sites.bin"
[ "$(cat out)" = "$(printf '0 {}\n1 {}')" ] || end 1 "--apart prints of two sites joined both ways: $(cat out)"
said 0 '' --apart -- --apart
cmp -s "$root/examples/torus-4x4-apart.txt" out || end 1 "--apart of a file of that name prints other lines"
said 2 '--why does not go with --apart' --apart "$root/examples/two-sites.bin" --why
if [ -c /dev/full ]; then
    for words in two-sites.bin '--why routes-one.bin' '--apart torus-4x4.bin'; do
        (cd "$root/examples" && run "$program" --front 'the desk' $words) 3>status >/dev/full 2>messages
        [ "$(cat status)" = 1 ] || end 1 "status $(cat status) with an output that cannot be written: $words"
        grep -q '^the desk: standard output cannot be written: ' messages || end 1 "no message of a full output: $words"
    done
fi

# what rt runs is the example, and the stored traces are the second model's
cd "$root" || exit 2
cmp -s crates/trace/data/two-sites.bin examples/two-sites.bin || end 1 "crates/trace/data has not the example"
"$second" crates/trace/data/two-sites.bin | cmp -s - crates/trace/stdout || end 1 "crates/trace/stdout is not the second model's"
for name in routes-one routes-two; do
    "$second" --why "examples/$name.bin" | cmp -s - "examples/$name.txt" || end 1 "examples/$name.txt is not the second model's"
done
name=torus-4x4
"$second" --apart "examples/$name.bin" | cmp -s - "examples/$name-apart.txt" || end 1 "examples/$name-apart.txt is not the second model's"
end 0 "$files archives with and without --all and with --why, $lines lines, $failed of them failed asks, 0 differences, $longer longer ones left alone; all $((files + longer)) with --apart, $sites sites; the book of each as expected; words and messages"
