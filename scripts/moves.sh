#!/bin/sh
# moves.sh: moves every archive of the corpus over and back, by the proved program target/bin/mover (run as
# scripts/program.sh says) and by the second model, and compares what they tell of each, its refusal or its length, and
# every byte. Then the product's moved files are moved the other way again, to the bytes that they came from, and played
# by target/bin/batch: the lines of crates/batch/stdout, services included. Then the program's words: the ways, options,
# the usage, `--front` with its line of numbers, and what cannot be read or written. Prints one line. The program may
# also be one that FENNQUALO_MOVER names, as seen from the root.
# Exit: 0 no difference, 1 a difference (the files stay under target/moves/), 2 nothing compared.
set -u
export LC_ALL=C
root=$(CDPATH= cd -- "$(dirname -- "$0")/.." && pwd) || exit 2
cd "$root" || exit 2
. "$root/scripts/program.sh"
. "$root/scripts/draws.sh"
batch=$root/target/bin/batch
mover=$(from_root "${FENNQUALO_MOVER:-target/bin/mover}")
export CARGO_TARGET_DIR="$root/target/reference"
second=$CARGO_TARGET_DIR/release/moves
folder=$root/target/moves

end() {
    echo "moves: $2"
    exit "$1"
}

can_run "$batch" || end 2 "$why"
can_run "$mover" || end 2 "$why"
under=$emulator
(cd "$root/reference" && cargo build --release --offline --quiet) || end 2 "the second model does not build"
cmp -s crates/mover/data/two-sites.bin examples/two-sites.bin || end 1 "crates/mover/data has not the example's bytes"
cmp -s crates/mover/stdout examples/two-sites-v2.bin || end 1 "crates/mover/stdout is not the example of version 2"
rm -rf "$folder"
mkdir -p "$folder" || exit 2

# call WORDS..: runs the program as is known from above; to ask for each file anew would take most of the time
call() {
    if [ -z "$under" ]; then
        "$mover" "$@"
    else
        "$under" "$tools/lib/ld-linux-x86-64.so.2" --library-path "$tools/lib" "$mover" "$@"
    fi
}

# move WAY FROM TO: every archive of a folder by the product, and its lines as the second model prints them. What is
# refused has to leave no byte and no message.
move() {
    moved=0
    refused=0
    mkdir "$3" || exit 2
    for file in "$2"/*.bin; do
        name=${file##*/}
        told=$(call --front moves "$1" "$file" 3>&1 >"$3/$name" 2>"$folder/said")
        if [ -s "$folder/said" ]; then
            echo "$name: $(head -n 1 "$folder/said")"
        elif [ "$told" = '0 0' ]; then
            moved=$((moved + 1))
            echo "$name: $(($(wc -c <"$3/$name"))) bytes"
        elif [ -s "$3/$name" ]; then
            echo "$name: told '$told', and wrote bytes"
        else
            refused=$((refused + 1))
            rm "$3/$name"
            echo "$name: refused ${told#1 }"
        fi
    done
    echo "files $((moved + refused)) moved $moved refused $refused"
}

# there_and_back WAY OTHER: the corpus that way, compared with the second model; again the other way; played.
there_and_back() {
    there=$folder/$1
    move "$1" corpus "$there" >"$there.product"
    mkdir "$there.model" || exit 2
    "$second" "$1" corpus "$there.model" >"$there.second" || end 2 "the second model does not move"
    cmp -s "$there.second" "$there.product" ||
        end 1 "$1: the lines differ, target/moves/$1.second and $1.product"
    diff -r "$there.model" "$there" >/dev/null || end 1 "$1: the bytes differ, target/moves/$1.model and $1"
    move "$2" "$there" "$there.again" >"$there.lines"
    [ "$refused" -eq 0 ] || end 1 "$1: $refused moved files do not go $2 again, target/moves/$1.lines"
    for file in "$there"/*.bin; do
        cmp -s "corpus/${file##*/}" "$there.again/${file##*/}" || end 1 "$1 and $2: ${file##*/} has other bytes"
    done
    (cd "$there" && printf '%s\n' *.bin) >"$there.files"
    grep -Fx -f "$there.files" crates/batch/stdin >"$there.names"
    [ "$(grep -c . "$there.names")" -eq "$moved" ] || end 1 "$1: of the moved files some are not in crates/batch/stdin"
    (cd "$there" && run "$batch" --services <"$there.names") | grep -v '^files ' >"$there.played"
    lines_of "$there.names" crates/batch/stdout | cmp -s - "$there.played" ||
        end 1 "$1: a moved file plays another run, target/moves/$1.played"
}

there_and_back over back
there_and_back back over

# ---- the words of the program

calls=0
one=examples/two-sites.bin
two=examples/two-sites-v2.bin

# called WANTED WORDS..: calls for the front, compares the line of numbers and sees that a refusal says nothing and that
# what was not moved wrote nothing; standard output and error stay in out and err
called() {
    wanted=$1
    shift
    call --front desk "$@" >"$folder/out" 2>"$folder/err" 3>"$folder/told"
    [ "$(cat "$folder/told")" = "$wanted" ] || end 1 "the numbers of '$*' are '$(cat "$folder/told")', not $wanted"
    case $wanted in
    '0 0' | 1\ [1-9]*) [ ! -s "$folder/err" ] || end 1 "'$*' says: $(cat "$folder/err")" ;;
    *) head -n 1 "$folder/err" | grep -q '^desk: ' || end 1 "'$*' does not say why it did not move" ;;
    esac
    case $wanted in 0*) ;; *) [ ! -s "$folder/out" ] || end 1 "'$*' moved nothing and wrote bytes" ;; esac
    calls=$((calls + 1))
}

# wrote FILE: the last call wrote these bytes
wrote() { cmp -s "$1" "$folder/out" || end 1 "a call did not write the bytes of $1"; }

called '0 0' over "$one"
wrote "$two"
called '0 0' back -- "$two"
wrote "$one"
called '0 0' -- over "$one"
wrote "$two"
called '0 0' over <"$one"
wrote "$two"
called '1 1' back </dev/null
called '1 2' over "$two"
called '1 2' back "$one"
called '1 15' back examples/torus-8x8.bin
called '1 15' back examples/held-e2.bin
called '1 15' back examples/branch-e3.bin
called '1 0' over examples/none.bin
called '1 0' over examples
called '1 0' over /dev/null
called '1 0' over -- --help
called '2 0'
called '2 0' --
called '2 0' there "$one"
called '2 0' over "$one" "$two"
called '2 0' over --twice "$one"
called '0 0' --help
grep -q '^usage: desk \[--\] over|back \[FILE\]$' "$folder/out" || end 1 "--help does not print the usage"
if [ -w /dev/full ]; then
    call --front desk over "$one" >/dev/full 2>"$folder/err" 3>"$folder/told"
    [ "$(cat "$folder/told")" = '1 0' ] && [ -s "$folder/err" ] || end 1 "bytes that cannot be written are not told"
    calls=$((calls + 1))
fi
call --front >"$folder/out" 2>"$folder/err" 3>"$folder/told"
[ "$(cat "$folder/told")" = '2 0' ] || end 1 "--front without a name is not wrong"
call back examples/torus-8x8.bin >"$folder/out" 2>"$folder/err" 3>"$folder/told"
[ "$(cat "$folder/err")" = 'mover: refused 15' ] || end 1 "without --front a refusal is not said"
[ ! -s "$folder/told" ] && [ ! -s "$folder/out" ] || end 1 "without --front a refusal is written elsewhere"
over=$(tail -n 1 "$folder/over.product")
back=$(tail -n 1 "$folder/back.product")
end 0 "over $over, back $back, each again as it was and with its services; $((calls + 2)) calls"
