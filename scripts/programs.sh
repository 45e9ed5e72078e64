#!/bin/sh
# programs.sh: how `play` and `batch` behave at a desk, beside what they play: the words that they are called with,
# names of every kind, what cannot be read or written, the line of numbers for the front, one write a line. The
# expected lines are typed here. Prints a line for each thing that is wrong or could not be tried, and one line at the
# end. The programs are target/bin/play and target/bin/batch (run as scripts/program.sh says), or those that
# FENNQUALO_PLAY and FENNQUALO_BATCH name, as seen from the root. Exit: 0 all as expected, 1 something was not, 2 no
# program.
set -u
export LC_ALL=C
root=$(CDPATH= cd -- "$(dirname -- "$0")/.." && pwd) || exit 2
. "$root/scripts/program.sh"
play=$(from_root "${FENNQUALO_PLAY:-target/bin/play}")
batch=$(from_root "${FENNQUALO_BATCH:-target/bin/batch}")
for program in "$play" "$batch"; do
    can_run "$program" || {
        echo "programs: $why"
        exit 2
    }
done
tried=0
wrong=0
work=$(mktemp -d "${TMPDIR:-/tmp}/programs.XXXXXX") || exit 2
trap 'rm -rf "$work"' EXIT
chmod 755 "$work"
mkdir "$work/got" "$work/desk" && cd "$work/desk" || exit 2
got=$work/got

# run R, the archive of examples/run-r.bin (one packet, owed), the archive of one site that services once, and a refused one: 23 bytes
printf '\0\030\001\001\003\001\0\0\0\001\0\002\001\377\377\377\377\0\0\0\0\0\0\001' >r.bin
cp "$root/corpus/hand-one-site.bin" one.bin
printf '\0\030\001\001\003\001\0\0\0\001\0\002\001\377\377\377\377\0\0\0\0\0\0' >short.bin
r_line='accepted 1 pairs 1 serviced 0 owed 1'

# say WORDS..: something is wrong.
say() {
    printf 'programs: %s\n' "$*"
    wrong=$((wrong + 1))
}

# start PROGRAM WORDS..: runs it, for at most 20 s.
start() {
    can_run "$1" || return 126
    if [ -z "$emulator" ]; then
        timeout 20 "$@"
    else
        timeout 20 "$emulator" "$tools/lib/ld-linux-x86-64.so.2" --library-path "$tools/lib" "$@"
    fi
}

# call PROGRAM WORDS..: the same, with standard input as it stands; what it writes goes to files.
call() {
    start "$@" >"$got/out" 2>"$got/err" 3>"$got/numbers"
    [ $? -ne 124 ] || say "it hangs: $*"
}

# same WHAT FILE TEXT: the file holds these lines, to the last byte, or nothing.
same() {
    if [ -n "$3" ]; then printf '%s\n' "$3"; fi >"$got/want"
    cmp -s "$got/want" "$got/$2" || say "$1: $2 is $(sed -n l "$got/$2")"
}

# expect WHAT OUT ERR NUMBERS: what the last call wrote.
expect() {
    tried=$((tried + 1))
    same "$1" out "$2"
    same "$1" err "$3"
    same "$1" numbers "$4"
}

# behind `usage: NAME`
usage_play=' [--] [FILE]
Plays the archive in FILE, or on standard input: a line `draw packet site` for each
service, then `accepted A pairs P serviced V owed O`; or only `refused N`.'
usage_batch=' [--services] [-0] [--slice A B] [--unplayed] [--] [NAME..]
Plays the archives of these names, or of those on standard input, one to a line.
  --services   prints the services of each too, before its line
  -0           a name on standard input ends with a 0, not with its line
  --slice A B  leaves out A names of standard input and plays the next B; no totals
  --unplayed   opens nothing, and says `not played` of each name'

# ---- play: its words, and each status

call "$play" r.bin
expect 'play FILE' "$r_line" '' ''
call "$play" --front desk r.bin
expect 'play FILE for the front' "$r_line" '' '0'
call "$play" --front desk <one.bin
expect 'play, standard input' '7 0 0
accepted 2 pairs 2 serviced 1 owed 1' '' '0'
call "$play" --front desk -- short.bin
expect 'play, a refused archive' 'refused 1' '' '1'
call "$play" --front desk none.bin
expect 'play, no file' '' 'desk: none.bin cannot be read: there is no such file' '1'
call "$play" none.bin
expect 'play, no file, without the front' '' 'play: none.bin cannot be read: there is no such file' ''
call "$play" --front desk --help
expect 'play --help' "usage: desk$usage_play" '' '0'
call "$play" --front desk --quick r.bin
expect 'play, unknown option' '' "desk: there is no option --quick
usage: desk$usage_play" '2'
call "$play" --front desk r.bin one.bin
expect 'play, two files' '' "desk: play takes one file
usage: desk$usage_play" '2'
call "$play" --front
expect 'play --front alone' '' "play: --front wants a name
usage: play$usage_play" '2'
cp r.bin ./-r.bin
call "$play" --front desk -- -r.bin
expect 'play, a leading dash' "$r_line" '' '0'
call "$play" --front desk -r.bin
expect 'play, a leading dash without --' '' "desk: there is no option -r.bin
usage: desk$usage_play" '2'
cp r.bin -- -
call "$play" --front desk -
expect 'play, a file called -' "$r_line" '' '0'

# ---- batch: its words, and each status

call "$batch" --front desk r.bin one.bin
expect 'batch, all played' "r.bin: $r_line
one.bin: accepted 2 pairs 2 serviced 1 owed 1
files 2 played 2 refused 0 unreadable 0" '' '0 2 2 0 0'
call "$batch" one.bin --services r.bin
expect 'batch, an option between names' "7 0 0
one.bin: accepted 2 pairs 2 serviced 1 owed 1
r.bin: $r_line
files 2 played 2 refused 0 unreadable 0" '' ''
call "$batch" --front desk short.bin none.bin r.bin
expect 'batch, refused and unreadable' "short.bin: refused 1
none.bin: cannot be read
r.bin: $r_line
files 3 played 1 refused 1 unreadable 1" 'desk: none.bin cannot be read: there is no such file' '1 3 1 1 1'
call "$batch" --front desk --help
expect 'batch --help' "usage: desk$usage_batch" '' '0 0 0 0 0'
call "$batch" --front desk r.bin --all
expect 'batch, unknown option' '' "desk: there is no option --all
usage: desk$usage_batch" '2 0 0 0 0'
call "$batch" -1 r.bin
expect 'batch, unknown short option' '' "batch: there is no option -1
usage: batch$usage_batch" ''
call "$batch" --front desk -- --services -r.bin r.bin
expect 'batch --' "--services: cannot be read
-r.bin: $r_line
r.bin: $r_line
files 3 played 2 refused 0 unreadable 1" 'desk: --services cannot be read: there is no such file' '1 3 2 0 1'
call "$batch" --front desk --slice 1
expect 'batch, half a slice' '' "desk: --slice wants two numbers
usage: desk$usage_batch" '2 0 0 0 0'
call "$batch" --front desk --slice 1 x1
expect 'batch, a slice of no number' '' "desk: --slice wants two numbers
usage: desk$usage_batch" '2 0 0 0 0'
call "$batch" --front desk --slice 1 2 r.bin
expect 'batch, a slice of arguments' '' "desk: --slice takes its names from standard input
usage: desk$usage_batch" '2 0 0 0 0'
call "$batch" --front desk --unplayed r.bin none.bin
expect 'batch --unplayed' "r.bin: not played
none.bin: not played
files 2 played 0 refused 0 unreadable 2" '' '1 2 0 0 2'
call "$batch" --front desk </dev/null
expect 'batch, no name' 'files 0 played 0 refused 0 unreadable 0' '' '0 0 0 0 0'

# ---- names

newline=$(printf 'a\nb.bin')
escape=$(printf 'esc\033[1m\\.bin')
return=$(printf 'cr\r')
cp r.bin 'two words.bin'
cp r.bin "$newline"
cp r.bin "$escape"
cp r.bin "$return"
call "$batch" 'two words.bin' "$newline" "$escape" "$return" ''
expect 'names as arguments' "two words.bin: $r_line
a\nb.bin: $r_line
esc\x1b[1m\\\\.bin: $r_line
cr\r: $r_line
: cannot be read
files 5 played 4 refused 0 unreadable 1" 'batch:  cannot be read: there is no such file' ''
call "$play" --front desk "$(printf 'no\tfile\177')"
expect 'a strange name in a message' '' 'desk: no\tfile\x7f cannot be read: there is no such file' 1
printf 'two words.bin\r\nr.bin\r\n-r.bin\r\n' >list
call "$batch" <list
expect 'a list with CRLF' "two words.bin: $r_line
r.bin: $r_line
-r.bin: $r_line
files 3 played 3 refused 0 unreadable 0" '' ''
printf 'r.bin\ntwo words.bi' >list
call "$batch" --front desk <list
expect 'a list that ends in the middle' "r.bin: $r_line
two words.bi: cannot be read
files 2 played 1 refused 0 unreadable 1" 'desk: two words.bi cannot be read: there is no such file' '1 2 1 0 1'
printf 'two words.bin\0a\nb.bin\0cr\r\0-r.bin' >list
call "$batch" -0 <list
expect 'a list with -0' "two words.bin: $r_line
a\nb.bin: $r_line
cr\r: $r_line
-r.bin: $r_line
files 4 played 4 refused 0 unreadable 0" '' ''
printf 'r.bin\0short.bin\n' >list
call "$batch" <list
expect 'a 0 in a line' 'r.bin\x00short.bin: cannot be read
files 1 played 0 refused 0 unreadable 1' 'batch: r.bin\x00short.bin cannot be read: Invalid argument' ''
long=$(printf '%05000d' 0)
printf '%s\nr.bin\n' "$long" >list
too_long='batch: a name of more than 4,095 bytes cannot be read: it is too long'
for words in '' "$long r.bin"; do
    # (the word splitting is wanted)
    call "$batch" $words <list
    expect 'a name longer than a path' "$long: cannot be read
r.bin: $r_line
files 2 played 1 refused 0 unreadable 1" "$too_long" ''
done

# ---- what is no file, or may not be read

mkdir folder && mkfifo fifo
printf 'folder\nfifo\n/dev/zero\n/dev/null\nr.bin/x\nnone.bin\n' >list
call "$batch" --front desk <list
expect 'no files' 'folder: cannot be read
fifo: cannot be read
/dev/zero: cannot be read
/dev/null: cannot be read
r.bin/x: cannot be read
none.bin: cannot be read
files 6 played 0 refused 0 unreadable 6' 'desk: folder cannot be read: it is a folder
desk: fifo cannot be read: it is not a file
desk: /dev/zero cannot be read: it is not a file
desk: /dev/null cannot be read: it is not a file
desk: r.bin/x cannot be read: Not a directory
desk: none.bin cannot be read: there is no such file' '1 6 0 0 6'
ln -s fifo link
call "$play" --front desk link
expect 'play, a link to a FIFO' '' 'desk: link cannot be read: it is not a file' 1
call "$play" --front desk /dev/zero
expect 'play, a device' '' 'desk: /dev/zero cannot be read: it is not a file' 1
call "$play" --front desk folder
expect 'play, a folder' '' 'desk: folder cannot be read: it is a folder' 1
cat r.bin | call "$play" --front desk
expect 'play, a pipe on standard input' "$r_line" '' 0

# as_other PROGRAM WORDS..: the same as `call`, as a user who may not read everything.
as_other() {
    if [ "$(id -u)" -ne 0 ]; then
        call "$@"
    elif [ -n "$emulator" ] || ! command -v setpriv >/dev/null 2>&1; then
        return 1
    else
        timeout 20 setpriv --reuid=65534 --regid=65534 --clear-groups "$@" \
            >"$got/out" 2>"$got/err" 3>"$got/numbers"
    fi
}
cp r.bin secret.bin && chmod 000 secret.bin
if as_other "$batch" --front desk r.bin && [ "$(cat "$got/numbers")" = '0 1 1 0 0' ]; then
    as_other "$batch" --front desk secret.bin
    expect 'no permission' 'secret.bin: cannot be read
files 1 played 0 refused 0 unreadable 1' 'desk: secret.bin cannot be read: no permission' '1 1 0 0 1'
else
    echo 'programs: left out: a file without permission (root reads everything, and there is no other user to be)'
fi

# ---- standard input and output that are not there

call "$play" --front desk <&-
expect 'play, closed standard input' '' 'desk: standard input cannot be read: Bad file descriptor' 1
call "$play" --front desk <.
expect 'play, a folder on standard input' '' 'desk: standard input cannot be read: it is a folder' 1
call "$batch" --front desk <&-
expect 'batch, closed standard input' 'files 0 played 0 refused 0 unreadable 0' \
    'desk: standard input cannot be read: Bad file descriptor' '1 0 0 0 0'
call "$batch" --front desk <.
expect 'batch, a folder on standard input' 'files 0 played 0 refused 0 unreadable 0' \
    'desk: standard input cannot be read: it is a folder' '1 0 0 0 0'
: >"$got/out"
start "$play" --front desk one.bin >&- 2>"$got/err" 3>"$got/numbers"
expect 'play, closed standard output' '' 'desk: standard output cannot be written: Bad file descriptor' 1
start "$batch" --front desk one.bin r.bin >&- 2>"$got/err" 3>"$got/numbers"
expect 'batch, closed standard output' '' 'desk: standard output cannot be written: Bad file descriptor' '1 1 1 0 0'
if [ -c /dev/full ]; then
    full='desk: standard output cannot be written: No space left on device'
    start "$play" --front desk one.bin >/dev/full 2>"$got/err" 3>"$got/numbers"
    expect 'play, a full disk' '' "$full" 1
    start "$batch" --front desk r.bin one.bin >/dev/full 2>"$got/err" 3>"$got/numbers"
    expect 'batch, a full disk' '' "$full" '1 1 1 0 0'
    start "$batch" --front desk --services one.bin r.bin >/dev/full 2>"$got/err" 3>"$got/numbers"
    expect 'batch, a full disk for services' '' "$full" '1 1 1 0 0'
    start "$batch" --front desk --help >/dev/full 2>"$got/err" 3>"$got/numbers"
    expect 'batch --help, a full disk' '' "$full" '1 0 0 0 0'
    printf 'none.bin\nr.bin\nr.bin\n' >list
    start "$batch" --front desk <list >/dev/full 2>"$got/err" 3>"$got/numbers"
    expect 'batch, a full disk, names on standard input' '' "desk: none.bin cannot be read: there is no such file
$full" '1 1 0 0 1'
else
    echo 'programs: left out: a full disk (there is no /dev/full)'
fi

# ---- slices: put together they are the whole corpus, as the second model has it, but for the totals

names=$root/crates/batch/stdin
cd "$root/corpus" || exit 2
for from in 0 40 80 120 160 200 240 280 320 360 400 440; do
    start "$batch" --front desk --services --slice $from 40 <"$names" 2>>"$got/slices.err" 3>>"$got/slices.numbers"
done >"$got/out"
cd "$work/desk" || exit 2
tried=$((tried + 1))
sed '$d' "$root/crates/batch/stdout" | cmp -s - "$got/out" || say 'the slices are not the whole'
awk '{ s += $1; f += $2; p += $3; r += $4; u += $5 } END { print s, f, p, r, u }' "$got/slices.numbers" >"$got/numbers"
same 'the numbers of the slices' numbers '11 449 242 203 4'
printf 'r.bin\nnone.bin\n%s\nshort.bin\n' "$long" >list
call "$batch" --front desk --slice 3 1 <list
expect 'a slice behind a long name' 'short.bin: refused 1' '' '1 1 0 1 0'
call "$batch" --front desk --unplayed --slice 1 2 <list
expect 'a slice that is not played' "none.bin: not played
$long: not played" '' '1 2 0 0 2'
call "$batch" --front desk --slice 0 0 <list
expect 'an empty slice' '' '' '0 0 0 0 0'

# ---- one write a line

writes='by strace'
if command -v strace >/dev/null 2>&1 && can_run "$batch" && [ -z "$emulator" ] &&
    (cd "$root/corpus" && strace -s 9000 -e trace=write -o "$got/strace" "$batch" --services <"$names") \
        >"$got/out" 2>"$got/err"
then
    tried=$((tried + 1))
    cmp -s "$root/crates/batch/stdout" "$got/out" || say 'one write a line: another output under strace'
    # every write ends with a line, and but for services is one line; services take 4,096 bytes at most
    awk -v files="$(grep -c "" "$names")" '
        /^write\(1,/ {
            if (!match($0, /\\n", [0-9]+\) += [0-9]+$/)) bad++
            size = $NF
            text = $0
            lines = gsub(/\\n/, "", text)
            if ($0 ~ /(accepted|refused|cannot be read)/) {
                told++
                if (lines != 1) bad++
            } else if (size > 4096) bad++
        }
        END { exit (bad || told != files + 1) }
    ' "$got/strace" || say 'a line is not one write (strace)'
else
    writes='through a pipe alone, without strace'
fi
# four batches into one pipe: no line is torn
i=0
while [ $i -lt 400 ]; do
    printf 'a name of some length, so that a line is long enough to be torn, number %03d\n' $i
    i=$((i + 1))
done >list
{
    for k in 1 2 3 4; do start "$batch" --unplayed --slice 0 400 <list & done
    wait
} 2>"$got/err" | sort | uniq -c | awk '{ $1 = $1 " of"; print }' >"$got/out"
sed 's/^/4 of /; s/$/: not played/' list | sort >"$got/want"
tried=$((tried + 1))
cmp -s "$got/want" "$got/out" || say 'lines of several batches are torn'

[ $wrong -eq 0 ] || {
    echo "programs: $wrong of $tried calls are not as expected"
    exit 1
}
echo "programs: $tried calls of play and batch as expected, one write a line seen $writes"
