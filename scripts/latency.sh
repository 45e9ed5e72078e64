#!/bin/sh
# latency.sh: uncontended latencies by the proved program target/bin/quote (run as scripts/program.sh says). It is
# called for every row of tests/latency/table.txt, which is the second model's, plain and with --doubled; then with
# words typed here: what is a number and what is none, options in every place, the usage, `--front`, and what cannot be
# written. Of each call three things are held to what is expected: standard output, standard error, and the status on
# descriptor 3. Prints one line. The program may also be one that FENNQUALO_QUOTE names, as seen from the root.
# Exit: 0 all as expected, 1 a difference (the lines stay under target/latency/), 2 nothing compared.
set -u
export LC_ALL=C
root=$(CDPATH= cd -- "$(dirname -- "$0")/.." && pwd) || exit 2
cd "$root" || exit 2
. "$root/scripts/program.sh"
program=$(from_root "${FENNQUALO_QUOTE:-target/bin/quote}")
table=tests/latency/table.txt
folder=$root/target/latency

end() {
    echo "latency: $2"
    exit "$1"
}

can_run "$program" || end 2 "$why"
under=$emulator
[ -s "$table" ] || end 2 "$table is not there"
rm -rf "$folder"
mkdir -p "$folder" || exit 2

# What the calls tell, print and say, each behind a line `= ` with its words, and beside it what they have to.
exec 3>"$folder/told" 4>"$folder/out" 5>"$folder/err" || exit 2
exec 6>"$folder/told.expected" 7>"$folder/out.expected" 8>"$folder/err.expected" || exit 2
newline='
'
calls=0

# call WORDS..: runs the program as is known from above; to ask for each call anew would take most of the time. Its own
# exit status is 0, whatever it tells.
call() {
    if [ -z "$under" ]; then
        "$program" "$@" </dev/null
    else
        "$under" "$tools/lib/ld-linux-x86-64.so.2" --library-path "$tools/lib" "$program" "$@" </dev/null
    fi || echo "it ended with exit status $?" >&3
}

# expect STATUS OUT ERR WORDS..: a call with these words comes now, and tells, prints and says these lines, or nothing
expect() {
    calls=$((calls + 1))
    status=$1
    out=$2
    err=$3
    shift 3
    for to in 3 4 5 6 7 8; do
        printf '= %s\n' "$*" >&$to
    done
    [ -z "$status" ] || printf '%s\n' "$status" >&6
    [ -z "$out" ] || printf '%s\n' "$out" >&7
    [ -z "$err" ] || printf '%s\n' "$err" >&8
}

# quoted STATUS OUT ERR WORDS..: the same, and the call itself, for a front
quoted() {
    expect "$@"
    shift 3
    call --front desk "$@" >&4 2>&5
}

# prints LINES WORDS..; refused WORDS..; wrong MESSAGE WORDS..: quoted with each status
prints() {
    lines=$1
    shift
    quoted 0 "$lines" '' "$@"
}
refused() { quoted 1 'refused 20' '' "$@"; }
wrong() {
    message=$1
    shift
    quoted 2 '' "desk: $message$newline$usage" "$@"
}

# same NAME: what was written there is what was expected; else the first lines that differ, each with its call
same() {
    cmp -s "$folder/$1.expected" "$folder/$1" && return
    for of in "$1.expected" "$1"; do
        awk '/^= / { call = substr($0, 3); next } { print call ": " $0 }' "$folder/$of" >"$folder/$of.lines"
    done
    diff "$folder/$1.expected.lines" "$folder/$1.lines" | cut -c 1-200 | head -n 8
    end 1 "what $2 is not as expected: target/latency/$1.expected and $1"
}

# ---- the table

# answer WORDS: the lines of four values, or the refusal, in `lines`, with the status
answer() {
    status=1
    lines=$1
    case $1 in refused*) return ;; esac
    status=0
    set -- $1
    lines=$1$newline$2$newline$3$newline$4
}

rows=0
while IFS= read -r row <&9; do
    arguments=${row%%: *}
    values=${row#*: }
    answer "${values%%: *}"
    quoted "$status" "$lines" '' $arguments
    answer "${values#*: }"
    quoted "$status" "$lines" '' --doubled $arguments
    rows=$((rows + 1))
done 9<"$table"
exec 9>&-
calls=0

# ---- numbers, and what is none

plain="40${newline}89.5${newline}43${newline}53.5"
twice="80${newline}179${newline}86${newline}107"
# the usage is the same wherever it is printed, and names the four latencies in their order
usage=$(call --front desk --help 2>/dev/null 3>/dev/null)
case $usage in
"usage: desk [--doubled] [--] t L D n W$newline"*unicast*multi-unicast*resumable*restricted*--doubled*65535*) ;;
*) end 1 "--help prints: $usage" ;;
esac

# zeros COUNT: so many
zeros() { printf "%0$1d" 0; }
long=$(zeros 4999)
nines=$(zeros 5000 | tr 0 9)

for word in '' abc 1.5 -3 +7 0x10 1e3 ' 8' '8 ' '	8' "8$newline" "${newline}8" '8 8' - -x -8 -d +8 8- 8+ 8. .8 8,0 8_0 \
    8x x8 / : 8/ 8: "$(printf '\270')" "$(printf '\331\250')" '"8"' '8;' '$8' \
    0 00 "$long" 65536 0065536 65537 65543 65544 131080 4294967295 4294967296 4294967304 18446744073709551615 \
    18446744073709551616 18446744073709551624 36893488147419103240 340282366920938463463374607431768211464 \
    "$nines" "1${long}8" "${long}x" "x${long}8" "${long}65536"; do
    refused "$word" 256 8 4 8
    refused 8 "$word" 8 4 8
    refused 8 256 "$word" 4 8
    refused 8 256 8 "$word" 8
    refused 8 256 8 4 "$word"
done
for front in 0 00 "$long" "$(zeros 4094)" "$(zeros 4095)" "$(zeros 4096)" "$(zeros 20000)" "$(zeros 131070)"; do
    prints "$plain" "${front}8" 256 8 4 8
    prints "$plain" 8 "${front%00}256" 8 4 8
    prints "$plain" 8 256 "${front}8" 4 8
    prints "$plain" 8 256 8 "${front}4" 8
    prints "$twice" --doubled 8 256 8 4 "${front}8"
done
prints "$plain" 008 00256 08 04 0008
prints "$plain" "${long}8" "${long}256" "${long}8" "${long}4" "${long}8"
refused '' '' '' '' ''
refused abc 0 -3 65536 1.5
refused --doubled 8 256 8 4 0
refused --doubled 8 256 x 4 8

# ---- options, in every place; behind `--` every word is a number

prints "$twice" --doubled 8 256 8 4 8
prints "$twice" 8 --doubled 256 8 4 8
prints "$twice" 8 256 --doubled 8 4 8
prints "$twice" 8 256 8 --doubled 4 8
prints "$twice" 8 256 8 4 --doubled 8
prints "$twice" 8 256 8 4 8 --doubled
prints "$twice" --doubled 8 256 8 4 8 --doubled
prints "$plain" -- 8 256 8 4 8
prints "$plain" 8 256 -- 8 4 8
prints "$plain" 8 256 8 4 8 --
prints "$twice" --doubled -- 8 256 8 4 8
prints "$twice" 8 256 --doubled -- 8 4 8
refused -- -- 256 8 4 8
refused -- --doubled 256 8 4 8
refused 8 256 8 4 -- --doubled
refused -- 8 256 8 --help 8
refused 8 -- 256 8 4 --front
prints "$usage" --help
prints "$usage" --doubled --help
prints "$usage" 8 256 --help 8
prints "$usage" 8 256 8 4 8 --help
prints "$usage" --help --half

# ---- wrong use

five='latency takes five numbers: t L D n W'
wrong "$five"
wrong "$five" --
wrong "$five" --doubled
wrong "$five" 8
wrong "$five" 8 256 8 4
wrong "$five" --doubled 8 256 8 4
wrong "$five" 8 256 8 4 --
wrong "$five" 8 256 8 4 8 8
wrong "$five" 8 256 8 4 8 ''
wrong "$five" 8 256 8 4 8 8 8 8 8 8
wrong "$five" -- 8 256 8 4 8 --doubled
wrong "$five" abc
wrong "$five" 8 256 8 4 8 abc
wrong "$five" -d 8 256 8 4 8
wrong "$five" 0 0 0 0 0 0
wrong 'there is no option --half' --half 8 256 8 4 8
wrong 'there is no option --half' 8 256 8 4 8 --half
wrong 'there is no option --half' 8 256 --half 8 4
wrong 'there is no option --double' --double 8 256 8 4 8
wrong 'there is no option --doubled=1' --doubled=1 8 256 8 4 8
wrong 'there is no option --3' 8 256 8 4 --3
wrong 'there is no option ---' --- 8 256 8 4 8
wrong 'there is no option --a\nb' "--a${newline}b" 8 256 8 4 8
wrong 'there is no option --front' 8 --front desk 256 8 4

# ---- without a front, and a front without a name: nothing on descriptor 3, messages under the program's own name

expect '' "$plain" '' alone
call 8 256 8 4 8 >&4 2>&5
expect '' 'refused 20' '' alone, refused
call --doubled 8 256 8 4 0 >&4 2>&5
expect '' '' "quote: $five${newline}usage: quote${usage#usage: desk}" alone, no words
call >&4 2>&5
expect 2 '' "quote: --front wants a name${newline}usage: quote${usage#usage: desk}" --front alone
call --front >&4 2>&5

# ---- what cannot be written

for words in '8 256 8 4 8' '--doubled 8 256 8 4 8' '8 256 8 4 0' --help; do
    expect 1 '' 'desk: standard output cannot be written: Bad file descriptor' "closed: $words"
    call --front desk $words >&- 2>&5
    [ -c /dev/full ] || continue
    expect 1 '' 'desk: standard output cannot be written: No space left on device' "full: $words"
    call --front desk $words >/dev/full 2>&5
done
[ -c /dev/full ] || echo 'latency: left out: a full disk (there is no /dev/full)'

exec 3>&- 4>&- 5>&- 6>&- 7>&- 8>&-
same out 'it prints'
same told 'it tells on descriptor 3'
same err 'it says on standard error'
end 0 "$rows rows of the table plain and doubled, $calls calls at the desk, as expected"
