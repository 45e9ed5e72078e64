#!/bin/sh
# frozen.sh: what a landing answered stays as it was. Holds every seal and every line of tests/frozen/ (README.md there
# has their form): the archives of the corpus and their lines in crates/batch/stdout, the single events, the latencies,
# and what the other programs are given and print. What a landing itself changed stands in its NAME.instead: the
# landings before it are held with that put back. Fails too if something of that kind is in no file there. Prints one line.
# frozen.sh --add NAME: writes the lines that no file there has, as tests/frozen/NAME.txt; seals it and NAME.instead.
# Exit: 0 all as it was, or added; 1 something differs (named on standard error); 2 used in a wrong way.
set -eu
export LC_ALL=C
root=$(CDPATH= cd -- "$(dirname -- "$0")/.." && pwd)
cd "$root"
folder=tests/frozen
outputs=crates/batch/stdout

fail() {
    echo "frozen: $2" >&2
    exit "$1"
}

landing=
case "$#:${1:-}" in
    0:) ;;
    2:--add) landing=$2 ;;
    *) fail 2 "usage: frozen.sh [--add NAME]" ;;
esac
if [ $# -gt 0 ]; then
    case $landing in
        '' | *[!A-Za-z0-9_-]*) fail 2 "a landing's name is of letters, digits, - and _" ;;
    esac
fi
for file in crates/batch/stdin "$outputs"; do
    [ -f "$file" ] || fail 1 "$file is missing"
done
if command -v sha256sum >/dev/null 2>&1; then
    digest() { sha256sum -- "$@"; }
elif command -v shasum >/dev/null 2>&1; then
    digest() { shasum -a 256 -- "$@"; }
else
    fail 1 "neither sha256sum nor shasum is on the PATH"
fi
temp=$(mktemp -d) || fail 1 "no temporary folder"
trap 'rm -rf "$temp"' EXIT
trap 'exit 1' HUP INT TERM

wrong() {
    printf 'frozen: %s\n' "$1" >>"$temp/wrong"
}

# Ends with what is wrong, if something is: twenty lines of it.
judge() {
    [ -s "$temp/wrong" ] || return 0
    head -n 20 "$temp/wrong" >&2
    more=$(($(wc -l <"$temp/wrong") - 20))
    [ "$more" -le 0 ] || echo "frozen: and $more more" >&2
    exit 1
}

# growing FROM LESS PATH..: texts to which cases are added behind: from the line FROM on, but for the last LESS
growing() {
    from=$1
    less=$2
    shift 2
    for path in "$@"; do
        [ ! -f "$path" ] || echo "lines $from $(($(wc -l <"$path") - less)) $path"
    done
}

# What is there to be frozen: archives, texts by lines, all other files that programs are given or print as a whole. The
# first line of the first text counts the cases, the last of the second the files. (A text comes again as a whole.)
there() {
    for path in corpus/*.bin; do
        [ ! -f "$path" ] || echo "archive ${path#corpus/}"
    done
    growing 2 0 crates/singles/stdin
    growing 1 1 crates/rewrite/stdout
    growing 1 0 crates/singles/stdout tests/clauses/*.txt crates/archive_cases/stdout crates/inspect/stdout
    growing 1 0 crates/inspect/args crates/rewrite/args examples/*.txt tests/latency/*.txt
    for path in corpus/typed/* crates/*/args crates/*/stdin crates/*/stdout crates/*/data/* examples/*.bin \
        examples/logs/*; do
        case $path in crates/batch/*) continue ;; esac
        [ ! -f "$path" ] || echo "whole $path"
    done
}

# What stands behind the first n words of a line.
words='
    function behind(n, line) {
        while (n-- > 0) sub(/^[^ ]* /, "", line)
        return line
    }'

# bare FILE..: frozen lines without their digests; `odd` for one that has not their form
bare() {
    awk "$words"'
        function digest(word) { return length(word) == 64 && word !~ /[^0-9a-f]/ }
        function number(word) { return word ~ /^[1-9][0-9]*$/ }
        $1 == "archive" && NF > 3 && digest($2) && digest($3) { print $1 " " behind(3, $0); next }
        $1 == "lines" && NF > 4 && number($2) && number($3) && $2 + 0 <= $3 + 0 && digest($4) {
            print $1 " " $2 " " $3 " " behind(4, $0)
            next
        }
        $1 == "whole" && NF > 2 && digest($2) { print $1 " " behind(2, $0); next }
        { print "odd" }
    ' "$@"
}

# unfrozen FROZEN THERE: what is there and no frozen line has; of a text the lines behind the frozen ones
unfrozen() {
    awk "$words"'
        { path = behind($1 == "lines" ? 3 : 1, $0) }
        part == 1 && $1 == "lines" { if ($3 + 0 > last[path]) last[path] = $3 + 0; next }
        part == 1 { frozen[$1, path] = 1; next }
        ("whole", path) in frozen { next }
        $1 == "lines" {
            text[path] = 1
            from = last[path] >= $2 + 0 ? last[path] + 1 : $2 + 0
            if (from <= $3 + 0) print $1 " " from " " $3 " " path
            next
        }
        !(path in text) && !(($1, path) in frozen)
    ' part=1 "$1" part=2 "$2"
}

# The awk function was(path, place, line): a line of a text as it was before the exceptions in $temp/instead, newest
# first, with its newline; nothing where there was none. The place is the line's number, for `batch` the archive's name.
# What is met goes to $temp/met: `is` of an exception, or `was` where the line that it replaces still stands.
was='
    BEGIN { while ((getline exception <(temp "/instead")) > 0) EXCEPTION[++exceptions] = exception }
    function was(path, place, line,    i, field) {
        for (i = 1; i <= exceptions; i++) {
            split(EXCEPTION[i], field, "\t")
            if (path != field[2] && path ":" place != field[2]) continue
            if ((line "") != (field[3] "") && (line "") != (field[4] "")) continue
            print field[1] "\t" ((line "") == (field[4] "") ? "is" : "was") >>(temp "/met")
            if (field[3] == "") return ""
            line = field[3]
        }
        return line "\n"
    }'

# put_back PATH FROM: standard input, lines of that text from the line FROM on, as they were. (`end` shows a last line that
# lacks its newline.)
put_back() {
    { cat && echo end; } |
        awk -v temp="$temp" -v path="$1" -v from="$2" "$was"'
            NR > 1 { printf "%s", was(path, from + NR - 2, line) }
            { line = $0 }'
}

# parts FILE: the lines that batch printed for each archive of the file, as $temp/parts/NAME: services, then the line
# that begins with the name. The line of a name that batch was given and that is no archive ends a part too.
parts() {
    awk -v temp="$temp" -v folder="$temp/parts/" -v outputs="$outputs" "$was"'
        part == 1 { if (sub(/^archive /, "")) archive[$0] = named[$0] = 1; next }
        part == 2 { named[$0] = 1; next }
        {
            text[++lines] = $0
            at = index($0, ": ")
            name = substr($0, 1, at - 1)
            if (!at || !(name in named)) next
            if (name in archive) {
                for (i = 1; i <= lines; i++) printf "%s", was(outputs, name, text[i]) >>(folder name)
                close(folder name)
            }
            lines = 0
        }
    ' part=1 "$1" part=2 crates/batch/stdin part=3 "$outputs"
}

# whole PATH: the path itself; of a text typed by hand that has exceptions, one with these put back
whole() {
    printf '%s\n' "$1"
    case $1 in corpus/typed/*) ;; *) return 0 ;; esac
    [ -f "$1" ] && cut -f 2 "$temp/instead" | grep -qxF -e "$1" || return 0
    put_back "$1" 1 <"$1" >"$temp/typed/${1##*/}"
    printf '%s\n' "$temp/typed/${1##*/}"
}

# spelled FILE: bare lines with the digests of today, exceptions put back, made by one call; - where nothing is there
spelled() {
    rm -rf "$temp/parts" "$temp/cuts" "$temp/typed"
    mkdir "$temp/parts" "$temp/cuts" "$temp/typed"
    parts "$1"
    cuts=0
    while read -r kind path; do
        case $kind in
            archive) printf '%s\n' "corpus/$path" "$temp/parts/$path" ;;
            whole) whole "$path" ;;
            lines)
                cuts=$((cuts + 1))
                from=${path%% *}
                path=${path#* }
                to=${path%% *}
                path=${path#* }
                [ -f "$path" ] || continue
                tail -n "+$from" "$path" | head -n $((to - from + 1)) | put_back "$path" "$from" >"$temp/cuts/$cuts"
                printf '%s\n' "$temp/cuts/$cuts"
                ;;
        esac
    done <"$1" >"$temp/paths"
    (
        set -f
        IFS='
'
        digest $(cat "$temp/paths") </dev/null >"$temp/digests" 2>/dev/null
    ) || true
    awk -v temp="$temp" "$words"'
        function of(path) { return path in digest ? digest[path] : "-" }
        function whole(path,    typed) {
            typed = path
            sub(/^corpus\//, temp "/", typed)
            return typed in digest ? digest[typed] : of(path)
        }
        part == 1 { digest[substr($0, 67)] = substr($0, 1, 64); next }
        { path = behind($1 == "lines" ? 3 : 1, $0) }
        $1 == "archive" { print $1 " " of("corpus/" path) " " of(temp "/parts/" path) " " path; next }
        $1 == "lines" { print $1 " " $2 " " $3 " " of(temp "/cuts/" ++cuts) " " path; next }
        $1 == "whole" { print $1 " " whole(path) " " path; next }
        { print }
    ' part=1 "$temp/digests" part=2 "$1"
}

# compared TODAY FILE: what differs between the frozen lines of the file and those of today, in the same order
compared() {
    awk -v outputs="$outputs" "$words"'
        function held(what, was, now) {
            if (now == "-") print "frozen: " what " missing (" landing ")"
            else if (now != was) print "frozen: " what " not as in " landing
        }
        part == 1 { today[++lines] = $0; next }
        today[++at] == $0 { next }
        { landing = FILENAME; sub(/.*\//, "", landing); split(today[at], now, " ") }
        now[1] == "archive" {
            name = behind(3, $0)
            held("corpus/" name ": its bytes are", $2, now[2])
            held(outputs ": the lines of " name " are", $3, now[3])
        }
        now[1] == "lines" { held(behind(4, $0) ": lines " $2 " to " $3 " are", $4, now[4]) }
        now[1] == "whole" { held(behind(2, $0) " is", $2, now[2]) }
        now[1] == "odd" { print "frozen: " FILENAME ": line " FNR " has not the form of a line" }
    ' part=1 "$1" part=2 "$2"
}

# seal NAME: adds the file's seal.
seal() {
    echo "$1 $(($(wc -l <"$folder/$1"))) $(digest "$folder/$1" | cut -c 1-64)" >>"$folder/SEALS"
}

[ -z "$landing" ] || [ ! -e "$folder/$landing.txt" ] || fail 1 "$folder/$landing.txt is there, and is not changed"

# The seals: each landing's files are there as they were, and no file is without a seal.
: >"$temp/seals"
[ ! -f "$folder/SEALS" ] || cp "$folder/SEALS" "$temp/seals"
while read -r name count sum || [ -n "$name" ]; do
    file=$folder/$name
    if [ ! -f "$file" ]; then
        wrong "$file is sealed and missing"
    elif [ "$(($(wc -l <"$file")))" != "$count" ]; then
        wrong "$file is sealed with $count lines and has $(($(wc -l <"$file")))"
    elif [ "$(digest "$file" | cut -c 1-64)" != "$sum" ]; then
        wrong "$file is not as it was sealed: a line was changed"
    fi
done <"$temp/seals"
cut -d ' ' -f 1 "$temp/seals" >"$temp/names"
for file in "$folder"/*.txt "$folder"/*.instead; do
    name=${file##*/}
    [ -f "$file" ] && ! grep -qxF -e "$name" "$temp/names" || continue
    echo "$name" >>"$temp/names"
    [ "$name" = "$landing.instead" ] || wrong "$file has no seal in $folder/SEALS"
done

# The lines, from the newest landing back: what each names is there today with the same digests, but for the exceptions
# of the landings behind it. Each exception is met once. Then what no line has.
for list in instead met frozen; do
    : >"$temp/$list"
done
for name in $(awk '{ name[NR] = $0 } END { for (i = NR; i > 0; i--) print name[i] }' "$temp/names"); do
    file=$folder/$name
    case $([ ! -f "$file" ] || echo "$name") in
        *.instead) awk '{ print FILENAME ": line " FNR "\t" $0 }' "$file" >>"$temp/instead" ;;
        *.txt)
            bare "$file" >"$temp/bare"
            spelled "$temp/bare" >"$temp/today"
            compared "$temp/today" "$file" >>"$temp/wrong"
            cat "$temp/bare" >>"$temp/frozen"
            ;;
    esac
done
awk -F '\t' '
    part == 1 { met[$1, $2]++; next }
    function answers(path) {
        sub(/:[0-9]+$/, "", path)
        sub(/^crates\/batch\/stdout:[a-z0-9-]+[.]bin$/, "crates/batch/stdout", path)
        return path ~ /^(crates\/[a-z_]+\/stdout|tests\/clauses\/[a-z]+[.]txt|corpus\/typed\/[a-z0-9-]+[.]out)$/
    }
    function remarks(path) { return path ~ /^corpus\/typed\/[a-z0-9-]+[.]hex$/ && $3 ~ /^#/ && $4 ~ /^#/ }
    NF != 4 || !answers($2) && !remarks($2) || ($3 "") == ($4 "") || $4 == "" || $3 == "" && $2 !~ /:.*[.]bin$/ {
        print "frozen: " $1 " is not a text of answers, its line as it was and the line now, a tab between them"
        next
    }
    ($1, "was") in met { print "frozen: " $1 ": " $2 " still has `" $3 "`"; next }
    met[$1, "is"] != 1 {
        print "frozen: " $1 ": " $2 " has `" $4 "` " met[$1, "is"] + 0 " times in what was frozen before, not once"
    }
' part=1 "$temp/met" part=2 "$temp/instead" >>"$temp/wrong"
there >"$temp/there"
unfrozen "$temp/frozen" "$temp/there" >"$temp/new"

if [ -n "$landing" ]; then
    judge
    [ -s "$temp/new" ] || fail 1 "nothing to add: everything there has its line"
    : >"$temp/instead"
    spelled "$temp/new" >"$temp/lines"
    bare "$temp/lines" | cmp -s - "$temp/new" ||
        fail 1 "$(sed -n 's/^\(.*\) - \(.*\)$/\2/p' "$temp/lines" | head -n 1) has no lines in $outputs"
    mkdir -p "$folder"
    cp "$temp/lines" "$folder/$landing.txt"
    for name in "$landing.instead" "$landing.txt"; do
        [ ! -f "$folder/$name" ] || grep -q "^$name " "$temp/seals" || seal "$name"
    done
    echo "frozen: $folder/$landing.txt, $(($(wc -l <"$temp/lines"))) lines, and its seal"
    exit 0
fi

sed -e 's/^archive /corpus\//' -e 's/^whole //' -e 's/^lines \([0-9]*\) \([0-9]*\) \(.*\)/\3, lines \1 to \2/' \
    -e "s|.*|frozen: &: in no file of $folder/ (scripts/frozen.sh --add NAME adds it)|" "$temp/new" >>"$temp/wrong"
judge
awk "$words"'
    part == 1 { landings += $1 ~ /[.]txt$/; next }
    part == 2 { changed++; next }
    $1 == "archive" { archives++; next }
    !seen[behind($1 == "lines" ? 3 : 1, $0)]++ { others++ }
    END {
        printf "frozen: %d landing%s, %d archives, ", landings, landings == 1 ? "" : "s", archives
        printf "%d other inputs and outputs as they were", others
        if (changed) printf ", but for %d answer%s that a landing changed", changed, changed == 1 ? "" : "s"
        print ""
    }
' part=1 "$temp/seals" part=2 "$temp/instead" part=3 "$temp/frozen"
