#!/bin/sh
# front.sh: tests the front `fennqualo`, in the repository and installed: its exit statuses, `why`, `apart`, `over` and
# `back`, `latency`, `batch --jobs`, what it says of a build, `install`. Builds are tried in a copy of the front
# with a program in the place of `rt`; the installed front is a real one. Prints one line. Exit: 0 all as expected, 1 not.
set -u
export LC_ALL=C
root=$(CDPATH= cd -- "$(dirname -- "$0")/.." && pwd) || exit 1
cd "$root" || exit 1
work=$(mktemp -d) || exit 1
trap 'rm -rf "$work"' EXIT
seen=0

wrong() {
    echo "front: $1" >&2
    exit 1
}

# expect STATUS WHAT COMMAND..: runs the command into $work/out and $work/err and compares its exit status.
expect() {
    status=$1
    what=$2
    shift 2
    ended=0
    "$@" >"$work/out" 2>"$work/err" </dev/null || ended=$?
    [ "$ended" -eq "$status" ] || {
        cat "$work/out" "$work/err" >&2
        wrong "$what: exit status $ended, not $status"
    }
    seen=$((seen + 1))
}

# says WHERE TEXT: the last command said this, on out or err.
says() { grep -qF -- "$2" "$work/$1" || wrong "$what: nothing on $1 says '$2': $(head -n 3 "$work/$1")"; }

# prints TEXT: the last command printed this and nothing else, and no message.
prints() {
    printf '%s' "$1" | cmp -s - "$work/out" || wrong "$what: it prints $(head -n 3 "$work/out")"
    [ ! -s "$work/err" ] || wrong "$what: it says $(head -n 3 "$work/err")"
}

# ---- exit statuses, in the repository
printf 'no archive' >"$work/bad"
mkdir "$work/a folder"
expect 0 "help" ./fennqualo help
expect 0 "no word" ./fennqualo
expect 2 "an unknown command" ./fennqualo plya examples/run-r.bin
expect 0 "play" ./fennqualo play examples/two-sites.bin
printf '253 0 0\n617 0 1\n676 1 0\naccepted 2 pairs 3 serviced 3 owed 0\n' | cmp -s - "$work/out" || wrong "play: not the lines of README.md"
expect 1 "play, refused" ./fennqualo play "$work/bad"
says out 'refused 1'
expect 1 "play, missing" ./fennqualo play "$work/none"
expect 1 "play, a folder" ./fennqualo play "$work/a folder"
expect 2 "play, two names" ./fennqualo play examples/run-r.bin examples/run-r.bin
expect 2 "play, an option" ./fennqualo play --json
says err 'fennqualo play: there is no option --json'
says err 'usage: fennqualo play [--] [FILE]'
expect 1 "play, a full disk" sh -c './fennqualo play examples/run-r.bin >/dev/full'
expect 1 "play, a closed output" sh -c './fennqualo play examples/run-r.bin >&-'
expect 0 "batch" ./fennqualo batch examples/run-r.bin examples/timeout.bin
expect 1 "batch, refused" ./fennqualo batch examples/run-r.bin "$work/bad"
expect 2 "batch, an option" ./fennqualo batch --json examples/run-r.bin
expect 2 "batch, no number" ./fennqualo batch --jobs many examples/run-r.bin
expect 0 "check" ./fennqualo check examples/run-r.bin
expect 1 "check, refused" ./fennqualo check "$work/bad"
expect 2 "check, no name" ./fennqualo check
says err 'fennqualo check: no FILE is named'
expect 0 "check --help" ./fennqualo check --help
says out 'usage: fennqualo check [--] FILE..'
expect 0 "trace --help" ./fennqualo trace --help
says out 'usage: fennqualo trace [--all | --why | --apart] [--] FILE'
expect 0 "trace" ./fennqualo trace examples/run-r.bin
expect 1 "trace, refused" ./fennqualo trace "$work/bad"
expect 0 "version" ./fennqualo version
says out "$(head -n 1 VERSION)"
ln -s "$root/fennqualo" "$work/fq"
expect 1 "by a link" "$work/fq" play "$work/none"
says err 'fq play: '

# ---- why
: >"$work/empty"
head -c 100 examples/routes-one.bin >"$work/cut"
cp examples/routes-two.bin "$work/--all"
refused='refused 1
'
for name in routes-one routes-two; do
    expect 0 "why, $name" ./fennqualo why "examples/$name.bin"
    cmp -s "examples/$name.txt" "$work/out" || wrong "$what: not the lines of examples/$name.txt"
done
expect 0 "why, a name behind --" sh -c 'root=$PWD && cd "$1" && "$root/fennqualo" why -- --all' sh "$work"
cmp -s examples/routes-two.txt "$work/out" || wrong "$what: not the lines of examples/routes-two.txt"
expect 0 "why, no failed ask" ./fennqualo why examples/two-sites.bin
prints ''

# ---- apart
far=examples/torus-4x4-apart.txt
expect 0 "apart" ./fennqualo apart examples/torus-4x4.bin
prints "$(cat "$far")
"
expect 0 "apart, sites joined both ways" ./fennqualo apart examples/two-sites.bin
prints '0 {}
1 {}
'
expect 0 "apart, a single site" ./fennqualo apart examples/run-r.bin
prints '0 {}
'
expect 0 "apart, a name behind --" sh -c 'root=$PWD && cd "$1" && "$root/fennqualo" apart -- --all' sh "$work"
prints '0 {2}
1 {3}
2 {0}
3 {1}
'
expect 2 "apart --why" ./fennqualo apart --why examples/routes-one.bin
says err 'fennqualo apart: --why does not go with --apart'
says err 'usage: fennqualo apart [--] FILE'
expect 2 "why --apart" ./fennqualo why --apart examples/routes-one.bin
says err 'fennqualo why: --why does not go with --apart'
says err 'usage: fennqualo why [--] FILE'

# ---- why and apart: a file that is turned down or cannot be read, wrong use, an output that cannot be written
for tells in why apart; do
    for bad in bad empty cut; do
        expect 1 "$tells, the file $bad" ./fennqualo "$tells" "$work/$bad"
        prints "$refused"
    done
    expect 1 "$tells, missing" ./fennqualo "$tells" "$work/none"
    says err 'none cannot be read: there is no such file'
    [ ! -s "$work/out" ] || wrong "$what: it prints $(cat "$work/out")"
    expect 1 "$tells, a folder" ./fennqualo "$tells" "$work/a folder"
    expect 2 "$tells, no file" ./fennqualo "$tells"
    says err "fennqualo $tells: $tells takes one file"
    says err "usage: fennqualo $tells [--] FILE"
    expect 2 "$tells, two files" ./fennqualo "$tells" examples/routes-one.bin examples/routes-two.bin
    says err "fennqualo $tells: $tells takes one file"
    expect 2 "$tells --all" ./fennqualo "$tells" --all examples/routes-one.bin
    says err "fennqualo $tells: --all does not go with --$tells"
    expect 2 "$tells, an option" ./fennqualo "$tells" --json examples/routes-one.bin
    says err "fennqualo $tells: there is no option --json"
    expect 0 "$tells --help" ./fennqualo "$tells" --help
    says out "usage: fennqualo $tells [--] FILE"
    expect 1 "$tells, a full disk" sh -c './fennqualo "$1" examples/routes-one.bin >/dev/full' sh "$tells"
    expect 1 "$tells, a closed output" sh -c './fennqualo "$1" examples/routes-one.bin >&-' sh "$tells"
done

# ---- over and back
. "$root/scripts/desk.sh"

# ---- latency; scripts/latency.sh has what is a number and what is none
latency='40
89.5
43
53.5
'
doubled='80
179
86
107
'
outside='refused 20
'
usage='usage: fennqualo latency [--doubled] [--] t L D n W'
expect 0 "latency" ./fennqualo latency 8 256 8 4 8
prints "$latency"
expect 0 "latency, the longest word" ./fennqualo latency "$(head -c 131070 /dev/zero | tr '\0' 0)8" 256 8 4 8
prints "$latency"
for words in '--doubled 8 256 8 4 8' '8 256 8 4 8 --doubled' '8 256 --doubled -- 8 4 8'; do
    expect 0 "latency $words" ./fennqualo latency $words
    prints "$doubled"
done
for words in '8 256 8 4 0' '8 65536 8 4 8' '8 256 -3 4 8' '--doubled x 256 8 4 8' '-- 8 256 8 4 --doubled'; do
    expect 1 "latency $words" ./fennqualo latency $words
    prints "$outside"
done
expect 1 "latency, an empty word" ./fennqualo latency 8 256 8 '' 8
prints "$outside"
for words in '' '8 256 8 4' '8 256 8 4 8 8' '-- --doubled 8 256 8 4 8'; do
    expect 2 "latency $words" ./fennqualo latency $words
    says err 'fennqualo latency: latency takes five numbers: t L D n W'
    says err "$usage"
    [ ! -s "$work/out" ] || wrong "$what: it prints $(cat "$work/out")"
done
expect 2 "latency, an option" ./fennqualo latency --half 8 256 8 4 8
says err 'fennqualo latency: there is no option --half'
says err "$usage"
expect 0 "latency --help" ./fennqualo latency 8 256 --help
says out "$usage"
[ ! -s "$work/err" ] || wrong "$what: it says $(cat "$work/err")"
expect 1 "latency, a full disk" sh -c './fennqualo latency 8 256 8 4 8 >/dev/full'
says err 'fennqualo latency: standard output cannot be written'
expect 1 "latency, a closed output" sh -c './fennqualo latency 8 256 8 4 8 >&-'

# what examples/latency.txt has: commands behind `$ `, what they print, and their exit status
grep '^\$ ' examples/latency.txt | while read -r _ command; do
    echo "\$ $command"
    status=0
    $command || status=$?
    echo "exit $status"
done >"$work/latency"
diff examples/latency.txt "$work/latency" >&2 || wrong "latency does not print what examples/latency.txt has (<)"
seen=$((seen + $(grep -c '^\$ ' examples/latency.txt)))

# ---- the same lines in several processes
names=crates/batch/stdin
tr '\n' '\0' <"$names" >"$work/names.0"
for words in '' --services; do
    (cd corpus && "$root/fennqualo" batch $words <"$root/$names") >"$work/one" 2>/dev/null
    for jobs in 2 7 500; do
        (cd corpus && "$root/fennqualo" batch $words --jobs $jobs <"$root/$names") >"$work/many" 2>/dev/null
        cmp -s "$work/one" "$work/many" || wrong "batch $words --jobs $jobs prints other lines than batch"
        seen=$((seen + 1))
    done
    (cd corpus && "$root/fennqualo" batch $words --jobs 3 -0 <"$work/names.0") >"$work/many" 2>/dev/null
    cmp -s "$work/one" "$work/many" || wrong "batch $words --jobs 3 -0 prints other lines than batch"
    (cd corpus && tr '\n' '\0' <"$root/$names" | xargs -0 "$root/fennqualo" batch $words --jobs 3 --) >"$work/many" 2>/dev/null
    cmp -s "$work/one" "$work/many" || wrong "batch $words --jobs 3 with names prints other lines than batch"
    seen=$((seen + 2))
done

# one process of four dies: its files are said to be unplayed, the others are played
files=$(grep -c '' "$names")
part=$(((files + 3) / 4))
mkdir "$work/programs"
cat >"$work/programs/batch" <<END
#!/bin/sh
. "$root/scripts/program.sh"
case " \$* " in
*" --unplayed "*) ;;
*" --slice $part "*) kill -9 \$\$ ;;
esac
root=$root
unset FENNQUALO_PROGRAMS
run "$root/target/bin/batch" "\$@"
END
chmod +x "$work/programs/batch"
ended=0
(cd corpus && FENNQUALO_PROGRAMS="$work/programs" "$root/fennqualo" batch --jobs 4 <"$root/$names") >"$work/out" 2>"$work/err" || ended=$?
what="a process that dies"
[ "$ended" -eq 1 ] || wrong "$what: exit status $ended"
[ "$(grep -c ': not played$' "$work/out")" -eq "$part" ] || wrong "$what: not $part files unplayed"
says out " unplayed $part"
(cd corpus && "$root/fennqualo" batch <"$root/$names" 2>/dev/null) | grep -v '^files ' >"$work/one"
grep -v -e ': not played$' -e '^files ' "$work/out" >"$work/left"
sed "$((part + 1)),$((2 * part))d" "$work/one" | cmp -s - "$work/left" || wrong "$what: the lines of the others are not all there"
seen=$((seen + 1))

# ---- builds, in a copy of the front, with another rt
copy=$work/copy
mkdir -p "$copy/crates/one/src" "$copy/target/bin" "$work/path" "$work/bare"
cp fennqualo VERSION "$copy" && cp -r scripts "$copy" || wrong "the front cannot be copied"
echo 'one: two' >"$copy/crates.txt"
echo 'two:' >>"$copy/crates.txt"
echo 'code' >"$copy/crates/one/src/lib.rt"
for program in play batch inspect trace mover quote; do
    mkdir -p "$copy/crates/$program/src"
    echo "$program: one" >>"$copy/crates.txt"
    echo 'code' >"$copy/crates/$program/src/main.rt"
    printf '#!/bin/sh\necho "0 1 1 0 0" >&3\n' >"$copy/target/bin/$program"
    chmod +x "$copy/target/bin/$program"
done
for tool in sh cat grep awk sed find head tail dirname readlink ps sleep mkdir rm touch mktemp tr wc cp mv tee env kill; do
    there=$(command -v "$tool") && ln -sf "$there" "$work/bare/$tool" 2>/dev/null
done
# the programs of the copy are scripts: they run as they are, whatever machine this is
for folder in path bare; do
    printf '#!/bin/sh\necho x86_64\n' >"$work/$folder/uname"
    chmod +x "$work/$folder/uname"
done
cat >"$work/path/rt" <<'END'
#!/bin/sh
# proved CRATE: what rt says of one that it proves
proved() { printf 'crate %s: modules loaded=0 checked=3\nlogic=proved functions=1 sum=0\n' "$1" >&2; }
case $1 in
version) echo "another kit" ;;
doc) echo /nowhere/START-HERE.md ;;
run)
    program=${PWD##*/}
    cd ../..
    if [ "$program" = play ]; then
        proved two
        [ ! -f broken ] || { echo "rt: the library one did not build" >&2; exit 1; }
        [ ! -f slow ] || { sleep 300 & echo $! >sleeper; wait; }
        proved one
    fi
    proved "$program"
    mkdir -p "crates/$program/out"
    printf '#!/bin/sh\necho "0 1 1 0 0" >&3\n' >"crates/$program/out/$program"
    chmod +x "crates/$program/out/$program"
    echo "rt: running out/$program; to give it other input, run that file yourself" >&2
    ;;
esac
END
chmod +x "$work/path/rt"
# front WORDS..: the copy's front with that rt
front() { (cd "$copy" && PATH="$work/path:$PATH" ./fennqualo "$@"); }

touch "$copy"/crates/*/src/*.rt "$copy/crates.txt"
sleep 1
touch "$copy"/target/bin/*
expect 0 "a program that is new enough" front play
[ ! -f "$copy/target/build.log" ] || wrong "$what was built again"
sleep 1
touch "$copy/crates/one/src/lib.rt"
expect 0 "a program older than a source" front play
says err '1 of 8: two proved; now or next: one'
says err '3 of 8: play proved; now or next: batch inspect trace mover quote'
says err '8 of 8: quote proved'
sleep 1
touch "$copy/crates/one/src/lib.rt"
expect 0 "an old program, no rt" sh -c "cd '$copy' && PATH='$work/bare' ./fennqualo play"
says err 'is older than'
: >"$copy/broken"
expect 2 "a source that is not proved" front build
says err 'not built'
expect 2 "play, its source not proved" front play
rm "$copy/broken" "$copy/target/build.log"
mkdir "$copy/target/build.log"
expect 2 "a log that cannot be written" front build
says err 'cannot be written'
rmdir "$copy/target/build.log"
expect 0 "a build" front build
says err '1 of'
expect 0 "a build with nothing to do" front build
says err 'built already'
expect 0 "the kit's version" front version
says out 'another kit'

# Ctrl-C, which the front alone may get
sleep 1
touch "$copy/crates/one/src/lib.rt"
: >"$copy/slow"
(cd "$copy" && PATH="$work/path:$PATH" exec ./fennqualo build) >/dev/null 2>"$work/err" &
building=$!
for _ in 1 2 3 4 5 6 7 8 9 10; do
    [ ! -s "$copy/sleeper" ] || break
    sleep 1
done
[ -s "$copy/sleeper" ] || wrong "the slow build did not begin"
kill -TERM "$building"
wait "$building" && wrong "a build that was stopped says that all went well"
sleep 1
case $(ps -o stat= -p "$(cat "$copy/sleeper")") in '' | Z*) ;; *) wrong "a build was stopped, and its prover goes on" ;; esac
seen=$((seen + 1))

# ---- installed
expect 0 "install" ./fennqualo install "$work/prefix"
says out 'bin/fennqualo'
ln -s "$work/prefix/bin/fennqualo" "$work/installed"
expect 0 "installed, play" "$work/installed" play examples/two-sites.bin
cp "$work/out" "$work/played"
expect 0 "installed, play from standard input" sh -c "'$work/prefix/bin/fennqualo' play <examples/two-sites.bin"
expect 1 "installed, play, missing" "$work/prefix/bin/fennqualo" play "$work/none"
says err 'fennqualo play: '
expect 0 "installed, batch" "$work/prefix/bin/fennqualo" batch --jobs 2 examples/run-r.bin examples/two-sites.bin
expect 0 "installed, check" "$work/prefix/bin/fennqualo" check examples/run-r.bin
expect 0 "installed, trace" "$work/prefix/bin/fennqualo" trace examples/run-r.bin
expect 0 "installed, why" "$work/prefix/bin/fennqualo" why examples/routes-one.bin
cmp -s examples/routes-one.txt "$work/out" || wrong "$what: not the lines of examples/routes-one.txt"
expect 0 "installed, apart" "$work/prefix/bin/fennqualo" apart examples/torus-4x4.bin
cmp -s "$far" "$work/out" || wrong "$what: not the lines of $far"
fennqualo=$work/prefix/bin/fennqualo
moves "installed, over" "$two" over "$one" new.bin
moves "installed, back" "$one" back "$two" new.bin
refuses 15 "installed, back, refused" back "$root/examples/torus-8x8.bin" new.bin
fails 1 'kept.bin is there already' "installed, over, OUT there" "$fennqualo" over "$one" kept.bin
expect 0 "installed, latency" "$work/prefix/bin/fennqualo" latency 8 256 8 4 8
prints "$latency"
expect 0 "installed, latency --doubled" "$work/prefix/bin/fennqualo" latency --doubled 8 256 8 4 8
prints "$doubled"
expect 1 "installed, latency, refused" "$work/prefix/bin/fennqualo" latency 8 256 8 4 0
prints "$outside"
expect 0 "installed, version" "$work/prefix/bin/fennqualo" version
says out "$(rt version)"
expect 2 "installed, build" "$work/prefix/bin/fennqualo" build
if command -v pkg-config >/dev/null 2>&1 && command -v "${CC:-cc}" >/dev/null 2>&1; then
    flags=$(PKG_CONFIG_PATH="$work/prefix/lib/pkgconfig" pkg-config --cflags --libs fennqualo) || wrong "pkg-config does not find fennqualo"
    "${CC:-cc}" -std=c99 examples/compare_deliveries.c $flags -o "$work/compare" || wrong "the installed library does not link"
    seen=$((seen + 1))
fi

# an install that fails leaves nothing behind, and what was there as it was
mkdir -p "$work/half/share" "$work/half/bin"
echo kept >"$work/half/share/fennqualo"
echo old >"$work/half/bin/fennqualo"
find "$work/half" >"$work/there"
expect 1 "an install that fails half-way" ./fennqualo install "$work/half"
find "$work/half" | cmp -s - "$work/there" || wrong "$what left something behind: $(find "$work/half")"
[ "$(cat "$work/half/bin/fennqualo")" = old ] || wrong "$what replaced what was there"
rm -r "$work/half/bin"
echo kept >"$work/half/bin"
expect 1 "an install without room" ./fennqualo install "$work/half"
says err 'is not a folder'
echo "front: $seen calls as expected"
