# desk.sh: the part of front.sh that tests the commands `over` and `back`. To be sourced by it. They are called in a
# folder that has files of every kind; behind each call that folder must be as it was, down to every byte, but for a
# file that was moved there.
desk=$work/desk
one=$root/examples/two-sites.bin
two=$root/examples/two-sites-v2.bin
fennqualo=$root/fennqualo
mkdir "$desk" "$desk/folder" "$work/movers" "$work/unlinked" "$work/torn"
cp "$one" "$desk/-one.bin"
head -c 38 "$one" >"$desk/cut.bin"
: >"$desk/empty.bin"
echo kept >"$desk/kept.bin"
ln -s nowhere "$desk/dangling"
mode=$(printf '%o' $((0666 & ~$(umask))))

# What lies at the desk: names, kinds and bytes.
lying() { (cd "$desk" && find . | sort && find . -type f -exec cksum {} + | sort && find . -type l); }
lying >"$work/lay"

# as_it_was: nothing was left at the desk, nothing there was changed.
as_it_was() { lying | cmp -s - "$work/lay" || wrong "$what: at the desk there is $(lying)"; }

# at_desk COMMAND..: runs it there, with the programs of the folder `instead` and a PATH that begins with `first`, if
# these are set.
instead=
first=
at_desk() { (cd "$desk" && PATH="${first:+$first:}$PATH" FENNQUALO_PROGRAMS=$instead "$@"); }

# moves WHAT BYTES WORDS..: the front moves with these words, says nothing, and OUT, the last of them, has these bytes.
moves() {
    what=$1
    bytes=$2
    shift 2
    expect 0 "$what" at_desk "$fennqualo" "$@"
    [ ! -s "$work/out" ] && [ ! -s "$work/err" ] || wrong "$what: it says $(cat "$work/out" "$work/err")"
    for out in "$@"; do :; done
    case $out in /*) ;; *) out=$desk/$out ;; esac
    cmp -s "$bytes" "$out" || wrong "$what: OUT has other bytes than $bytes"
    [ -n "$(find "$out" -perm "$mode")" ] || wrong "$what: OUT is not open to those to whom a new file is"
    rm "$out"
    as_it_was
}

# refuses NUMBER WHAT WORDS..: the front prints this refusal and nothing else, and leaves nothing.
refuses() {
    number=$1
    what=$2
    shift 2
    expect 1 "$what" at_desk "$fennqualo" "$@"
    echo "refused $number" | cmp -s - "$work/out" || wrong "$what: it prints $(cat "$work/out"), not refused $number"
    [ ! -s "$work/err" ] || wrong "$what: it says $(cat "$work/err")"
    as_it_was
}

# fails STATUS TEXT WHAT COMMAND..: the command ends so, says this on standard error, prints and leaves nothing.
fails() {
    text=$2
    what=$3
    status=$1
    shift 3
    expect "$status" "$what" at_desk "$@"
    says err "$text"
    [ ! -s "$work/out" ] || wrong "$what: it prints $(cat "$work/out")"
    as_it_was
}

# mover LINES..: a program in the place of mover
mover() {
    printf '%s\n' '#!/bin/sh' "$@" >"$work/movers/mover"
    chmod +x "$work/movers/mover"
}

# ---- files
moves "over" "$two" over "$one" new.bin
moves "back" "$one" back "$two" new.bin
moves "over, odd names" "$two" over -- -one.bin '-a new
name.bin'
moves "over, a whole path" "$two" over "$one" "$desk/folder/new.bin"
refuses 1 "over, a file cut short" over cut.bin new.bin
refuses 1 "back, an empty file" back empty.bin new.bin
refuses 2 "over, version 2" over "$two" new.bin
refuses 2 "back, version 1" back "$one" new.bin
refuses 15 "back, 64 sites" back "$root/examples/torus-8x8.bin" new.bin
fails 1 'fennqualo over: none.bin cannot be read: there is no such file' "over, missing" \
    "$fennqualo" over none.bin new.bin
fails 1 'fennqualo back: folder cannot be read: it is a folder' "back, a folder" "$fennqualo" back folder new.bin
for out in kept.bin folder folder/ dangling empty.bin; do
    fails 1 "fennqualo over: $out is there already, and is not overwritten" "over, $out" "$fennqualo" over "$one" $out
done
fails 1 'cut.bin is there already' "over, refused and OUT there" "$fennqualo" over empty.bin cut.bin
fails 1 '-one.bin is there already' "over to itself" "$fennqualo" over -- -one.bin -one.bin
fails 1 'there is no such folder' "over, OUT in no folder" "$fennqualo" over "$one" none/new.bin
fails 1 'there is no such folder' "over, OUT below a file" "$fennqualo" over "$one" kept.bin/new.bin
[ ! -d /proc/self ] ||
    fails 1 'nothing can be made in its folder' "over, OUT in /proc" "$fennqualo" over "$one" /proc/new.bin
fails 1 'new.bin is not written' "over, no room" \
    sh -c 'trap "" XFSZ && ulimit -f 1 && exec "$@"' sh "$fennqualo" over "$root/examples/torus-4x4.bin" new.bin
[ ! -w /dev/full ] || fails 1 'standard output cannot be written' "back, refused, a full disk" \
    sh -c '"$@" >/dev/full' sh "$fennqualo" back "$one" new.bin

# ---- words
fails 2 'usage: fennqualo over [--] FILE OUT' "over, no word" "$fennqualo" over
fails 2 'over takes two names' "over, one word" "$fennqualo" over "$one"
fails 2 'back takes two names' "back, three words" "$fennqualo" back "$two" new.bin newer.bin
fails 2 'there is no option --force' "over, an option" "$fennqualo" over --force "$one" kept.bin
expect 0 "over --help" at_desk "$fennqualo" over --help
says out 'usage: fennqualo over [--] FILE OUT'
as_it_was

# ---- OUT that comes while FILE is moved; a program that dies, or that is stopped; no hard links
instead=$work/movers
mover 'printf moved' 'mkdir new.bin' 'echo 0 0 >&3'
expect 1 "over, a folder comes" at_desk "$fennqualo" over "$one" new.bin
says err 'new.bin is there already'
rmdir "$desk/new.bin" || wrong "$what: something is in it"
as_it_was
mover 'printf moved' 'echo other >new.bin' 'echo 0 0 >&3'
expect 1 "over, OUT comes" at_desk "$fennqualo" over "$one" new.bin
says err 'new.bin is there already'
[ "$(cat "$desk/new.bin")" = other ] || wrong "$what: it is overwritten"
rm "$desk/new.bin"
as_it_was
mover 'printf mov' 'kill -9 $$'
fails 1 'mover ended before it was done' "over, a program that dies" "$fennqualo" over "$one" new.bin
mover 'sleep 1' 'echo 1 2 >&3'
expect 0 "over, nobody reads the refusal" at_desk sh -c '"$@" | :' sh "$fennqualo" over "$one" new.bin
as_it_was
mover ": >'$work/begun'" 'printf moved' 'sleep 2' 'echo 0 0 >&3'
(cd "$desk" && FENNQUALO_PROGRAMS=$instead exec "$fennqualo" over "$one" new.bin) >/dev/null 2>&1 &
moving=$!
for _ in 1 2 3 4 5 6 7 8 9 10; do
    [ ! -e "$work/begun" ] || break
    sleep 1
done
kill -TERM "$moving"
what="over, stopped"
wait "$moving" && wrong "$what: it says that all went well"
as_it_was
seen=$((seen + 1))
instead=
printf '#!/bin/sh\nexit 1\n' >"$work/unlinked/link"
printf '#!/bin/sh\nprintf torn\nexit 1\n' >"$work/torn/cat"
cp "$work/unlinked/link" "$work/torn/link"
chmod +x "$work/unlinked/link" "$work/torn/link" "$work/torn/cat"
first=$work/unlinked
moves "over, no hard links" "$two" over "$one" new.bin
first=$work/torn
fails 1 'new.bin cannot be written' "over, no hard links, no room" "$fennqualo" over "$one" new.bin
first=
