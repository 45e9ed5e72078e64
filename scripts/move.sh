# move.sh: the front's commands `over` and `back`. To be sourced by the front.
# The moved bytes go into a folder of their own beside OUT; they get the name OUT when all are there, and only if
# nothing has that name. The folder is taken away at the end, whatever the end is.

tell() { printf '%s %s: %s\n' "$name" "$command" "$*" >&2; }

move_usage() {
    versions='version 1 over to version 2'
    [ "$command" = over ] || versions='version 2 back to version 1'
    cat <<END
usage: $name $command [--] FILE OUT
Moves the archive FILE from $versions, into the new file OUT: the same run, with the same
services. Prints nothing, or only 'refused N'. What has the name OUT already is not overwritten.
END
}

wrong_words() {
    tell "$1"
    move_usage >&2
    exit 2
}

# move WORDS..: takes FILE and OUT out of the words, and leaves the exit status in `status`.
move() {
    names=0
    ended=
    for word in "$@"; do
        case $ended$word in
        --)
            ended=/
            continue
            ;;
        --help)
            move_usage
            exit 0
            ;;
        -?*) wrong_words "there is no option $word" ;;
        esac
        names=$((names + 1))
        [ "$names" -ne 1 ] || file=$word
        shown=$word
    done
    [ "$names" -eq 2 ] || wrong_words "$command takes two names, FILE and OUT"
    case $shown in /*) out=$shown ;; *) out=./$shown ;; esac
    status=1
    taken && return
    need mover
    put_moved
}

# Whether something has the name OUT, be it a link that leads nowhere; if so, says it.
taken() {
    [ -e "$out" ] || [ -L "$out" ] || return 1
    tell "$shown is there already, and is not overwritten"
}

# Takes away what this call made and did not end.
clear_up() {
    [ -z "$begun" ] || rm -f "$begun"
    [ -z "$beside" ] || rm -rf "$beside"
}

# Moves FILE into a folder beside OUT, and gives it its name.
put_moved() {
    [ -d "${out%/*}/" ] || {
        tell "$shown cannot be written: there is no such folder"
        return
    }
    begun=
    beside=
    trap clear_up EXIT
    trap 'exit 1' INT TERM HUP QUIT PIPE XFSZ
    beside=$(mktemp -d "${out%/*}/.fennqualo.XXXXXX" 2>/dev/null) || {
        tell "$shown cannot be written: nothing can be made in its folder"
        return
    }
    told=
    ask mover "$command" -- "$file" >"$beside/moved"
    case $told in
    '0 0') give_name || status=1 ;;
    1\ [1-9]*) echo "refused ${told#1 }" || tell "standard output cannot be written" ;;
    *) tell "$shown is not written" ;;
    esac
}

# Gives the moved file the name OUT: `link` fails if something has it, also where `ln` would go into a folder. Where
# there are no hard links, OUT is made, again only if nothing has the name, and then filled.
give_name() {
    link "$beside/moved" "$out" 2>/dev/null && return
    taken && return 1
    if (set -C && : >"$out") 2>/dev/null; then
        begun=$out
        cat "$beside/moved" >"$out" && begun= && return
    fi
    tell "$shown cannot be written"
    return 1
}
