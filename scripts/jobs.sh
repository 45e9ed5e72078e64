# jobs.sh: the front's command `batch`, in one process or, with --jobs N, in N. To be sourced by the front.
# In N processes the names become one list; each process plays its part of the list, one behind the other, into a file of
# its own; the files are printed in order, and the totals that the processes tell are added up. If a process dies, the
# files of its part are said to be unplayed.

wrong_use() {
    say "$1"
    say "'$name batch --help' says how it is used"
    exit 2
}

# batch WORDS..: takes --jobs N out of the words, and leaves the exit status in `status`.
batch() {
    jobs=1
    options=
    names=0
    ended=
    left=$#
    while [ "$left" -gt 0 ]; do
        word=$1
        shift
        left=$((left - 1))
        case $ended$word in
        --jobs)
            [ "$left" -gt 0 ] || wrong_use "--jobs takes a number"
            jobs=$1
            shift
            left=$((left - 1))
            continue
            ;;
        --jobs=*)
            jobs=${word#--jobs=}
            continue
            ;;
        --help)
            usage
            exit 0
            ;;
        --) ended=/ ;;
        -?*) options="$options $word" ;;
        *) names=$((names + 1)) ;;
        esac
        set -- "$@" "$word"
    done
    case $jobs in
    '' | *[!0-9]* | 0* | ????*) wrong_use "--jobs takes a number from 1 to 999, not $jobs" ;;
    esac
    [ "$names" -gt 0 ] || [ ! -t 0 ] || say "reading names of archives from standard input, one to a line"
    if [ "$jobs" -eq 1 ]; then
        ask batch "$@"
    else
        in_jobs "$@"
    fi
}

# in_jobs WORDS..: the words without --jobs N; `options` has the options among them, `names` says how many are names.
in_jobs() {
    need batch
    zero=
    services=
    for word in $options; do
        case $word in
        --services) services=--services ;;
        -0) zero=-0 ;;
        *) wrong_use "with --jobs there is no option $word" ;;
        esac
    done
    work=$(mktemp -d) || exit 1
    pids=
    trap 'kill $pids 2>/dev/null; rm -rf "$work"; exit 1' INT TERM HUP
    trap 'rm -rf "$work"' EXIT
    if [ "$names" -gt 0 ]; then
        zero=-0
        ended=
        for word in "$@"; do
            case $ended$word in
            --) ended=/ ;;
            -?*) ;;
            *) printf '%s\0' "$word" ;;
            esac
        done >"$work/names" || exit 1
    else
        cat >"$work/names" || {
            say "standard input cannot be read"
            exit 1
        }
    fi
    run "$programs/batch" --front "$name batch" --unplayed $zero <"$work/names" 3>"$work/told" >/dev/null || :
    read -r _ files _ <"$work/told" || {
        say "the names cannot be counted"
        exit 1
    }
    part=$(((files + jobs - 1) / jobs))
    k=0
    while [ $((k * part)) -lt "$files" ]; do
        run "$programs/batch" --front "$name batch" $services $zero --slice $((k * part)) "$part" \
            <"$work/names" >"$work/lines.$k" 3>"$work/told.$k" &
        pids="$pids $!"
        k=$((k + 1))
    done
    gather
}

# Prints the parts in order, each as soon as it is done, and the totals.
gather() {
    status=0
    played=0
    refused=0
    unreadable=0
    unplayed=0
    k=0
    for pid in $pids; do
        wait "$pid" || :
        size=$part
        [ $((k * part + size)) -le "$files" ] || size=$((files - k * part))
        told=-
        f=0
        read -r told f p r u <"$work/told.$k" || :
        if [ "$f" -eq "$size" ]; then
            [ "$told" -le "$status" ] || status=$told
            played=$((played + p))
            refused=$((refused + r))
            unreadable=$((unreadable + u))
        else
            say "a process of the batch died: $size files are not played"
            run "$programs/batch" --front "$name batch" --unplayed $zero --slice $((k * part)) "$size" \
                <"$work/names" >"$work/lines.$k" 3>/dev/null || :
            unplayed=$((unplayed + size))
            status=1
        fi
        cat "$work/lines.$k" || lost
        k=$((k + 1))
    done
    more=
    [ "$unplayed" -eq 0 ] || more=" unplayed $unplayed"
    printf '%s\n' "files $files played $played refused $refused unreadable $unreadable$more" || lost
}

lost() {
    say "standard output cannot be written"
    exit 1
}
