# Compares what a program printed with what expand.awk expects, event by event, and names the cases that differ and their
# places. POSIX awk.
# usage: awk -f places.awk -f compare.awk -v who=PROGRAM EVENTS EXPECTED PRINTED
# Prints how many cases and events there are; if some differ, they are told on standard error, the first five of them
# place by place, and the exit status is 1.

FILENAME == ARGV[1] && FNR == 1 { total[1] = $1; total[2] = $2; next }
FILENAME == ARGV[1] { EVENT[++events] = $0; next }
FILENAME == ARGV[2] { TYPED[++lines] = $0; next }
{ PRINTED[++printed] = $0 }

END {
    if (events == 0 || events != total[1] + total[2] || lines != 18 * total[1] + 66 * total[2])
        tell("clauses: " events + 0 " events, " lines + 0 " lines: 18 and 66 for each of " total[1] " and " total[2] \
            " events, and at least one, are expected")
    for (e = 1; e <= events; e++) {
        split(EVENT[e], part, ": ")
        if (!(part[1] in CASES)) {
            CASES[part[1]] = 1
            cases++
        }
        compare(e, e <= total[1] ? 18 : 66)
    }
    if (differing > 5)
        tell("clauses: and " differing - 5 " more")
    if (printed != lines)
        tell("clauses: " who " printed " printed + 0 " lines, not " lines)
    print cases, events
    exit told
}

function tell(words) {
    print words | "cat 1>&2"
    told = 1
}

# An event has 18 lines, or 66 in the second form: the numbers, the counter, the sites. `done` are the lines before it.
function compare(e, size,    i, line, first, number) {
    first = done
    done += size
    for (i = 1; i <= size; i++) {
        line = first + i
        if ((TYPED[line] "") == (PRINTED[line] ""))
            continue
        if (last != e && ++differing <= 5)
            tell("clauses: " EVENT[e] ": " who " differs:")
        last = e
        if (differing > 5)
            return
        if (line > printed) {
            tell("    nothing more is printed")
            return
        }
        if (i == 1)
            differ("refusal, answer, packet, site" (split(TYPED[line], number, " ") == 5 ? ", outputs" : ""), \
                TYPED[line], PRINTED[line])
        else if (i == 2)
            differ("counter", TYPED[line], PRINTED[line])
        else
            compare_site(i - 3, TYPED[line], PRINTED[line])
    }
}

# Of a site the places that differ; the whole of it where it is not of the form, or only the mark before it differs.
function compare_site(site, typed, text,    k, some, left, right) {
    if (read_site(typed, left) && read_site(text, right))
        for (k = 0; k < PLACES; k++)
            if ((held(left, k) "") != (held(right, k) "")) {
                differ(place_name(site, k), held(left, k), held(right, k))
                some = 1
            }
    if (!some)
        differ("site " site, typed, text)
}

function differ(what, typed, text) {
    tell("    " what ": typed " typed ", printed " text)
}
