# Expands the cases typed by hand (README.md has their form) into the text that `singles` and the second model's `replay`
# read, the text that both have to print, and a line for each event that says where it is typed. POSIX awk.
# usage: awk -f places.awk -f expand.awk -v cases=FILE -v expected=FILE -v events=FILE names.txt OTHER.txt ..
# A line that is not of the form is named on standard error, and then nothing is written.
#
# A network is an array of numbers: version, edition, S, T, D, then 64 channels and 256 routes in the first form, 256 and
# 4096 in the second. The cases of the first form are written before those of the second.

BEGIN {
    split("64 256", CHANNELS, " ")
    split("256 4096", ROUTES, " ")
    split("version edition S T D", HEAD, " ")
}

FNR == 1 {
    finish()
    end_file()
    file = FILENAME
    ended = typed = 0
    before = count
    network = ""
}

/^[ \t]*(#|$)/ { next }

/^[ \t]/ {
    if (item == "") {
        at = FILENAME ":" FNR
        fail("a line that goes on with nothing")
    }
    item = item " " $0
    next
}

{
    finish()
    item = $0
    at = FILENAME ":" FNR
}

END {
    if (!bad) {
        finish()
        end_file()
    }
    if (!bad && count == 0)
        fail("no case at all")
    if (bad)
        exit 1
    print total[1] + 0, total[2] + 0 > cases
    print total[1] + 0, total[2] + 0 > events
    for (form = 1; form <= 2; form++)
        for (k = 1; k <= count; k++)
            if (OF[k] == form) {
                print CASE[k] > cases
                print EXPECTED[k] > expected
                print EVENT[k] > events
            }
}

function end_file() {
    if (file != "" && !ended) {
        at = file
        fail("the last line, `end N cases, N events`, is missing")
    }
}

# One item: its head, and its fields between bars.
function finish(    n, i, field, head) {
    if (item == "")
        return
    if (ended)
        fail("a line behind the end")
    n = split(item, field, /[|]/)
    for (i = 1; i <= n; i++) {
        gsub(/[ \t]+/, " ", field[i])
        gsub(/^ | $/, "", field[i])
        if (field[i] == "")
            fail("nothing between two bars")
    }
    item = ""
    split(field[1], head, " ")
    if (head[1] == "network")
        new_network(head[2], n, field)
    else if (head[1] == "state")
        new_state(n, field)
    else if (head[1] == "on" && n == 1)
        new_base(field[1])
    else if (head[1] == "case")
        new_case(substr(field[1], 6), n, field)
    else if (head[1] == "end" && n == 1)
        new_end(field[1])
    else
        fail("neither network, state, on, case nor end: " field[1])
}

function new_end(words,    right) {
    right = "end " typed " cases, " count - before " events"
    if (words != right)
        fail("the file has `" right "`, not `" words "`")
    ended = 1
}

# network NAME | S T D = .. | channels = .. | routes = .., or of the second form, with `version V edition E` before S T D
function new_network(name, n, field,    i, of, number) {
    if (field[1] != "network " name || name == "" || name in FORM)
        fail("no name, or one that is there already: " field[1])
    of = n == 5 && field[2] ~ /^version [^ ]+ edition [^ ]+$/ ? 2 : 1
    if (n != of + 3 || field[n - 2] !~ /^S T D = / || field[n - 1] !~ /^channels = / || field[n] !~ /^routes = /)
        fail("a network is `S T D = ..`, `channels = ..` and `routes = ..`, before them `version V edition E` or nothing")
    FORM[name] = of
    for (i = n - 2; i <= n; i++)
        sub(/^[^=]*= /, "", field[i])
    number[2] = number[4] = 1
    if (of == 2)
        split(field[2], number, " ")
    field[n - 2] = number[2] " " number[4] " " field[n - 2]
    check(field[n - 2], "255 255 " WORD " 255 " WORD)
    split(field[n - 2], number, " ")
    for (i = 0; i < 5; i++)
        NETWORK[name, i] = number[i + 1]
    if (of == 2 && fits(number[3], "64")) {
        field[n - 1] = ring(number[3], field[n - 1])
        field[n] = all(number[3], field[n])
    }
    fill(name, 5, CHANNELS[of], field[n - 1])
    fill(name, 5 + CHANNELS[of], ROUTES[of], field[n])
}

# `ring`: port 1 of each site feeds port 1 of the next, and that of the last site the first; every other port has none.
function ring(sites, words,    s, text) {
    if (words !~ /^ring( |$)/)
        return words
    for (s = 1; s <= sites; s++)
        text = text 4 * (s % sites) " 65535 65535 65535 "
    return text substr(words, 6)
}

# `all 1000`: that list from each site to each other one.
function all(sites, words,    from, to, row, text) {
    if (words !~ /^all [0-9A-F][0-9A-F][0-9A-F][0-9A-F]( |$)/)
        return words
    for (from = 0; from < sites; from++) {
        row = ""
        for (to = 0; to < sites; to++)
            row = row (from == to ? "0000" : substr(words, 5, 4)) " "
        text = text row
    }
    return text substr(words, 10)
}

# The first numbers, and what the rest of the room holds: `4 255 0 rest 9`. All of the room needs no rest.
function fill(name, from, room, words,    n, i, word, rest) {
    n = split(words, word, " ")
    rest = ""
    if (n > 2 && word[n - 1] == "rest") {
        rest = word[n]
        n -= 2
    }
    if (n > room || (n < room) != (rest != ""))
        fail("not " room " numbers, and not fewer with a rest: " words)
    for (i = 0; i < room; i++)
        NETWORK[name, from + i] = wire(FORM[name], from, i < n ? word[i + 1] : rest)
}

# A channel from place 5 on; behind the channels a route, which is typed in four hex digits.
function wire(of, from, word,    i, n) {
    if (from < 5 + CHANNELS[of]) {
        check(word, of == 1 ? "255" : "65535")
        return word ""
    }
    if (word !~ /^[0-9A-F][0-9A-F][0-9A-F][0-9A-F]$/)
        fail("not four hex digits: " word)
    for (i = 1; i <= 4; i++)
        n = 16 * n + index("0123456789ABCDEF", substr(word, i, 1)) - 1
    return n ""
}

# state NAME | places, or state NAME from STATE | places
function new_state(n, field,    i, head, words) {
    words = split(field[1], head, " ")
    if (!(words == 2 || words == 4 && head[3] == "from") || head[2] in STATE)
        fail("no name, or one that is there already: " field[1])
    network = ""
    form = 2
    start_from(words == 4 ? head[4] : "")
    for (i = 2; i <= n; i++)
        change(field[i])
    keep(head[2])
}

# The state that is changed next.
function start_from(name,    n, i, part) {
    if (name != "" && !(name in STATE))
        fail("unknown state: " name)
    split("", now)
    n = name == "" ? 0 : split(STATE[name], part, "|")
    for (i = 1; i < n; i += 2)
        now[part[i]] = part[i + 1]
    split("", changed)
}

function keep(name,    k) {
    STATE[name] = ""
    for (k in now)
        STATE[name] = STATE[name] k "|" now[k] "|"
}

# on NETWORK from STATE
function new_base(words,    head, k) {
    if (split(words, head, " ") < 4 || head[3] != "from")
        fail("not `on NETWORK from STATE`: " words)
    network = head[2]
    base = words
    sub(/^on [^ ]* from /, "", base)
    if (!(network in FORM))
        fail("unknown network: " network)
    form = FORM[network]
    start_from(base)
    for (k in now)
        if (k + 0 < COUNTER && k + 0 >= PLACES * (LAST[form] + 1))
            fail("a state with more sites than the network's form has: " base)
}

# case NAME | places of the state and of the network | EVENT -> ANSWER | places after it | EVENT -> ..
function new_case(name, n, field,    i) {
    if (name == "" || name in CASES)
        fail("no name, or one that is there already: case " name)
    if (network == "")
        fail("no `on NETWORK from STATE` before this case")
    CASES[name] = 1
    typed++
    split("", net)
    start_from(base)
    event = ""
    for (i = 2; i <= n; i++)
        if (field[i] ~ /->/)
            new_event(name, field[i])
        else
            change(field[i])
    if (event == "")
        fail("a case without an event: " name)
    end_event()
    keep("end of " name)
}

# RUN site code -> ANSWER or SEND site set -> ANSWER: from the case's own state, or with `then` from the one just left.
# `, outputs ..` behind the answer of RUN are those in the way.
function new_event(name, words,    n, word, next_one) {
    next_one = sub(/^then /, "", words)
    if (event != "")
        end_event()
    else if (next_one)
        fail("no event before this one: then " words)
    else {
        copy(now, own)
        wires = network_text()
    }
    if (!next_one)
        copy(own, now)
    split("", changed)
    changes = 0
    n = split(words, word, " ")
    if (n < 5 || (word[1] != "RUN" && word[1] != "SEND") || word[4] != "->")
        fail("not `RUN site code -> ANSWER` or `SEND site set -> ANSWER`: " words)
    check(word[2] " " word[3], WORD " " WORD)
    event = word[1] " " word[2] " " word[3]
    answer = words
    sub(/^.*-> /, "", answer)
    in_the_way = ""
    if (match(answer, /, outputs /)) {
        if (word[1] != "RUN")
            fail("outputs in the way are of RUN alone: " words)
        in_the_way = outputs_number(substr(answer, RSTART + RLENGTH))
        answer = substr(answer, 1, RSTART - 1)
    }
    total[form]++
    OF[++count] = form
    EVENT[count] = at ": " name ": " (next_one ? "then " : "") event
    CASE[count] = wires "\n" state_text(form, now) "\n" kind_number(word[1]) " " word[2] " " word[3]
    numbers = answer_numbers(word[1]) (in_the_way == "" ? "" : " " in_the_way)
}

# RUN is 1, and 3 where the outputs in the way are typed; SEND is 2.
function kind_number(kind) {
    return kind == "SEND" ? 2 : in_the_way == "" ? 1 : 3
}

# The outputs in the way, `none` or ascending: the number whose bit j is output j.
function outputs_number(words,    n, i, word, number) {
    if (words == "none")
        return "0"
    n = split(words, word, " ")
    for (i = 1; i <= n; i++) {
        if (word[i] !~ /^[0-5]$/ || i > 1 && word[i] <= word[i - 1])
            fail("neither `none` nor different outputs 0 to 5, ascending: " words)
        number += 2 ^ word[i]
    }
    return number ""
}

# `refused N`; of SEND the packet; of RUN 0, 1, or 2 with packet and site. In numbers: refusal, answer, packet, site.
function answer_numbers(kind) {
    if (answer ~ /^refused (3|6|7|9|10|11|12|13)$/ || form == 2 && answer ~ /^refused (2|17)$/)
        return substr(answer, 9) " 0 0 0"
    if (answer ~ /^refused/)
        fail("no single event is refused so: " answer)
    if (kind == "SEND" || answer == "0" || answer == "1") {
        check(answer, "254")
        return "0 " answer " 0 0"
    }
    check(answer, "2 254 " LAST[form])
    if (answer !~ /^2 /)
        fail("no such answer: " answer)
    return "0 " answer
}

# An event's places are all there. "1 if anything in the state changed, else 0"; a refusal changes nothing.
function end_event(    still) {
    still = answer ~ /^refused / || event ~ /^RUN / && answer == "0"
    if (still && changes > 0)
        fail(event " -> " answer " changes nothing, but has a place behind it")
    if (!still && changes == 0)
        fail(event " -> " answer " changes something, but has no place behind it")
    EXPECTED[count] = numbers "\n" state_text(form, now)
}

# PLACE = NUMBERS, of the state, or before a case's first event of its network.
function change(words,    n, side, word, k, value) {
    if (split(words, side, / = /) != 2)
        fail("neither an event nor `PLACE = NUMBERS`: " words)
    if (side[1] in changed)
        fail("changed twice: " side[1])
    changed[side[1]] = 1
    changes++
    n = split(side[1], word, " ")
    if (word[1] ~ /^([STD]|version|edition|channel|route)$/) {
        rewire(words, n, word, side[2])
        return
    }
    k = place(form, n, word)
    if (k < 0)
        fail("no such place: " side[1])
    value = checked(k, side[2])
    if ((held(now, k) "") == (value ""))
        fail("is so already: " words)
    put(now, k, value)
}

# S, T, D, in the second form version and edition; channel SITE PORT, route FROM TO, of a case's network
function rewire(words, n, word, value,    k, last) {
    if (event != "" || network == "")
        fail("a network changes before a case's first event, and only there: " words)
    last = LAST[form]
    k = -1
    if (n == 1) {
        for (k = 4; k >= 0 && HEAD[k + 1] != word[1]; k--) ;
        if (k < 2 && form == 1)
            fail("a network of the first form has no version or edition: " words)
        check(value, k == 2 || k == 4 ? WORD : "255")
    } else if (n == 3 && word[1] == "channel" && fits(word[2], last) && word[3] ~ /^[1-4]$/) {
        k = 5 + 4 * word[2] + word[3] - 1
        value = wire(form, 5, value)
    } else if (n == 3 && word[1] == "route" && fits(word[2], last) && fits(word[3], last) && fits(number_at(2), last + 2)) {
        k = 5 + CHANNELS[form] + number_at(2) * word[2] + word[3]
        value = wire(form, k, value)
    }
    if (k < 0 || k >= 5 + CHANNELS[form] + ROUTES[form])
        fail("no such place of a network: " words)
    if ((number_at(k) "") == (value ""))
        fail("is so already: " words)
    net[k] = value ""
}

# A number of the case's network: `net` has those that the case changes.
function number_at(k) {
    return k in net ? net[k] : NETWORK[network, k]
}

# The text of the case's network: S T D, the channels, the routes; in the second form version and edition before them.
function network_text() {
    return (form == 1 ? "" : number_at(0) " " number_at(1) " ") number_at(2) " " number_at(3) " " number_at(4) \
        "\n" list_text(5, CHANNELS[form]) "\n" list_text(5 + CHANNELS[form], ROUTES[form])
}

# `fill n ..`: all of the room in the first form; in the second without its end, which holds one number.
function list_text(from, room,    i, n, same, row, text) {
    n = room
    same = "0"
    if (form == 2) {
        same = number_at(from + room - 1)
        while (n > 0 && (number_at(from + n - 1) "") == (same ""))
            n--
    }
    for (i = 0; i < n; i++) {
        row = row " " number_at(from + i)
        if (i % 64 == 63) {
            text = text row
            row = ""
        }
    }
    return same " " n text row
}
