# The places of a state, for expand.awk and compare.awk: their names, how many numbers each holds, the largest of each, and
# their text. POSIX awk. Numbers are kept and compared as text: they have up to 64 bits.
#
# A state has 2433 places: place 38 x site + k, where k is 0 to 4 for the net-inputs, 5 to 10 for the net-outputs, of which 5
# is the split output, 11 for the out-queue's count, 12 to 19 for its entries, 20 and 21 to 28 for the in-queue, 29 and 30 to
# 37 for the split in-queue; the counter is the last. Only places that are not zero are kept. In the first form a state has
# sites 0 to 15, in the second 0 to 63.

BEGIN {
    WORD = "18446744073709551615"
    LAST[1] = "15"
    LAST[2] = "63"
    PLACES = 38
    COUNTER = 64 * PLACES
    for (k = 0; k < PLACES; k++) {
        if (k < 5)
            LARGEST[k] = "7 6 2 255 " WORD " 1 1 1 1 1 1 255"
        else if (k < 11)
            LARGEST[k] = "3 255 " WORD " 255 1 3"
        else if (k == 11 || k == 20 || k == 29)
            LARGEST[k] = WORD
        else
            LARGEST[k] = "255 " WORD (k < 20 ? " 1" : " 3")
        ZERO[k] = LARGEST[k]
        gsub(/[0-9]+/, "0", ZERO[k])
    }
    FIRST["input"] = 0
    FIRST["output"] = 5
    FIRST["out-queue"] = 12
    FIRST["in-queue"] = 21
    FIRST["split-queue"] = 30
}

# Stops at a line that is not of the form: `at` says which.
function fail(words) {
    print "clauses: " at ": " words | "cat 1>&2"
    bad = 1
    exit 1
}

# The place of a name of n words: counter, SITE input I, SITE output J, SITE out-queue, SITE out-queue M, and in-queue or
# split-queue likewise; -1 for others, and for a site that the form has not.
function place(form, n, word,    k) {
    if (n == 1 && word[1] == "counter")
        return COUNTER
    if (n < 2 || n > 3 || !fits(word[1], LAST[form]) || !(word[2] in FIRST))
        return -1
    k = FIRST[word[2]]
    if (n == 2)
        return k < 11 ? -1 : PLACES * word[1] + k - 1
    return fits(word[3], k == 0 ? "4" : k == 5 ? "5" : "7") ? PLACES * word[1] + k + word[3] : -1
}

# The name of place k of a site.
function place_name(site, k) {
    if (k < 11)
        return site (k < 5 ? " input " k : " output " (k - 5))
    if (k < 20)
        return site " out-queue" (k > 11 ? " " (k - 12) : "")
    if (k < 29)
        return site " in-queue" (k > 20 ? " " (k - 21) : "")
    return site " split-queue" (k > 29 ? " " (k - 30) : "")
}

# A place that the text has behind the other ones of its site, with the inputs' marks of the split output.
function is_split(k) {
    return k == 10 || k > 28
}

# A decimal number without leading zeros, at most `most`.
function fits(word, most) {
    if (word !~ /^(0|[1-9][0-9]*)$/ || length(word) > length(most))
        return 0
    return length(word) < length(most) || (word "") <= (most "")
}

# As many numbers as there are largest ones, each at most that.
function check(words, largest,    n, m, i, word, most) {
    n = split(words, word, " ")
    m = split(largest, most, " ")
    if (n != m)
        fail("not " m " numbers, but " n ": " words)
    for (i = 1; i <= n; i++)
        if (!fits(word[i], most[i]))
            fail("not a number from 0 to " most[i] ": " word[i] " in " words)
}

# A place's numbers, as they are kept: of a net-input with 11 the mark of the split output is 0. Connection and received
# terminator of a net-input stand exactly where its state number has them: the text form holds nothing else.
function checked(k, words,    n, received) {
    if (k == COUNTER || k % PLACES > 4) {
        check(words, k == COUNTER ? "255" : LARGEST[k % PLACES])
        return words
    }
    if (split(words, n, " ") == 11)
        words = with_mark(words, "0")
    check(words, LARGEST[k % PLACES])
    received = n[1] == 4 || n[1] == 5 || n[1] == 7
    if ((n[2] > 0) != (n[1] > 1) || (n[3] > 0) != received)
        fail("connection or terminator where the state number has none, or none where it has one: " words)
    return words
}

# The twelve numbers of a net-input: the eleven with the mark of the split output before the last, which is the tries.
function with_mark(words, mark,    tries) {
    tries = words
    sub(/^.* /, "", tries)
    sub(/[^ ]*$/, "", words)
    return words mark " " tries
}

# The numbers of place k, and the place with other numbers.
function held(state, k) {
    return k in state ? state[k] : k == COUNTER ? "0" : ZERO[k % PLACES]
}

function put(state, k, words) {
    if ((words "") == (k == COUNTER ? "0" : ZERO[k % PLACES]))
        delete state[k]
    else
        state[k] = words ""
}

function copy(from, to,    k) {
    split("", to)
    for (k in from)
        to[k] = from[k]
}

# The text of a state: the counter, and the form's sites, a line each.
function state_text(form, state,    k, s, used, text) {
    for (k in state)
        used[int(k / PLACES)] = 1
    text = held(state, COUNTER)
    for (s = 0; s <= LAST[form] + 0; s++)
        text = text "\n" (s in used ? site_text(state, PLACES * s) : "0")
    return text
}

# The text of a site that is not all zero: 1 and 135 numbers; where the split places are not all zero, 2 and 171 numbers.
function site_text(state, first,    k, n, i, text, marks, rest) {
    for (k = 0; k < PLACES; k++) {
        if (is_split(k))
            rest = rest " " held(state, first + k)
        else if (k > 4)
            text = text " " held(state, first + k)
        else {
            split(held(state, first + k), n, " ")
            for (i = 1; i <= 10; i++)
                text = text " " n[i]
            text = text " " n[12]
            marks = marks " " n[11]
        }
    }
    rest = marks rest
    return rest ~ /[1-9]/ ? "2" text rest : "1" text
}

# The other way: the places of a site's text. Answers 0 for a text that is not of the form.
function read_site(text, state,    n, k, word, at, behind) {
    n = split(text, word, " ")
    split("", state)
    if (n == 1 && word[1] == "0")
        return 1
    if (!(n == 136 && word[1] == "1" || n == 172 && word[1] == "2"))
        return 0
    at = 2
    behind = 142
    for (k = 0; k < PLACES; k++)
        if (k < 5) {
            put(state, k, with_mark(numbers_of(word, at, 11), n == 172 ? word[137 + k] : "0"))
            at += 11
        } else if (!is_split(k)) {
            put(state, k, numbers_of(word, at, size_of(k)))
            at += size_of(k)
        } else if (n == 172) {
            put(state, k, numbers_of(word, behind, size_of(k)))
            behind += size_of(k)
        }
    return 1
}

function size_of(k,    unit) {
    return split(ZERO[k], unit, " ")
}

function numbers_of(word, from, size,    i, text) {
    text = word[from]
    for (i = from + 1; i < from + size; i++)
        text = text " " word[i]
    return text
}
