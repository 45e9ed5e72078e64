# Of scripts/settled.sh: reads the libraries' code, their specs/Lib.antt and the theorems, and holds each public
# function to its theorem. Public is each `pub fn`, `pub const fn` and `pub extern "C" fn`, also in an `impl` or a `mod`;
# what is `pub(crate)` is not. Handed in: the names of the libraries, of those without a function, the exceptions.

# every file as one text, without the comments that end with their line
FNR == 1 { names[++files] = FILENAME }
{
    line = $0
    if (FILENAME ~ /\.rt$/) sub(/\/\/.*/, "", line)
    else sub(/--.*/, "", line)
    text[FILENAME] = text[FILENAME] " " line
}

END {
    for (f = 1; f <= files; f++) if (names[f] ~ /\.rt$/) functions(names[f])
    for (f = 1; f <= files; f++) if (names[f] ~ /\/Lib\.antt$/) modules(names[f])
    for (f = 1; f <= files; f++) if (names[f] ~ /^crates\/settled\/proofs\//) theorems(names[f])
    crates = split(libraries, crate)
    for (c = 1; c <= crates; c++) {
        if (crate[c] in seen) with_functions++
        else if (!has(bare, crate[c])) problem("no public function seen in crates/" crate[c])
    }
    left_out = split(exceptions, except)
    for (e = 1; e <= left_out; e++)
        if (!(except[e] in public)) problem(except[e] " is named as an exception, but is no public function")
    for (k = 1; k <= found; k++) {
        one = order[k]
        if (has(exceptions, one)) {
            if (one in settled) problem(one " is named as an exception, but has a theorem")
        } else if (settled[one] + 0 < public[one]) problem(one " has no theorem in crates/settled/proofs")
    }
    if (bad) exit 1
    said = total - left_out " public functions of " with_functions " crates, each with its theorem"
    print "settled: " said "; " left_out " exceptions"
}

function problem(what) {
    print "settled: " what
    bad = 1
}

function has(list, name) {
    return index(" " list " ", " " name " ") > 0
}

# the text without what stands between two marks
function without(t, from, to,    a, b) {
    while ((a = index(t, from)) > 0) {
        b = index(substr(t, a), to)
        t = substr(t, 1, a - 1) " " (b > 0 ? substr(t, a + b + length(to) - 1) : "")
    }
    return t
}

# crates/NAME/..
function crate_of(file,    part) {
    split(file, part, "/")
    return part[2]
}

# public["CRATE::NAME"]: how many there are of that name
function functions(file,    crate, n, w, i, j, one) {
    crate = crate_of(file)
    text[file] = without(text[file], "/*", "*/")
    gsub(/[][{}();<>]/, " & ", text[file])
    n = split(text[file], w)
    for (i = 1; i < n; i++) {
        if (w[i] != "pub") continue
        for (j = i + 1; w[j] ~ /^(const|unsafe|extern|"[^"]*")$/; j++);
        if (w[j] != "fn") continue
        one = crate "::" w[j + 1]
        if (!(one in public)) order[++found] = one
        public[one]++
        total++
        seen[crate] = 1
    }
}

# by_hand["CRATE::NAME"]: modules of specs/ that the checker did not make
function modules(file,    n, w, i) {
    n = split(text[file], w)
    for (i = 1; i < n; i++) if (w[i] == "mod") by_hand[crate_of(file) "::" w[i + 1]] = 1
}

# settled["CRATE::NAME"]: how many theorems there are of functions of that name
function theorems(file,    n, w, i, k, word, plain, bound, told) {
    n = split(without(text[file], "{-", "-}"), w)
    for (i = 1; i <= n; i++) {
        word = w[i]
        gsub(/[{},()]/, "", word)
        told[word]++
        if (w[i] != "use") continue
        if (index(w[i + 1], "Rattle.settled.specs.Outcomes.{Settles") == 1) plain = 1
        if (w[i + 2] == "as") bound[w[i + 3]] = w[i + 1]
    }
    if ("module" in told) plain = 0
    for (i = 1; i <= n; i++) {
        if (w[i] !~ /_settled$/ || w[i + 1] != ":") continue
        word = w[i - 1]
        for (k = i; k < i + 14 && k <= n; k++) word = word " " w[k]
        if (!plain) {
            problem(file ": `Settles` is not that of specs/Outcomes.antt, or a theorem stands in a module of the file")
            return
        }
        theorem(file, substr(w[i], 1, length(w[i]) - 8), word, bound, told)
    }
}

# One theorem, its words up to the proof's first: it has to be that of a function, over the contract that
# bound[the_NAME] gives. told: how often a word stands in the file.
function theorem(file, name, words, bound, told,    own, want, path, crate, n, part, one) {
    own = "the_" name
    want = "pub " name "_settled : Settles " own ".ended (λ M 𝓤. " own ".clauses) (λ M 𝓤. " own ".spec) " name "_settled ="
    if (words != want) {
        problem(file ": wanted `" want " ..`, found `" words " ..`")
        return
    }
    path = bound[own]
    n = index(path, ".specs.contracts.")
    if (told[own] != 1 || index(path, "Rattle.") != 1 || n == 0) {
        problem(file ": no one line `use Rattle.CRATE.specs.contracts." name " as " own "`")
        return
    }
    crate = substr(path, length("Rattle.") + 1, n - length("Rattle.") - 1)
    n = split(substr(path, n + length(".specs.contracts.")), part, ".")
    one = crate "::" name
    if (part[n] != name || (crate "::contracts") in by_hand)
        problem(file ": " own " is `" path "`, not the function " name)
    else if (!(one in public)) problem(file ": " one " is no public function")
    else if (!(path in cited)) {
        cited[path] = 1
        settled[one]++
    }
}
