#!/usr/bin/env python3
"""Spells the repository's own definitions, lemmas and record fields in snake case, in every crate, must-fail edit and page.

usage: python3 tools/respell.py [--dry]

What is declared in specs/ or proofs/ of a crate with a dash or a capital inside, as has-suc or setBits, gets underscores,
as has_suc and set_bits. Names that Rattle makes, names of its libraries, types, constructors and the names of Rust's items
keep their spelling. A name whose new spelling is taken where it is used keeps the old one; the run says which.
"""
import os
import re
import sys

ROOT = os.path.dirname(os.path.dirname(os.path.realpath(__file__)))
WORD = r"[^\s(){}.;,@\"«»`|]+"
TOKEN = re.compile(WORD)
DECLARED = re.compile(r"(?m)^( *)((?:(?:pattern|unfoldable|abbrev|pub|axiom) )*)(" + WORD + r")((?: \{[^{}\n]*\})*)((?: \([^()\n]*\))*) :(?= |$)")
USE = re.compile(r"(?m)^ *(?:pub )?(?:ghost )?use ([^\s;{]+?)(?:\.\{([^}]*)\})?(?: as ([^\s;]+))?;? *$")


def snake(name):
    name = re.sub(r"(?<=[a-z0-9])(?=[A-Z])", "_", name)
    return name.replace("-", "_").lower() if not re.fullmatch(r"[A-Z]\w*", name) else name


def wanted(name):
    return re.fullmatch(r"[A-Za-z][\w'₀-₉-]*", name) and snake(name) != name and not re.fullmatch(r"[A-Z][A-Za-z0-9]*'?", name)


def files(ending):
    for top in ("specs", "proofs", "src", "must-fail"):
        for crate in sorted(os.listdir(os.path.join(ROOT, "crates"))):
            for folder, dirs, names in os.walk(os.path.join(ROOT, "crates", crate, top)):
                dirs[:] = sorted(d for d in dirs if d != "out")
                for n in sorted(names):
                    if n.endswith(ending):
                        yield os.path.join(folder, n)


def read(path):
    with open(path, encoding="utf-8") as f:
        return f.read()


def code_of(text, mark):
    """The text with comments blanked."""
    return re.sub(r"(?m)" + mark + r"[^\n]*", "", text)


OWN = set(os.listdir(os.path.join(ROOT, "crates")))


def is_own(path):
    steps = path.split(".")
    return steps[0] == "Rattle" and len(steps) > 1 and steps[1] in OWN


def foreign(text):
    """Names that a file takes from the libraries."""
    found = set()
    for path, items, alias in USE.findall(text):
        if is_own(path):
            continue
        for it in (items or "").split(","):
            it = it.strip()
            if it:
                found.add(it.split(" as ")[-1].strip())
                found.add(it.split(" as ")[0].strip())
        if not items:
            found.add(alias or path.split(".")[-1])
    return found


def modules(text):
    """Heads behind which a dot stands before a name of a module of the repository's own."""
    heads = set()
    for path, items, alias in USE.findall(text):
        if is_own(path) and not items and not re.search(r"\.(Tie|Reads|Lts|Statement|Given|Goals)$", path):
            heads.add(alias or path.split(".")[-1])
    return heads


def made_by_rattle(path, text):
    """Labels of a function's own proof file."""
    made = set()
    if re.search(r"/proofs/.*/(Proof|Answers|Invariants)\.antt$", path):
        for m in re.finditer(r"(?m)^((?:abbrev |pub )*)(" + WORD + r") : (?:\{M : Type 1\} → statement|tie\.|goal\.)", text):
            made.add(m[2])
    return made


PLAIN = set()
# Names that port.py put into snake case in the crates, for the pages.
PORTED = """
andThen answerOf byteOf claimOf countOf cutAt cutIf depthOf endOf endsAt enteredAt fieldsOf halfLine inputAt isEmpty
isLocal isNone isRefused isTaken lastOf lengthOf lineAt linesOf listOf localAt noRun noSite numberOf ofBoth ofByte
orElse outAt outOf passedBy placeOf runBy runOf seenAt setAt setSite sitesIn sitesOf soFar startOf stateOf turnOf
valueOf wordBytes wordOf wordsOf act-by add-at add-row add-total add-turn add-wide add-words added-none added-then
alike-at all-alike all-but all-end all-more all-none all-read all-same all-set and-same any-at any-none append-at
asked-is at-front at-head at-more at-most at-rest back-one bit-high bit-in body-of both-ways branch-by by-codes by-
flags by-kind by-number by-parts by-word byte-at capped-is capped-same choose-spec chosen-at chosen-by code-below
codes-same copy-done copy-spec count-held cut-by cut-in cut-off decode-no did-nothing digit-ok each-same either-way
end-below end-kept end-none end-seen ends-same enter-spec enum-told fails-more fed-by field-at fields-within fill-spec
filled-more find-spec finish-spec first-goes first-of first-one flag-at flag-by found-at frame-at free-in free-input
from-first from-place front-read gather-none gathers-same getD-rows give-at goes-back goes-on goes-over has-room has-
within head-of head-ok held-at held-by holds-at in-a-row in-count in-parts in-small input-back input-ok joined-same
joined-to kept-by known-at left-at length-digits length-none length-over length-seen lines-join list-same local-back
low-byte main-spec marked-more member-settled minus-pos more-room most-bytes mul-at mul-next mul-words named-more
next-place no-abort no-hit no-kind no-lines no-number no-room none-filled none-found none-is none-more none-stays
none-told none-yet nothing-read of-four of-two once-more one-kept one-more one-ok only-below opened-in other-at
output-on over-below over-none own-on own-range pair-held pair-ok pair-turn pairs-first pairs-of part-length pass-on
passes-same past-all pick-at pick-first pick-second place-at place-kept place-none plus-suc put-four put-front put-in
put-spec put-two quiet-none ran-on range-at range-small read-back read-count read-fits read-head read-short read-spec
ready-read rest-below row-at row-below row-by row-small rows-same run-alone run-in run-none run-ok run-settled run-
spec run-step runs-on runs-same same-answer same-at same-byte same-end same-in same-length same-out same-queue same-
step same-sum same-test second-at seek-is seek-ok seek-set sends-none set-out set-word shares-sum site-set size-same
spread-same start-spec step-same step-spec stored-is sub-more sub-read sum-owes sum-pop sum-same tag-at take-all take-
out taken-at targets-by to-tick trailing-below turned-by turned-down two-digits upto-add upto-zero value-none value-
read whole-same within-by word-at word-fits word-held word-read words-are write-read write-spec write-two written-both
zero-left zero-of zero-ok zero-same
""".split()
# Lemmas that have the name of a definition in snake case already.
LEMMAS = ["at_front", "set_out", "fed_by", "local_back", "input_back"]


def names_declared(line):
    m = DECLARED.match(line)
    if m:
        return [m[3]]
    m = re.match(r" *(?:(?:pattern|unfoldable|abbrev|pub|axiom) )*((?:" + WORD + r" )+):(?= |$)", line)
    names = m[1].split() if m else []
    return [] if not names or {"record", "data", "let", "module", "elim", "in", "λ", "=", "→", "as", "where"} & set(names) else names


def plan():
    declared, fields, texts = {}, set(), {}
    for path in files(".antt"):
        text = read(path)
        texts[path] = text
        made = made_by_rattle(path, text)
        for _, items, _ in USE.findall(text):
            for alias in re.findall(r" as (" + WORD + r")", items):
                if wanted(alias):
                    declared.setdefault(alias, set()).add(path)
        inside, depth = False, 0
        for line in code_of(text, "--").split("\n"):
            if re.match(r" *(pub )?(record|data) .*where *$", line):
                inside, depth = True, len(line) - len(line.lstrip())
            elif inside and line.strip() and len(line) - len(line.lstrip()) <= depth:
                inside = False
            for name in names_declared(line):
                if name in made:
                    continue
                if re.fullmatch(r"[a-z][a-z0-9_']*", name):
                    PLAIN.add(name)
                if wanted(name):
                    declared.setdefault(name, set()).add(path)
                    if inside:
                        fields.add(name)
    return declared, fields, texts


def tokens(code):
    """The words of code that stand behind no dot; of a use line those that it brings in."""
    code = re.sub(r"(?m)^ *(?:pub )?(?:ghost )?use [^\s;{]+", "", code)
    return {m[0] for m in TOKEN.finditer(code) if not code[: m.start()].endswith(".")}


def main():
    dry = "--dry" in sys.argv
    declared, fields, texts = plan()
    for path in files(".rt"):
        for _, items, _ in USE.findall(read(path)):
            for alias in re.findall(r" as (" + WORD + r")", items):
                if wanted(alias):
                    declared.setdefault(alias, set()).add(path)
    table = {n: snake(n) for n in declared}
    stays = set()
    # a lemma that would have the name of a definition ends in _lem
    spelled = set(PLAIN)
    for n in declared:
        if "-" not in n:
            spelled.add(snake(n))
    for n in declared:
        if "-" in n and table[n] in spelled:
            table[n] += "_lem"
    lemmas = {n: n + "_lem" for n in LEMMAS}
    # the new spelling must be free wherever the old one is used
    everywhere = dict(texts)
    for path in files(".rt"):
        everywhere[path] = read(path)
    for path, text in everywhere.items():
        rust = path.endswith(".rt")
        code = code_of(text, "//" if rust else "--")
        used = tokens(code)
        if rust:
            ghost = "\n".join(re.findall(r"(?m)^ *ghost use [^;]*;", code))
            names = set(re.findall(r"[(,] *(?:mut )?(\w+): ", code)) | set(re.findall(r"\blet (?:mut )?(\w+)", code))
            for old in tokens(ghost) & set(table):
                if table[old] in names:
                    stays.add(old)
                    print(f"taken: {old} in {os.path.relpath(path, ROOT)}, where {table[old]} is a parameter or a local")
        else:
            for old in used & set(table):
                new = table[old]
                others = [o for o in used if o != old and table.get(o) == new]
                if (new in used - set(lemmas) or others) and old not in foreign(text):
                    stays.add(old)
                    print(f"taken: {old} in {os.path.relpath(path, ROOT)}, which has {new} {others}")
    for old in stays:
        table.pop(old, None)
    print(f"respell: {len(table)} names, {len(stays)} stay")
    if dry:
        for old, new in sorted(table.items()):
            print(old, new)
        return
    for path, text in everywhere.items():
        new = turn_rust(text, table) if path.endswith(".rt") else turn_antt(path, text, lemmas | table, fields)
        if new != text:
            with open(path, "w", encoding="utf-8") as f:
                f.write(new)
    for path in files(".edit"):
        text = read(path)
        rust = re.search(r"(?m)^file: src/", text)
        lines = []
        for line in text.split("\n"):
            m = re.match(r"(old|new): (.*)$", line)
            if m:
                body = turn_rust(m[2], table) if rust else turn_tokens(m[2], table, fields, set(), None)
                line = f"{m[1]}: {body}"
            lines.append(line)
        new = "\n".join(lines)
        if new != text:
            with open(path, "w", encoding="utf-8") as f:
                f.write(new)
    for folder, dirs, names in os.walk(ROOT):
        dirs[:] = [d for d in dirs if d not in (".git", "out", "target")]
        for n in names:
            if n.endswith(".md"):
                path = os.path.join(folder, n)
                text = read(path)
                new = turn_page(text, {n: snake(n) for n in PORTED} | table)
                if new != text:
                    with open(path, "w", encoding="utf-8") as f:
                        f.write(new)


def turn_comment(text, table):
    """In a comment or a page only what cannot be English: names in backticks, and names with a capital inside."""
    def camel(m):
        return table.get(m[0], m[0])

    text = re.sub(r"(?<![\w./·-])[a-z]+[a-z0-9]*[A-Z]\w*(?![\w/·-])", camel, text)
    return re.sub(r"`[^`\n]+`", lambda m: re.sub(r"(?<![\w./·-])[A-Za-z][\w'-]*(?![\w/·-])", camel, m[0]), text)


def turn_page(text, table):
    return turn_comment(text, table)


def turn_tokens(code, table, fields, skip, heads):
    out, last = [], 0
    for m in TOKEN.finditer(code):
        t = m[0]
        if t not in table or t in skip:
            continue
        behind = code[: m.start()]
        if behind.endswith("."):
            head = re.search(r"([^\s(){};,@\"«»]+)\.$", behind)
            words = head[1].split(".") if head else [""]
            own = is_own(head[1]) if head else False
            if not (t in fields or own or heads is None or (words[-1] in heads and len(words) == 1)):
                continue
            if t not in fields and not own and heads is not None and words[-1] not in heads:
                continue
        out.append(code[last : m.start()])
        out.append(table[t])
        last = m.end()
    out.append(code[last:])
    return "".join(out)


def turn_antt(path, text, table, fields):
    skip = foreign(text) | made_by_rattle(path, text)
    # a name of a library that the file also takes from the repository's own is the repository's
    heads = modules(text)
    lines = []
    for line in text.split("\n"):
        code, mark, comment = line, "", ""
        m = re.search(r"(?:^|(?<=\s))--(?=\s|$)", line)
        if m:
            code, mark, comment = line[: m.start()], "--", line[m.end():]
        use = USE.match(code)
        if use and not is_own(use[1]):
            lines.append(line)
            continue
        lines.append(turn_tokens(code, table, fields, skip, heads) + mark + turn_comment(comment, table))
    return "\n".join(lines)


def turn_rust(text, table):
    lines = []
    for line in text.split("\n"):
        m = re.search(r"(?<!:)//", line)
        code, rest = (line[: m.start()], line[m.start():]) if m else (line, "")
        if re.match(r" *ghost use ", code) and not re.match(r" *ghost use Rattle\.(%s)\." % "|".join(sorted(OWN)), code):
            lines.append(line)
            continue

        def one(m):
            return table.get(m[0], m[0])

        pieces = re.split(r'("(?:[^"\\]|\\.)*")', code)
        for i in range(0, len(pieces), 2):
            pieces[i] = re.sub(r"(?<![\w·'-])[A-Za-z][\w'-]*(?![\w·-])", one, pieces[i])
        lines.append("".join(pieces) + turn_comment(rest, table))
    return "\n".join(lines)


main()
