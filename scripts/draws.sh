# draws.sh: which archives a script plays where each draw costs much, and their lines. To be sourced.

# draws FILE: the number of draws that the bytes of an archive name, in the place of their version, whatever they are.
draws() {
    od -An -v -tu1 -N14 "$1" | tr '\n' ' ' | awk '{ p = $3 == 1 ? 11 : 12; n = 256 * $p + $(p + 1) } END { print n + 0 }'
}

# lines_of NAMES OUTPUTS: of what batch --services printed (crates/batch/stdout) the lines of the archives that the file
# NAMES names, one to a line: services, then the line that begins with the name.
lines_of() {
    awk '
        part == 1 { named[$0] = 1; next }
        / cannot be read$/ || /^files / { next }
        { text = text $0 "\n" }
        match($0, /[.]bin: /) {
            if (substr($0, 1, RSTART + 3) in named) printf "%s", text
            text = ""
        }' part=1 "$1" part=2 "$2"
}
