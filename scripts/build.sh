# build.sh: proves and builds the programs. To be sourced by the front, in the repository.
made='play batch inspect trace mover quote'

# changed FILE: a source that is newer than the file, if there is one.
changed() {
    find "$root/crates" "$root/crates.txt" -path "$root/crates/*/out" -prune -o -type f -newer "$1" -print | head -n 1
}

# fresh PROGRAM: builds if the program is not there or older than a source; without the kit an old one is said to be old.
fresh() {
    newer=
    if [ -x "$programs/$1" ]; then
        newer=$(changed "$programs/$1")
        [ -n "$newer" ] || return 0
    fi
    if [ -z "$newer" ] || command -v rt >/dev/null 2>&1; then
        build
    else
        say "$1 is older than ${newer#"$root"/}, and without the Rattle kit ('rt') it cannot be built again"
    fi
}

# Ends a process and all that it started.
end_tree() {
    for child in $(ps -A -o pid= -o ppid= | awk -v p="$1" '$2 == p { print $1 }'); do end_tree "$child"; done
    kill "$1" 2>/dev/null
}

# progress LINES: of each crate that the log says is proved, behind the first so many: which it is of how many, and what
# comes next, that is all whose own crates are proved. rt says nothing of a crate that has not changed: it counts as soon as
# one above it is proved.
progress() {
    awk -v made="$made" -v from="$1" '
        function mark(crate,    below, n, j) {
            if (crate in done) return
            done[crate] = 1
            seen++
            n = split(needs[crate], below, " ")
            for (j = 1; j <= n; j++) if (below[j] in needs) mark(below[j])
        }
        FNR == NR {
            if ($0 ~ /^[a-z_]+[^#]*:/) {
                crate = $1
                sub(/:.*/, "", crate)
                sub(/^[^:]*:/, "")
                needs[crate] = $0
                order[++crates] = crate
            }
            next
        }
        FNR == 1 {
            todo = split(made, wanted, " ")
            for (i = 1; i <= todo; i++) {
                if (wanted[i] in all) continue
                all[wanted[i]] = 1
                total++
                n = split(needs[wanted[i]], below, " ")
                for (j = 1; j <= n; j++) if (below[j] in needs) wanted[++todo] = below[j]
            }
        }
        /^crate [a-z_]+: / {
            now = $2
            sub(/:$/, "", now)
        }
        /^logic=proved / {
            mark(now)
            if (++lines <= from) next
            open = ""
            for (i = 1; i <= crates; i++) {
                crate = order[i]
                if (!(crate in all) || crate in done) continue
                n = split(needs[crate], below, " ")
                for (j = 1; j <= n; j++) if (below[j] in all && !(below[j] in done)) break
                if (j > n) open = open " " crate
            }
            print seen " of " total ": " now " proved" (open == "" ? "" : "; now or next:" open)
        }' "$root/crates.txt" "$root/target/build.log" | while IFS= read -r line; do say "$line"; done
}

# Proves and builds the programs that are not there, are older than a source, or were built by another kit. rt writes its
# log; what is said here comes out of it while it grows. The verdict is that of scripts/make.sh.
build() {
    command -v rt >/dev/null 2>&1 ||
        die "the Rattle kit is not installed ('rt' is not on the PATH), and without it nothing can be proved or built"
    log=$root/target/build.log
    (mkdir -p "$root/target" && : >"$log") 2>/dev/null ||
        die "target/ or target/build.log cannot be written: nothing is proved, nothing is built"
    kit=$(rt version)
    todo=
    for program in $made; do
        there=$root/target/bin/$program
        [ -x "$there" ] && [ -z "$(changed "$there")" ] && [ "$kit" = "$(cat "$root/target/kit" 2>/dev/null)" ] ||
            todo="$todo $program"
    done
    if [ -z "$todo" ]; then
        say "built already, in target/bin: $made"
        return
    fi
    say "proving and building$todo; from nothing that takes many minutes, and nothing is said for some"
    say "of them while rules, machine or words is proved; the whole log is target/build.log"
    rm -f "$root/target/kit"
    # shellcheck disable=SC2086
    sh "$root/scripts/make.sh" $todo >>"$log" 2>&1 &
    prover=$!
    trap 'end_tree "$prover"; say "stopped"; exit 2' INT TERM HUP
    said=0
    while kill -0 "$prover" 2>/dev/null; do
        sleep 1
        now=$(grep -c '^logic=proved ' "$log")
        [ "$now" -eq "$said" ] || progress "$said"
        said=$now
    done
    ended=0
    wait "$prover" || ended=$?
    trap - INT TERM HUP
    progress "$said"
    if [ "$ended" -ne 0 ]; then
        grep -e '^rt: ' -e '^make: ' -e 'error' "$log" | tail -n 5 >&2
        die "not built: scripts/make.sh ended with $ended; target/build.log says why"
    fi
    printf '%s\n' "$kit" >"$root/target/kit"
    say "built, in target/bin: $made"
}
