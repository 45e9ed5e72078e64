#!/bin/sh
# rewrite.sh: reads every archive of the corpus and writes it back, by the proved program target/bin/rewrite (run as
# scripts/program.sh says), and compares what it tells with the second model: the refusal that crates/batch/stdout has,
# or the same bytes, as many as the file has. And sees that the archives of crates/rewrite/data are the corpus's own.
# Prints one line. Exit: 0 no difference, 1 a difference (the lines stay in target/rewrite.txt), 2 no program.
set -u
export LC_ALL=C
root=$(CDPATH= cd -- "$(dirname -- "$0")/.." && pwd) || exit 2
cd "$root" || exit 2
. "$root/scripts/program.sh"
program=$root/target/bin/rewrite
expected=$root/target/rewrite-expected.txt
printed=$root/target/rewrite.txt

end() {
    echo "rewrite: $2"
    exit "$1"
}

can_run "$program" || end 2 "$why"
for file in crates/rewrite/data/*.bin; do
    cmp -s "$file" "corpus/${file##*/}" || end 1 "$file is not the corpus's"
done

# A line that begins with the name of an archive is of that file; the others are services, other names and the totals.
cd "$root/corpus" || exit 2
wc -c -- *.bin | awk '
    FNR == NR { size[$2] = $1; next }
    $1 ~ /\.bin:$/ && substr($1, 1, length($1) - 1) in size {
        files++
        if ($2 == "refused") { refused++; print; next }
        name = substr($1, 1, length($1) - 1)
        print name ": same " size[name] " bytes"
    }
    END {
        print "files " files " same " files - refused " refused " refused + 0 " differ 0 unreadable 0"
    }' - "$root/crates/batch/stdout" >"$expected"
run "$program" *.bin >"$printed"
cmp -s "$printed" "$expected" ||
    end 1 "$(diff "$expected" "$printed" | grep -c '^[<>]') lines differ, target/rewrite-expected.txt and rewrite.txt"
end 0 "the corpus as expected, $(tail -n 1 "$printed")"
