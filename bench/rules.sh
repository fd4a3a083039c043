#!/bin/sh
# docs/RULES.md, held to what it speaks of: the tables between its marks are the plain C's, every name in it stands in the file that is
# named beside it, and every sum in it comes out.
#
#     bench/rules.sh          checks; writes nothing outside bench/build/
#     bench/rules.sh write    writes the tables
set -eu
cd "$(dirname "$0")/.."
. bench/tables.sh
rules=docs/RULES.md

plain rules
for table in figures worked runs; do $made/rules $table > $made/$table.md; done
tables $rules "${1:-check}" figures worked runs

# Names: `a`, `b` in `File`, where File is one of the files below; what is public there can be named. A line of definitions has no others.
form='`[^` ]*`\(, `[^` ]*`\)* in `[A-Z][A-Za-z0-9]*`'
tr -s '\n ' ' ' < $rules | grep -o "$form" | tr -d '`,' > $made/rules.names
if grep '^Defined: ' $rules | sed "s/$form//g" | grep '`'; then exit 1; fi
awk '
FILENAME ~ /[.]antt$/ {
    n = split(FILENAME, part, "/"); file = substr(part[n], 1, length(part[n]) - 5)
    for (i = 1; i < NF; i++) if ($i == "pub") public[file, $(i + 1) ~ /^(record|data)$/ ? $(i + 2) : $(i + 1)]
    next
}
{ for (i = 1; i < NF - 1; i++) { named++; if (!(($NF, $i) in public)) { print "no " $i " in " $NF; bad = 1 } } }
END { print named + 0 " names stand where the rules have them"; exit bad || !named }' \
    crates/paper/specs/*.antt crates/paper/proofs/*.antt crates/theory/specs/Ways.antt crates/text/specs/Program.antt \
    crates/grids/specs/*.antt crates/grids/proofs/RoundLaws.antt $made/rules.names

# Sums: `sum = number` in a line, and in a block every line, after words and a colon. A number with a point is rounded to the digits that
# it has. The sums are made into a program, so that a line that is no sum fails too.
{
    cat << 'END'
function floor(x,    n) { n = int(x); return n > x ? n - 1 : n }
function sum(found, said, line,    digits, gap) {
    digits = index(said, ".") ? length(said) - index(said, ".") : 0
    gap = found > said + 0 ? found - said : said - found
    if (said !~ /^-?[0-9]+([.][0-9]+)?$/ || gap > (digits ? 0.5000001 * 10 ^ -digits : 0.000001)) { print "not so: " line; bad = 1 }
    sums++
}
BEGIN {
END
    awk '
    function tried(line,    sum, at) {
        sum = line; gsub(/,/, "", sum); gsub(/×/, "*", sum); gsub(/²/, "^2", sum); at = index(sum, " = ")
        print "    sum(" substr(sum, 1, at - 1) ", \"" substr(sum, at + 3) "\", \"" line "\")"
    }
    /^```/ { inside = !inside; next }
    inside { sub(/^[^:]*: /, ""); tried($0); next }
    { n = split($0, span, "`"); for (i = 2; i <= n; i += 2) if (span[i] ~ / = -?[0-9]/) tried(span[i]) }' $rules
    echo '    print sums + 0 " sums come out"; exit bad || !sums }'
} > $made/rules.awk
awk -f $made/rules.awk
