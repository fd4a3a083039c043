# Holds an explanation by tools/explain.awk, or tools/explain_grid.awk, to its text and refusal:
#
#     LC_ALL=C awk -v number=N -v place=P -v text=TEXT -f bench/explained.awk EXPLANATION
#
# It has to name the refusal's place and a fault there, and no line or column of the text at which no word begins. Where it does not, what
# is wrong is printed, and the status is 1.

BEGIN { while ((getline row < text) > 0) row_of[++rows] = row }

{
    rest = $0
    while (match(rest, /[Ll]ine [0-9]+(, column [0-9]+)?/)) {
        check(substr(rest, RSTART, RLENGTH))
        rest = substr(rest, RSTART + RLENGTH)
    }
}
/does not belong/ { wrong("the explanation finds no fault") }
/^line [0-9]+, column [0-9]+: / { faults++ }
NR == 1 && (number == 4 || number == 10) && !index($0, "ell " place " (row ") { wrong("another cell") }
NR == 1 && number == 12 && place > 0 && !index($0, "ell " place " ") { wrong("another cell") }
NR == 2 && number == 5 && !index($0, "cell " place ", row ") { wrong("another ring") }
NR == 1 && number == 3 && !/number of covers/ && !index($0, "(entry " place ",") { wrong("another cover") }
NR == 2 && number == 11 && /^It is number/ && $4 != place + 1 { wrong("another word") }
NR == 1 && number == 11 && /^The text has [0-9]+ number/ && $4 != place { wrong("another count") }

END {
    if (!failed && NR < (number == 12 ? 1 : 2)) wrong("less is said than should be")
    if (!failed && !faults && number != 5 && number < 11) wrong("no fault")
    if (failed) exit 1
}

function wrong(why) {
    print why ": " $0
    failed = 1
    exit 1
}

# A place in words: line L, column C.
function check(words,    part) {
    split(words, part, /[ ,]+/)
    if (!(part[2] in row_of)) wrong("a line that the text does not have")
    if (part[3] == "column" && substr(" " row_of[part[2]], part[4], 2) !~ /^ [^ ]$/) wrong("a column at which no word begins")
}
