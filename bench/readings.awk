# Writes random texts of the program `potential`, the same each time:
#
#     LC_ALL=C awk -v texts=COUNT -v seed=SEED -v folder=FOLDER -f bench/readings.awk
#
# FOLDER/1.txt and so on have up to 30 lines. A third of them is in order; in a third every other line has a reading outside its limits or another
# form; a third is in order but for a byte that is changed or the end that is cut off.

BEGIN {
    estimates = split("0 3 -1 12 211 999999999", other_estimate, " ")
    outsides = split("-601 601 -1 1001 101 -9999 -999999999 999999999", outside, " ")
    words = split("0.5;1,5;007;-0;-;+5;5x;NA;1234567890;1\t2;7\r", unreadable, ";")
    for (text = 1; text <= texts; text++) write(folder "/" text ".txt", text % 3)
}

# A whole number from 0 to n - 1.
function below(n) {
    seed = (seed * 3877 + 29573) % 139968
    return int(n * seed / 139968)
}

function write(file, way,    lines, text) {
    for (lines = 1 + below(30); lines > 0; lines--) text = text laid_out(way == 1 && below(2) ? bad_line() : good_line()) "\n"
    if (way == 2) text = below(2) ? changed(text, 1 + below(length(text))) : substr(text, 1, below(length(text)))
    else if (below(4) == 0) text = substr(text, 1, length(text) - 1) # no line feed ends it
    printf "%s", text > file
    close(file)
}

function good_line() { return below(2) ? "1 " mean() " " radiation() " " humidity() : "2 " mean() " " radiation() }

# Near freezing as often as anywhere, and the limits themselves.
function mean() { return below(4) ? below(1201) - 600 : below(2) ? below(81) - 40 : below(2) ? 600 : -600 }
function radiation() { return below(5) ? below(1001) : below(2) ? 1000 : 0 }
function humidity() { return below(3) ? below(101) : 49 + below(3) }

function bad_line(    way) {
    way = below(8)
    if (way == 0) return ""
    if (way == 1) return substr("     ", 1, 1 + below(5))
    if (way == 2) return with_word(good_line(), 1, other_estimate[1 + below(estimates)])
    if (way <= 4) return with_word(good_line(), 2 + below(3), outside[1 + below(outsides)])
    if (way == 5) return with_word(good_line(), 1 + below(4), "")
    if (way == 6) return good_line() " " below(101)
    return with_word(good_line(), 1 + below(4), unreadable[1 + below(words)])
}

# The line with another word in that place; past its end, one more.
function with_word(line, place, put,    word, count, k, text) {
    count = split(line, word, " ")
    if (place > count) place = ++count
    word[place] = put
    for (k = 1; k <= count; k++) if (word[k] != "") text = text (text == "" ? "" : " ") word[k]
    return text
}

# Blanks in front, behind and between do not matter.
function laid_out(line) {
    if (below(10) == 0) line = "  " line
    if (below(10) == 0) line = line " "
    if (below(10) == 0) sub(/ /, "   ", line)
    return line
}

# No byte 0, which not every awk can write.
function changed(text, n) { return substr(text, 1, n - 1) sprintf("%c", 1 + below(255)) substr(text, n + 1) }
