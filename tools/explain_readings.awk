# Explains the refused lines of a station's readings, as the program `potential` answers them, to a person, beside tools/words.awk and
# tools/limits.awk; explain_readings of tools/explain.sh runs them. The lines `refused N at K` of the program's output come first, then the text's bytes.
#
# Each refused line has a line of its own here, up to the first MOST_SAID, so that a wrong file does not flood the terminal. The refusals are
# the program's, and no proof speaks of this file: it repeats the limits of README's section on a station's readings, to say which of them was passed.

BEGIN {
    MOST_SAID = 20
    ESTIMATE = 1; HUMIDITY = 4 # of a line's numbers, from 1
    named[1] = "Turc"; has_in_line[1] = 4
    named[2] = "Jensen-Haise"; has_in_line[2] = 3
    field("line", ESTIMATE, "the first number", 1, 2)
    field("line", 2, "the mean temperature", -600, 600, "tenths of a degree Celsius")
    field("line", 3, "the radiation", 0, 1000, "cal/cm2 a day")
    field("line", HUMIDITY, "the humidity", 0, 100, "percent")
}

/^refused / && ++refused <= MOST_SAID { refusal[refused] = $2; place[refused] = $4; asked[$4] = 1 }

END {
    end_word()
    if (bytes > LONGEST) explain_length()
    else for (k = 1; k <= refused && k <= MOST_SAID; k++) explain_line(refusal[k], place[k])
    if (refused > MOST_SAID) print plural(refused - MOST_SAID, "more line") (refused == MOST_SAID + 1 ? " is" : " are") " refused."
    say_marks()
}

# ---------------------------------------------------------------- what stands on a line that is asked about

# Up to its first word that cannot be read: how many numbers stand before that one is known, and so which number it would be.
function keep_number() {
    if (!(word_line in asked) || (word_line in bad)) return
    count[word_line]++
    given[word_line, count[word_line]] = value
    column_of[word_line, count[word_line]] = word_column
}

function keep_word() {
    if (!(word_line in asked) || ++bad[word_line] > 1) return
    bad_column[word_line] = word_column
    bad_why[word_line] = unread()
}

# ---------------------------------------------------------------- 11 and 13

function explain_length() {
    print "The text has more than " commas(LONGEST) " bytes, blanks counted: the first too many is at " past "."
    print "None of its lines is answered. Split it, by years or by stations: each line is answered by itself."
}

function explain_line(number, at,    estimate, fault) {
    estimate = given[at, ESTIMATE]
    if (number == 13) fault = outside_on(at, estimate)
    else if (at in bad) fault = bad_column[at] ": " bad_why[at] meant(at, estimate) others(bad[at])
    else if (!count[at]) fault = "1: no number stands on this line, and every line is a day: leave it out, or fill that day in."
    else if (!(estimate in named)) fault = column_of[at, ESTIMATE] ": " told(estimate, "line", ESTIMATE, which())
    else if (count[at] < has_in_line[estimate]) fault = too_few(at, estimate)
    else if (count[at] > has_in_line[estimate]) fault = too_many(at, estimate)
    if (fault == "") print "The refusal of line " at " does not belong to this text."
    else print "line " at ", column " fault
}

function which() { return "it may be 1 for " named[1] " or 2 for " named[2] }

# All readings of the line that are outside their limits.
function outside_on(at, estimate,    part, text) {
    for (part = ESTIMATE + 1; part <= has_in_line[estimate]; part++)
        if (outside(given[at, part], "line", part))
            text = text (text == "" ? "" : " Column ") column_of[at, part] ": " told(given[at, part], "line", part, "it may be " limits("line", part))
    return text
}

# What the line's first bad word would have been.
function meant(at, estimate,    part) {
    part = count[at] + 1
    if (part == ESTIMATE) return " It stands for the estimate: 1 for " named[1] " or 2 for " named[2] "."
    return part <= has_in_line[estimate] ? " It stands for " called["line", part] ": " limits("line", part) "." : ""
}

function others(words) { return words > 1 ? " " words " words of the line cannot be read; this is the first." : "" }

function too_few(at, estimate) {
    return column_of[at, count[at]] ": the line ends here with " plural(count[at], "number") "; " named[estimate] " has " has_in_line[estimate] \
        ", and the next would be " called["line", count[at] + 1] ": " limits("line", count[at] + 1) "."
}

function too_many(at, estimate,    part) {
    part = has_in_line[estimate] + 1
    return column_of[at, part] ": " given[at, part] " is too many: " named[estimate] " has " has_in_line[estimate] " numbers" \
        (part == HUMIDITY ? ", and no humidity" : "") "; the line has " count[at] "."
}
