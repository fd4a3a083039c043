# Explains a refusal of the program `sheet` to a person, beside tools/words.awk, tools/limits.awk, tools/cells.awk and tools/explain.awk; explain_sheet of
# tools/explain.sh runs them, with the bytes of the folder's six files, each behind a line `file NAME`. Handed over as variables: number and place, those of
# `refused NUMBER at PLACE`; file, the name of the refused one; said, the line of it that the program named, or 0.
#
# The numbers of the six files are laid out as those of a text of `balance`, so that the functions of tools/explain.awk can say what is wrong: its END follows
# the one of this file, which comes first. A place in the refused file is said by line and column, in another one with its name.

BEGIN {
    TITLE = 12 # words before the cells of a grid
    count = 0
}

/^file / { begin_file($2) }

END {
    end_word()
    lay_numbers()
    if (number == 0) { explain_form(); exit }
    if (number == 11) { find_sizes(); explain_words(); exit }
    if (number == 7 || number == 8 || number == 10) days = day_said()
}

# ---------------------------------------------------------------- the words of each file

function begin_file(name) {
    end_word()
    here = name
    line = 1
    column = bytes = 0
    mark = ""
}

function keep_number() { if (!(here in bad_at_file)) keep(value) }

# After the first bad word of a file its others are counted only.
function keep_word() {
    if (words_of[here] < TITLE && here ~ /[.]asc$/) { keep(0); return }
    if (++bad_words[here] > 1) return
    bad_at_file[here] = place_of_word()
    bad_why_of[here] = unread()
}

function keep(number_or_name,    k) {
    k = words_of[here]++
    kept[here, k] = number_or_name
    kept_at[here, k] = (here == file ? "" : here ", ") place_of_word()
    kept_line[here, k] = word_line
}

# ---------------------------------------------------------------- as a text of balance has them

function lay(name, k) {
    given[count] = kept[name, k]
    at[count] = kept_at[name, k]
    count++
}

# No line of it is a line of one file, so that nothing is to be said of its lines: two of one number each are none of a text's.
function lay_numbers(    k, cell) {
    lay("direction.asc", 1)
    lay("direction.asc", 3)
    for (k = 0; k < words_of["covers.txt"]; k++) lay("covers.txt", k)
    for (cell = 0; cell < given[0] * given[1]; cell++) {
        lay("direction.asc", TITLE + cell)
        lay("cover.asc", TITLE + cell)
        lay("group.asc", TITLE + cell)
        lay("water.asc", TITLE + cell)
    }
    for (k = 0; k < words_of["weather.txt"]; k++) lay("weather.txt", k)
    lines = 2
    first_on[1] = first_on[2] = HEADER
    has_numbers[1] = has_numbers[2] = 1
}

# ---------------------------------------------------------------- which day

# The first at fault of the days that begin on the line.
function day_said(    day, first) {
    find_sizes()
    first = -1
    for (day = 0; DAY * day < words_of["weather.txt"]; day++) {
        if (kept_line["weather.txt", DAY * day] != said) continue
        if (first < 0) first = day
        if (is_at_fault(first_day + DAY * day, day)) return day
    }
    return first < 0 ? 0 : first
}

function is_at_fault(i, day,    part) {
    if (number == 8) return day > 0 && given[i] != given[i - DAY] + 1
    if (number == 10) return given[i + GROSS] > intercepted(place, i) && 3 * given[i + MEAN] - (given[i + MAXIMUM] - given[i + MINIMUM]) <= 3 * FREEZING
    for (part = SERIAL; part < DAY; part++) if (outside(given[i + part], "day", part)) return 1
    return given[i + MINIMUM] > given[i + MEAN] || given[i + MEAN] > given[i + MAXIMUM]
}

# ---------------------------------------------------------------- 11, and the form of the covers

function explain_words(    meant, whole) {
    meant = stands_for(file == "covers.txt" ? 2 + place : first_day + place)
    if (file in bad_at_file) {
        print bad_at_file[file] ": " bad_why_of[file]
        print "It is number " (place + 1) " of " file (meant == "" ? "" : ", " meant) "."
        if (bad_words[file] > 1) print bad_words[file] " words of " file " cannot be read; this is the first."
        return
    }
    whole = int(place / DAY)
    print file " has " plural(place, "number") " and ends at " kept_at[file, place - 1] ", within a day."
    print "A day has " DAY ": " plural(whole, "day") " would be " (DAY * whole) ", and " plural(whole + 1, "day") " " (DAY * (whole + 1)) "."
    print "The next would be " meant "."
    say_odd_day()
}

# The first line that does not have a day's numbers, where most have.
function say_odd_day(    k, on, rows, of_days, odd) {
    for (k = 0; k < words_of[file]; k++) on[kept_line[file, k]]++
    for (k = 1; k <= line; k++) {
        if (!(k in on)) continue
        rows++
        if (on[k] == DAY) of_days++
        else if (!odd) odd = k
    }
    if (2 * of_days >= rows && odd) print "Line " odd " has " plural(on[odd], "number") ", and a day has " DAY "."
}

function explain_form(    needed, has_words) {
    has_words = words_of[file] + bad_words[file]
    print "It begins with the first and last day of the growing season and the number of covers, 1 to " MOST_COVERS ", and has " COVER " numbers for each cover."
    if (file in bad_at_file) print bad_at_file[file] ": " bad_why_of[file]
    else if (has_words < 3) print file " has " plural(has_words, "number") "."
    else {
        needed = 3 + COVER * kept[file, 2]
        print kept_at[file, 2] ": the number of covers is " kept[file, 2] "; 3 + " COVER " x " kept[file, 2] " = " needed " numbers are needed, and " file " has " has_words "."
    }
}
