# Explains the refusal of an Arc ASCII grid by the program `setup` to a person, beside tools/words.awk, tools/limits.awk and tools/cells.awk;
# explain_grid of tools/explain.sh runs them. Handed over as a variable: place, that of `refused 12 at PLACE`.
#
# The refusal is the program's, and no proof speaks of this file: it goes by README's section on the mapping desk's grids, to say what is wrong,
# and where. Lines, columns and rows count from 1, cells from 0 as in the refusal.

BEGIN {
    MOST_CHARACTERS = 20 # of a corner or the cell size; as many of a word are shown
    NAMES = split("ncols nrows xllcorner yllcorner cellsize NODATA_value", named, " ")
    COLUMNS = 1; ROWS = 2; NO_DATA = 6 # of these
    meant[COLUMNS] = "the number of columns"
    meant[ROWS] = "the number of rows"
    meant[NO_DATA] = "a whole number that no cell has"
    words = bad = lines = 0
}

END {
    end_word()
    if (words < 2 * NAMES && fault == "") find_end_of_header()
    width = given[COLUMNS]; height = given[ROWS]
    count = words - 2 * NAMES
    # The order of the program's tests; all but a cell's are at 0.
    if (place != (fault == "" && is_grid() && bad ? bad_cell : 0)) say_no_fault()
    else if (fault != "") say_header()
    else if (!is_grid()) explain_size()
    else if (bad) explain_cell()
    else if (count != width * height) explain_count()
    else say_no_fault()
}

function say_no_fault() { print "This refusal does not belong to this grid." }

# ---------------------------------------------------------------- the words

function keep_number() { keep(1) }

function keep_word() { keep(0) }

# Past a fault of the header nobody knows which word is which.
function keep(is_number) {
    words++
    last_at = place_of_word()
    if (fault != "") return
    if (words > 2 * NAMES) keep_cell(is_number)
    else if (words % 2) keep_name((words + 1) / 2)
    else keep_value(words / 2, is_number)
}

function keep_name(k) {
    if (long > MOST_SHOWN || tolower(shown) != tolower(named[k])) find_fault(not_named(k))
}

function keep_value(k, is_number) {
    value_at[k] = last_at
    if (k > ROWS && k < NO_DATA) { if (!is_measure()) find_fault(no_measure(k)) }
    else if (is_number) given[k] = value
    else find_fault(unread() " It stands for " named[k] ", " meant[k] ".")
}

# A minus in front is allowed, and one point, with a digit on each side.
function is_measure() { return long <= MOST_CHARACTERS && shown ~ /^-?[0-9]+(\.[0-9]+)?$/ }

function keep_cell(is_number) {
    if (lines == 0 || line_of[lines] != word_line) line_of[++lines] = word_line
    has_cells[lines]++
    if (words - 2 * NAMES == given[COLUMNS] * given[ROWS] + 1) surplus_at = last_at
    if (is_number && value != given[NO_DATA]) return
    if (is_number) gaps++
    if (++bad > 1) return
    bad_cell = words - 2 * NAMES - 1
    bad_why = last_at ": " (is_number ? "the cell is " value ", which is the no-data number (" value_at[NO_DATA] ")." : unread())
    bad_is_gap = is_number
    find_cure()
}

# ---------------------------------------------------------------- the header

function find_fault(text) {
    fault = last_at ": " text
    find_cure()
}

function find_end_of_header() {
    if (words == 0) fault = "The grid is empty: it has " (bytes == 0 ? "no bytes." : "blanks, and no word.")
    else fault = "The grid ends at " last_at ", within its header; the next would be " (words % 2 ? "the value of " : "") named[int(words / 2) + 1] "."
    order_helps = 1
}

function not_named(k,    fault_of) {
    fault_of = marked()
    if (fault_of == "" && causes("comma tab strange return") != "") fault_of = "it has " causes("comma tab strange return")
    order_helps = fault_of == ""
    return quoted() " stands where the header has " named[k] (order_helps ? "." advice(k) : ": " fault_of ".")
}

# What mapping programs write in its place.
function advice(k,    word) {
    word = tolower(shown)
    if (word == "xllcenter" || word == "yllcenter") return " The corner is the centre of that cell less half a cell size."
    if (word == "dx" || word == "dy") return " A cell is as high as it is wide: export the grid with square cells."
    if (k == NO_DATA && word ~ /^-?[0-9.]+$/) return " Put that line in before it, with a number that no cell has: NODATA_value -9999."
    return ""
}

function no_measure(k,    text) {
    text = causes("comma tab plus letter sign strange return")
    if (text == "" && long > MOST_CHARACTERS) text = long " characters"
    return quoted() " cannot be taken as " named[k] (text == "" ? "." : ": it has " text ".") " A corner or a cell size has 1 to " MOST_CHARACTERS \
        " characters: digits, with a minus in front and a point between two digits allowed."
}

function say_header(    k, order) {
    print fault
    for (k = 1; k <= NAMES; k++) order = also(order, named[k])
    if (order_helps) print "A header has these, in this order, each with its number: " order "."
    say_cure()
}

function explain_size() {
    print value_at[COLUMNS] ": " named[COLUMNS] " is " width "; " value_at[ROWS] ": " named[ROWS] " is " height "."
    say_size()
}

# Tabs and carriage returns are no blanks here. Rows may break anywhere, so that a line feed can stand for each carriage return.
function find_cure() {
    if ("tab" in has) { cured = "\\t"; cure = " " }
    if ("return" in has) { cured = cured "\\r"; cure = cure "\\n" }
}

function say_cure() { if (cured != "") print "To put blanks in their place: tr '" cured "' '" cure "' < GRID > NEW." }

# ---------------------------------------------------------------- the cells

function size_by_header() { return "By its header the grid has " width " x " height " = " plural(width * height, "cell") }

function explain_cell() {
    if (bad_cell < width * height) print capital(cell_named(bad_cell)) " is refused:"
    else print size_by_header() "; behind the last of them cell " bad_cell " is refused:"
    print bad_why
    if (bad > 1) say_others()
    if (bad_is_gap) print "Every cell needs a number: fill the gaps, or cut the four grids down to a part without any. If it is no gap, change NODATA_value."
    say_cure()
}

function say_others(    text) {
    if (gaps) text = plural(gaps, "cell") (gaps == 1 ? " is" : " are") " the no-data number"
    if (bad > gaps) text = (gaps ? text ", and " (bad - gaps) : bad " words") " cannot be read"
    print text "; this is the first."
}

function explain_count(    gap) {
    gap = width * height - count
    if (count == 0) print size_by_header() ", and none stands behind it."
    else if (gap > 0) print size_by_header() ", and " count " stand behind it, up to " last_at ": " gap (gap == 1 ? " is" : " are") " missing."
    else print size_by_header() ", and " count " stand behind it: " (-gap) (gap == -1 ? " is" : " are") " too many, from " surplus_at " on."
    if (count > 0) say_rows()
}

# Where most lines are a row each: the first that is not, and how many are.
function say_rows(    k, rows, odd) {
    for (k = lines; k >= 1; k--)
        if (has_cells[k] == width) rows++
        else odd = k
    if (2 * rows < lines) return
    if (odd) print "Line " line_of[odd] " has " plural(has_cells[odd], "number") ", and a row has " width "."
    else print "No line stands out: whole rows are " (count < width * height ? "missing." : "too many.")
    print "Lines of " plural(width, "number") ": " rows ", for " plural(height, "row") "."
}
