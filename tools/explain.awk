# Explains a refusal of the program `balance`, or of `why`, to a person, beside tools/words.awk and tools/numbers.awk, which read the text,
# tools/limits.awk and tools/cells.awk; explain_text of tools/explain.sh runs them. Handed over as variables: number and place, those of the last line,
# `refused NUMBER at PLACE`; days, how many the program accepted before it; asked, the cell that `why` was asked about, or nothing.
#
# The refusal is the program's, and no proof speaks of this file: it repeats the limits of README's input table, to say which of them was
# passed, and where. Lines, columns, rows, and the ordinals of covers and days count from 1, cells from 0 as in the refusal.

BEGIN {
    MOST_COVERS = 64; MOST_CODE = 255; MOST_SNOW = 10000000; FREEZING = 320
    HEADER = 5; COVER = 16; CELL = 4; DAY = 7 # how many numbers each has
    CODE = 0; CURVE = 2; MOST_RECHARGE = 6; GROWING = 10; DORMANT = 11; ROOTS = 12 # of a cover's numbers, from 0
    DIRECTION = 0; CELL_COVER = 1; GROUP = 2; WATER = 3 # of a cell's
    SERIAL = 0; DAY_OF_YEAR = 1; GROSS = 2; MINIMUM = 3; MEAN = 4; MAXIMUM = 5; POTENTIAL = 6 # of a day's
    name_setup_fields()
    name_day_fields()
}

END {
    end_word()
    find_sizes()
    if (number == 11) explain_text()
    else if (!fits()) print "This refusal does not belong to this text."
    else if (number == 1) explain_grid()
    else if (number == 3) explain_covers()
    else if (number == 4 && place >= cells) explain_asked()
    else if (number == 4) explain_cell()
    else if (number == 5) explain_ring()
    else if (number == 6) explain_season()
    else if (number == 7) explain_day()
    else if (number == 8) explain_serial()
    else explain_snow()
}

# ---------------------------------------------------------------- the fields

function field_by_group(part, name, low, high, unit,    group) {
    for (group = 0; group < 4; group++)
        field("cover", part + group, name " of soil group " substr("ABCD", group + 1, 1), low, high, unit)
}

function name_setup_fields(    depth) {
    depth = "units of 0.0001 inch"
    field("header", 0, "the width of the grid", 1, MOST_CELLS)
    field("header", 1, "the height of the grid", 1, MOST_CELLS)
    field("header", 2, "the first day of the growing season", 1, 366)
    field("header", 3, "the last day of the growing season", 1, 366)
    field("header", 4, "the number of covers", 1, MOST_COVERS)
    field("cover", CODE, "the code", 1, MOST_CODE)
    field("cover", 1, "the mark for open water", 0, 1)
    field_by_group(CURVE, "the curve number", 30, 100)
    field_by_group(MOST_RECHARGE, "the most that recharges in a day", 0, 100000, depth)
    field("cover", GROWING, "the growing interception", 0, 10000, depth)
    field("cover", DORMANT, "the dormant interception", 0, 10000, depth)
    field_by_group(ROOTS, "the root depth", 0, 1000, "hundredths of a foot")
    field("cell", DIRECTION, "the direction", 0, NO_LIMIT)
    field("cell", CELL_COVER, "the cover code", 1, MOST_CODE)
    field("cell", GROUP, "the soil group", 1, 4)
    field("cell", WATER, "the available water", 0, 600, "hundredths of an inch per foot")
}

function name_day_fields(    depth, tenths) {
    depth = "units of 0.0001 inch"
    tenths = "tenths of a degree Fahrenheit"
    field("day", SERIAL, "the serial", 0, 9999999)
    field("day", DAY_OF_YEAR, "the day of year", 1, 366)
    field("day", GROSS, "the gross precipitation", 0, 400000, depth)
    field("day", MINIMUM, "the minimum temperature", -1000, 1500, tenths)
    field("day", MEAN, "the mean temperature", -1000, 1500, tenths)
    field("day", MAXIMUM, "the maximum temperature", -1000, 1500, tenths)
    field("day", POTENTIAL, "the potential evapotranspiration", 0, 20000, depth)
}

# ---------------------------------------------------------------- where a number stands

# The sizes that the first numbers tell, 0 where they do not: a text can be refused before they are tested.
function find_sizes() {
    width = given[0]; height = given[1]
    if (count >= 2 && is_grid()) cells = width * height
    if (count >= HEADER && given[4] >= 1 && given[4] <= MOST_COVERS) covers = given[4]
    first_cell = HEADER + COVER * covers
    first_day = first_cell + CELL * cells
}

# What number i of the text stands for, with its limits; nothing where the sizes do not tell.
function stands_for(i) {
    if (i < HEADER) return called["header", i] ": " limits("header", i)
    if (covers && i < first_cell) return part_of("cover", (i - HEADER) % COVER, cover_named(int((i - HEADER) / COVER)))
    if (!covers || !cells) return ""
    if (i < first_day) return part_of("cell", (i - first_cell) % CELL, cell_named(int((i - first_cell) / CELL)))
    return part_of("day", (i - first_day) % DAY, day_named(int((i - first_day) / DAY)))
}

function part_of(block, part, whole) { return called[block, part] " of " whole ": " limits(block, part) }

function cover_named(entry,    i) {
    i = HEADER + COVER * entry + CODE
    return "the " ordinal(entry + 1) " of " plural(covers, "cover") (i < count ? ", code " given[i] : "")
}

function day_named(day) {
    return "the " ordinal(day + 1) " day" (day > 0 ? ", the one after serial " given[first_day + DAY * (day - 1) + SERIAL] : "")
}

function ordinal(n) {
    if (n % 100 >= 11 && n % 100 <= 13) return n "th"
    return n (n % 10 == 1 ? "st" : n % 10 == 2 ? "nd" : n % 10 == 3 ? "rd" : "th")
}

# ---------------------------------------------------------------- what is outside

function say_value(i, block, part, wanted) { print at[i] ": " told(given[i], block, part, wanted) }

# Says which of a block's numbers, from its number `part` on, are outside their limits; number i of the text is the block's first.
function say_outside(i, block, part, size) {
    for (; part < size; part++) if (outside(given[i + part], block, part)) say_value(i + part, block, part, "it may be " limits(block, part))
}

# What may lie behind it: a mark such as -9999, or numbers that stand in other fields than they were meant for.
function say_causes() {
    say_marks()
    if (laid_out() && (rows_of(COVER) != covers || rows_of(CELL) != cells)) {
        say_odd_line()
        say_rows()
    }
}

# Whether the refusal can be one of this text.
function fits() {
    if (number == 1) return count >= 2
    if (number == 3 && !covers) return count >= HEADER
    if (!covers || !cells || count < first_day) return 0
    if (number == 3) return place < covers
    if (number == 6) return 1
    if (number == 4 && asked != "" && place == asked) return 1
    if (number == 4 || number == 5) return place < cells
    if (days >= int((count - first_day) / DAY)) return 0
    return number == 7 || (number == 8 && days > 0) || (number == 10 && place < cells)
}

# ---------------------------------------------------------------- 11: the text itself

function explain_text() {
    if (bytes > LONGEST) explain_length()
    else if (bad) explain_word()
    else if (count < HEADER) explain_header()
    else explain_end()
}

function explain_length() {
    print "The text has more than " commas(LONGEST) " bytes, blanks counted: the first too many is at " past "."
    print "Split the area along its divides, or the years; each run starts with full soils, no snow and no frost."
}

function explain_word(    meant) {
    print bad_at ": " bad_why
    meant = stands_for(count)
    print "It is number " (count + 1) " of the text" (meant == "" ? "" : ", " meant) "."
    if (bad > 1) print bad " words of the text cannot be read; this is the first."
}

function explain_header() {
    if (count == 0) print "The text is empty: it has " (bytes == 0 ? "no bytes." : "blanks, and no number.")
    else print "The text has " plural(count, "number") " and ends at " at[count - 1] "; the next would be " stands_for(count) "."
    print "It begins with the width and height of the grid, the first and last day of the growing season and the number of covers."
}

function explain_end(    asked, days_in) {
    asked = "By its first five numbers it needs " HEADER " + " COVER " x " plural(covers, "cover") " + " CELL " x " plural(cells, "cell") " = " first_day
    days_in = int((count - first_day) / DAY)
    if (count < first_day) {
        print "The text has " count " numbers and ends at " at[count - 1] "."
        print asked " before the first day: " (first_day - count) " are missing."
        print "The next would be " stands_for(count) "."
    } else {
        print "The text has " count " numbers and ends at " at[count - 1] ", within a day."
        print asked " before the first day; " with_days(days_in) " and " with_days(days_in + 1) "."
    }
    if (!say_count_left_out() && !say_odd_line()) print "No line stands out: a whole line may be missing, or one too many."
    if (laid_out()) say_rows()
}

function with_days(n) { return first_day " + " DAY " x " plural(n, "day") " = " (first_day + DAY * n) }

# ---------------------------------------------------------------- the lines of a text

# The first of the lines that begin after the first five numbers.
function first_line(    k) {
    for (k = 1; k <= lines; k++) if (first_on[k] >= HEADER) return k
    return lines + 1
}

# Lines of so many numbers. One that begins among the first five can only be a cover, which has taken the place of a number left out.
function rows_of(size,    k, rows) {
    rows = 0
    for (k = 1; k <= lines; k++) rows += has_numbers[k] == size && (first_on[k] >= HEADER || size == COVER)
    return rows
}

# Is the text laid out with a cover, a cell or a day on a line? A text may be laid out otherwise: line breaks are free.
function laid_out(    of_covers, of_cells) {
    of_covers = rows_of(COVER); of_cells = rows_of(CELL)
    return (of_covers > 0 || covers == 1) && (of_cells > 0 || cells == 1) && 2 * (of_covers + of_cells + rows_of(DAY)) >= lines + 1 - first_line()
}

function say_rows() {
    print "Lines of " COVER " numbers: " rows_of(COVER) ", for " plural(covers, "cover") "; of " CELL ": " rows_of(CELL) ", for " \
        plural(cells, "cell") "; of " DAY ", a day each: " rows_of(DAY) "."
}

# Where the number of covers was read on a line that is itself a cover, one of the numbers before it was left out.
function say_count_left_out(    k) {
    for (k = 1; k < lines && first_on[k + 1] <= HEADER - 1; k++) continue
    if (has_numbers[k] < COVER - 1 || has_numbers[k] > COVER + 1) return 0
    print "The number of covers, " given[HEADER - 1] ", was read at " at[HEADER - 1] ", on a line of " plural(has_numbers[k], "number") \
        ", like a cover's: one of the numbers before it was left out."
    return 1
}

# Says the first line that does not have as many numbers as the lines around it; 0 where there is none.
function say_odd_line() { return laid_out() ? say_odd_record() : say_odd_neighbour() }

# Covers, then cells, then days, one a line: the first line that is none of them, or one of an earlier kind, or that stands alone among the
# others. Two lines may be one of them, broken.
function say_odd_record(    k, size, here) {
    size = COVER
    for (k = first_line(); k <= lines; k++) {
        here = has_numbers[k]
        if (here == size) continue
        if (!is_size(here) && !is_size(has_numbers[k + 1]) && here + has_numbers[k + 1] == size) { k++; continue }
        if (is_size(here) && here != COVER && size != DAY && has_numbers[k + 1] != size) { size = here; continue }
        if (is_size(here)) print "Line " line_of[k] " has " here " numbers where the line before it has " has_numbers[k - 1] "."
        else print "Line " line_of[k] " has " plural(here, "number") ": a cover has " COVER ", a cell " CELL ", a day " DAY "."
        return 1
    }
    return 0
}

function is_size(n) { return n == COVER || n == CELL || n == DAY }

# Otherwise laid out: the first line that differs from the one before it, if one of the next three has as many again, or from the two
# before it, if it is the last.
function say_odd_neighbour(    k, first, here, before) {
    first = first_line()
    for (k = first + 1; k <= lines; k++) {
        here = has_numbers[k]; before = has_numbers[k - 1]
        if (here == before || !(again(k, before) || (k == lines && k > first + 1 && before == has_numbers[k - 2]))) continue
        print "Line " line_of[k] " has " plural(here, "number") " where the " (k == lines ? "lines before it" : "lines around it") " have " before "."
        return 1
    }
    return 0
}

function again(k, size,    later) {
    for (later = k + 1; later <= k + 3 && later <= lines; later++) if (has_numbers[later] == size) return 1
    return 0
}

# ---------------------------------------------------------------- 1 to 6: the setup

function explain_grid() {
    print at[0] ": " called["header", 0] " is " width "; " at[1] ": " called["header", 1] " is " height "."
    say_size()
}

function explain_covers(    i) {
    if (!covers) {
        say_value(4, "header", 4, "it may be " limits("header", 4))
        if (!say_count_left_out()) print "It stands before the cover table, which has " COVER " numbers for each."
        return
    }
    i = HEADER + COVER * place
    print capital(cover_named(place)) " (entry " place ", counted from 0), is refused:"
    if (place > 0 && !outside(given[i], "cover", CODE) && given[i] <= given[i - COVER])
        say_value(i, "cover", CODE, "codes must rise, and that of the cover before it is " given[i - COVER])
    say_outside(i, "cover", CODE, COVER)
    say_causes()
}

function explain_cell(    i, entry, codes, known) {
    i = first_cell + CELL * place
    for (entry = HEADER; entry < first_cell; entry += COVER) {
        codes = codes " " given[entry + CODE]
        if (given[entry + CODE] == given[i + CELL_COVER]) known = 1
    }
    print capital(cell_named(place)) " is refused:"
    say_outside(i, "cell", DIRECTION, CELL_COVER)
    if (!known) say_value(i + CELL_COVER, "cell", CELL_COVER, "the codes of the cover table are" codes)
    say_outside(i, "cell", GROUP, CELL)
    say_causes()
}

# The cell asked about, where it is outside the grid.
function explain_asked() {
    print "There is no cell " place ": the grid is " width " x " height ", and its " plural(cells, "cell") \
        (cells == 1 ? " is numbered 0." : " are numbered from 0 to " (cells - 1) ", row by row from the top left.")
}

function name_ways() {
    split("1 2 4 8 16 32 64 128", direction, " ")
    split("1 1 0 -1 -1 -1 0 1", right, " ")
    split("0 1 1 1 0 -1 -1 -1", down, " ")
    split("right,lower right,down,lower left,left,upper left,up,upper right", way_named, ",")
}

# The cell that a cell leads to, -1 for none, and the way there in words. A cell on a ring is no open water, which would lead nowhere.
function leads_to(cell,    k, r, c) {
    for (k = 1; k <= 8 && given[first_cell + CELL * cell + DIRECTION] != direction[k]; k++) continue
    if (k > 8) return -1
    way = way_named[k]
    r = int(cell / width) + down[k]
    c = cell % width + right[k]
    return r < 0 || r >= height || c < 0 || c >= width ? -1 : r * width + c
}

function explain_ring(    here, there, steps, i) {
    name_ways()
    there = place
    do { there = leads_to(there); steps++ } while (there >= 0 && there != place && steps < cells)
    print "The directions lead round in a ring of " plural(steps, "cell") ". In order, rows from the top and columns from the left:"
    for (here = place; here >= 0 && steps > 0; steps--) {
        there = leads_to(here)
        i = first_cell + CELL * here + DIRECTION
        print "cell " here ", row " row(here) ", column " col(here) " (" at[i] "): direction " given[i] ", " way ", to cell " there "."
        here = there
    }
    print "Fill the pit in the elevation model, or make one of them a closed depression (direction 0) or open water."
}

function explain_season() {
    print at[2] ": " called["header", 2] " is " given[2] "; " at[3] ": " called["header", 3] " is " given[3] "."
    print "Each may be " limits("header", 2) ", the first not after the last: a season lies within one year."
}

# ---------------------------------------------------------------- 7, 8 and 10: a day

# Says that a temperature is above the one that it may not pass, where each by itself is inside its limits.
function say_fall(i, lower, higher) {
    if (outside(given[i + lower], "day", lower) || outside(given[i + higher], "day", higher) || given[i + lower] <= given[i + higher]) return
    say_value(i + lower, "day", lower, called["day", higher] " is " given[i + higher] " (" at[i + higher] "), and may not be below it")
}

function explain_day(    i) {
    i = first_day + DAY * days
    print capital(day_named(days)) (days > 0 ? "," : "") " is refused:"
    say_outside(i, "day", SERIAL, DAY)
    say_fall(i, MINIMUM, MEAN)
    say_fall(i, MEAN, MAXIMUM)
    say_causes()
}

function explain_serial(    i, before, here) {
    i = first_day + DAY * days + SERIAL
    before = given[i - DAY]; here = given[i]
    print at[i] ": the serial of the " ordinal(days + 1) " day is " here "; it should be " (before + 1) ", one more than the day before it."
    if (here == before + 2) print "Serial " (before + 1) " is missing: fill that day in."
    else if (here > before) print "Serials " (before + 1) " to " (here - 1) " are missing: fill those days in."
    else print "Look for a day given twice, for days out of order, or for serials that start anew with the year."
    say_causes()
}

# What the cell's cover holds back of the day's precipitation.
function intercepted(cell, i,    entry, growing, held) {
    for (entry = HEADER; entry < first_cell && given[entry + CODE] != given[first_cell + CELL * cell + CELL_COVER]; entry += COVER) continue
    growing = given[i + DAY_OF_YEAR] >= given[2] && given[i + DAY_OF_YEAR] <= given[3]
    held = given[entry + (growing ? GROWING : DORMANT)]
    return held < given[i + GROSS] ? held : given[i + GROSS]
}

function explain_snow(    i, k, snows, thaws, held) {
    i = first_day + DAY * days
    for (k = first_day; k < i; k += DAY) {
        snows += given[k + GROSS] > 0 && 3 * given[k + MEAN] - (given[k + MAXIMUM] - given[k + MINIMUM]) <= 3 * FREEZING
        thaws += given[k + MAXIMUM] > FREEZING
    }
    held = intercepted(place, i)
    print "On " cell_named(place) " the snow would pass " commas(MOST_SNOW) " units, 1,000 inches of water."
    print "That is on " day_named(days) ": " (given[i + GROSS] - held) " units fall there as snow, and " held " are intercepted."
    print at[i + GROSS] ": the gross precipitation is " given[i + GROSS] ", which is " sprintf("%.4f", given[i + GROSS] / 10000) " inches."
    print "Of the " plural(days, "day") " before it " (snows + 0) " had snow and " (thaws + 0) " a thaw, a maximum above " FREEZING "."
    print "Look at the temperatures, in tenths of a degree Fahrenheit: a thaw is missing."
}
