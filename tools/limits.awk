# Numbers with a name and limits, and how they are said, for the scripts that explain refusals. No proof speaks of the limits that those
# scripts set here: they repeat README's, to say which of them was passed.

BEGIN { NO_LIMIT = 999999999 }

# Number `part` of a block, such as a cell or a day.
function field(block, part, name, low, high, unit) {
    called[block, part] = name
    least[block, part] = low
    most[block, part] = high
    measured[block, part] = unit
}

function limits(block, part,    low, high, unit) {
    low = least[block, part]; high = most[block, part]; unit = measured[block, part]
    if (high == NO_LIMIT) return low " or more"
    return commas(low) (high == low + 1 ? " or " : " to ") commas(high) (unit == "" ? "" : ", in " unit)
}

function outside(number, block, part) { return number < least[block, part] || number > most[block, part] }

# What a number is and what is wanted of it, with an eye on marks such as -9999.
function told(number, block, part, wanted) {
    if (number ~ /^-99+$/) marks++
    return called[block, part] " is " number "; " wanted "."
}

function say_marks() { if (marks) print "There is no mark for a missing value: every number counts as it stands." }

function commas(n,    text, end) {
    text = (n < 0 ? -n : n) ""
    while (length(text) > 3) {
        end = "," substr(text, length(text) - 2) end
        text = substr(text, 1, length(text) - 3)
    }
    return (n < 0 ? "-" : "") text end
}

function plural(n, word) { return n " " word (n == 1 ? "" : "s") }
