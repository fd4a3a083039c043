# shellcheck shell=sh disable=SC2154
# What a refusal means, for `run` and for what tries it. They source this, with the project's folder as $root. An AWK may be two words, as busybox's is.

# Explains the refusal of a text of balance or why, which is standard input.
explain_text() { # AWK NUMBER PLACE DAYS CELL
    # shellcheck disable=SC2086
    od -An -v -tu1 |
        LC_ALL=C $1 -v number="$2" -v place="$3" -v days="$4" -v asked="$5" -f "$root/tools/words.awk" -f "$root/tools/limits.awk" \
            -f "$root/tools/cells.awk" -f "$root/tools/numbers.awk" -f "$root/tools/explain.awk"
}

# Explains the refused lines of a station's readings, which are standard input: the file ANSWERS is what potential printed.
explain_readings() { # AWK ANSWERS
    # shellcheck disable=SC2086
    { sed -n '/^refused /p' "$2" && od -An -v -tu1; } |
        LC_ALL=C $1 -f "$root/tools/words.awk" -f "$root/tools/limits.awk" -f "$root/tools/explain_readings.awk"
}

# Explains the refusal of a grid by setup, which is standard input.
explain_grid() { # AWK PLACE
    # shellcheck disable=SC2086
    od -An -v -tu1 |
        LC_ALL=C $1 -v place="$2" -f "$root/tools/words.awk" -f "$root/tools/limits.awk" -f "$root/tools/cells.awk" -f "$root/tools/explain_grid.awk"
}

# Explains the refusal of a file by sheet. FOLDER ends in a slash; LINE is the line of FILE that the program named, or 0; a NUMBER of 0 stands for the form of the
# covers, which has none.
explain_sheet() { # AWK FOLDER FILE NUMBER PLACE LINE
    # shellcheck disable=SC2086
    for each in direction.asc cover.asc group.asc water.asc covers.txt weather.txt; do
        echo "file $each"
        [ ! -f "$2$each" ] || od -An -v -tu1 < "$2$each"
    done |
        LC_ALL=C $1 -v file="$3" -v number="$4" -v place="$5" -v said="$6" -f "$root/tools/words.awk" -f "$root/tools/limits.awk" -f "$root/tools/cells.awk" \
            -f "$root/tools/explain_sheet.awk" -f "$root/tools/explain.awk"
}
