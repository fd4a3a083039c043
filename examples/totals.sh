#!/bin/sh
# Adds up a run: totals.sh INPUT OUTPUT prints each total of the output's days as inches, twice: the mean of all cells of the input's grid,
# and that of its land, the cells whose cover is not open water.
#
# Precipitation is the same on every cell. Nothing is intercepted, evapotranspired, recharged, rejected or stored on open water, so the
# land has the whole of these. Of what is gone, what fell on open water is not the land's; the rest ran off the land, over the edge or into
# open water. So both columns are accounts: what was stored at the start and what fell is found again in the other lines.
#
# It fails, and prints no total, unless the output ends with `end N` after the lines of N days, and is the input's by its count of numbers,
# its serials and its precipitation.
set -eu
[ $# -eq 2 ] || { echo 'usage: examples/totals.sh INPUT OUTPUT' >&2; exit 2; }
for file; do
    [ ! -d "$file" ] || { echo "totals.sh: $file: is a folder" >&2; exit 1; }
done
awk '
function fail(why) { print "totals.sh: " why | "cat >&2"; close("cat >&2"); exit 1 }
function read_input(file,    got, i) {
    while ((got = (getline < file)) > 0) for (i = 1; i <= NF; i++) given[count++] = $i
    if (got < 0) fail(file ": cannot be read")
}
function read_output(file,    got, i) {
    while ((got = (getline < file)) > 0) {
        if (ended) fail(file ": goes on after its end")
        ended = $1 == "end" && NF == 2
        if (!ended && NF != 8) fail(file ": line " days + 1 " is no day: " $0)
        if (ended && $2 != days) fail(file ": ends with " $0 " after " days " days")
        for (i = 1; i <= 8 && !ended; i++) printed[days, i] = $i
        days += !ended
    }
    if (got < 0) fail(file ": cannot be read")
    if (!ended) fail(file ": its last line is not end and a number")
}
# The cells of land, by the mark for open water of their covers.
function find_land(    entry, i) {
    cells = given[0] * given[1]
    first_cell = 5 + 16 * given[4]
    first_day = first_cell + 4 * cells
    if (count != first_day + 7 * days) fail("the input has " count " numbers, and " days " days need " first_day + 7 * days)
    for (entry = 5; entry < first_cell; entry += 16) water[given[entry]] = given[entry + 1]
    for (i = first_cell; i < first_day; i += 4) land += !water[given[i + 1]]
}
function add_up(    day, i, at) {
    for (day = 0; day < days; day++) {
        at = first_day + 7 * day
        if (printed[day, 1] != given[at] || printed[day, 2] != given[at + 2] * cells) fail("the output is not that of this input: day " day + 1)
        for (i = 2; i <= 7; i++) sum[i] += printed[day, i]
        fell += given[at + 2] # on each cell
        stored = printed[day, 8]
    }
}
function inches(units, among) { return units == "" || among == 0 ? "-" : sprintf("%.2f", units / among / 10000) } # no days, no land
function say(name, all, of_land) { printf "%-18s %13s %14s\n", name, inches(all, cells), inches(of_land, land) }
BEGIN {
    count = days = land = 0
    read_input(ARGV[1])
    read_output(ARGV[2])
    find_land()
    add_up()
    split("- - intercepted evapotranspired recharged rejected", name, " ")
    printf "%-18s %13s %14s\n", "inches", "over the grid", "over the land"
    say("gross", sum[2] + 0, fell * land)
    for (i = 3; i <= 6; i++) say(name[i], sum[i] + 0, sum[i] + 0)
    say("gone", sum[7] + 0, sum[7] - fell * (cells - land))
    say("stored at the end", stored, stored)
    printf "%d days, %d cells, %d of them land\n", days, cells, land
    exit
}' "$1" "$2"
