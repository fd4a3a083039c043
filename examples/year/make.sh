#!/bin/sh
# Writes year.txt: 365 days over a valley of 32 by 24 cells, in the program's format.
#
# The ground is made, not surveyed: a stream winds down the middle from the top row to the bottom one, the sides rise from it, a pond
# lies across it half way. Each cell points to its steepest way down (document 000's figure 3 has the numbers); one that has none is a closed
# depression, on the bottom row it drains off the grid. Wetland and group D along the stream, then fields, grass with a village in it, and
# forest on the heights; water by group is document 004's (1.2, 2.0, 2.8 and 3.6 inches per foot). The months are months.txt, the covers
# covers.txt; the growing season is Madison's (document 000, table 6: days 133 to 268).
set -eu
cd "$(dirname "$0")"
awk '
function stream(r) { return 15 + (r % 12 < 6 ? r % 12 : 12 - r % 12) - 3 } # winds three columns either way
function off(r, c) { return c < stream(r) ? stream(r) - c : c - stream(r) }
function height(r, c) { return 40 * off(r, c) - 10 * r + (r * 5 + c * 3) % 7 } # a little rough
# The steepest way down; a diagonal step is longer, so its drop counts 707 thousandths.
function direction(r, c,    k, best, way, drop) {
    best = 0; way = r == 23 ? 4 : 0
    for (k = 1; k <= 8; k++) {
        if (r + down[k] < 0 || r + down[k] > 23 || c + right[k] < 0 || c + right[k] > 31) continue
        drop = (height(r, c) - height(r + down[k], c + right[k])) * (down[k] * right[k] == 0 ? 1000 : 707)
        if (drop > best) { best = drop; way = number[k] }
    }
    return way
}
function cover(r, c,    d) {
    d = off(r, c)
    if (r >= 11 && r <= 12 && d <= 1) return 5
    if (d <= 1) return 6
    if (d <= 5) return 2
    if (d <= 9) return r >= 4 && r <= 7 && c > stream(r) ? 12 : 3
    return (r + c) % 9 == 0 ? 8 : 4
}
function group(r, c,    d) {
    d = off(r, c)
    return d <= 1 ? 4 : d <= 3 ? 3 : d <= 9 ? 2 : (r + 2 * c) % 3 == 0 ? 1 : 2
}
BEGIN {
    split("1 2 4 8 16 32 64 128", number, " ")
    split("1 1 0 -1 -1 -1 0 1", right, " ")
    split("0 1 1 1 0 -1 -1 -1", down, " ")
    split("120 200 280 360", water, " ")
    wet = split("2 5 9 13 16 20 24 27", rainy, " ") # days of a month with precipitation, and their shares of 20
    split("1 3 2 6 1 4 2 1", share, " ")
    for (i = 1; i <= wet; i++) part[rainy[i]] = share[i]
}
/^#/ { next }
FILENAME == "covers.txt" { covers = covers $0 "\n"; entries++; next }
{ months++; days[months] = $1; fallen[months] = $2; mean[months] = $3; potential[months] = $4 }
END {
    print "32 24 133 268"
    printf "%d\n%s", entries, covers
    for (r = 0; r < 24; r++)
        for (c = 0; c < 32; c++) print direction(r, c), cover(r, c), group(r, c), water[group(r, c)]
    for (m = 1; m <= months; m++)
        for (d = 1; d <= days[m]; d++) {
            day++
            t = mean[m] + (day * 7 % 11 - 5) * 15 # warmer and colder days about the mean of the month
            print day, day, part[d] * fallen[m] / 20, t - 100, t, t + 100, potential[m]
        }
}' covers.txt months.txt
