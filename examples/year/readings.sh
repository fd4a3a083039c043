#!/bin/sh
# Writes readings.txt: for each day of year.txt a line of the program `potential`, as a station beside the valley could have read it. A line is
# 1 for Turc's estimate, the mean in tenths of a degree Celsius, radiation in cal/cm2 a day, humidity in percent.
#
# Only the mean is the year's own, rounded to the nearest tenth of a degree Celsius; none lies half way between two. Radiation is a plain course of the
# year: a straight line from the 15th of each month in months.txt to that of the next, rounded down. So is humidity: 70, and 40 on the days of April and May
# on which nothing falls and that are warmer than their month, so that the dry air of spring has a say. Every step is of whole numbers.
set -eu
cd "$(dirname "$0")"
awk '
# A thousand degrees, taken away again, keep what is divided above zero, where int rounds down.
function celsius(fahrenheit) { return int((10 * (fahrenheit - 320) + 9 + 18 * 10000) / 18) - 10000 }
function radiation(month, date,    from, to, gone) { # date: of the month
    from = date >= 15 ? month : month > 1 ? month - 1 : 12
    to = from < 12 ? from + 1 : 1
    gone = date >= 15 ? date - 15 : days[from] - 15 + date # since the last 15th
    return int((sun[from] * (days[from] - gone) + sun[to] * gone) / days[from])
}
function humidity(month, fell, warmth) { return (month == 4 || month == 5) && !fell && warmth > mean[month] ? 40 : 70 }
BEGIN { month = 1 }
/^#/ { next }
FILENAME == "months.txt" { months++; days[months] = $1; mean[months] = $3; sun[months] = $5; next }
NF == 7 { # a day; no line of the setup has seven numbers
    if (++date > days[month]) { month++; date = 1 }
    print 1, celsius($5), radiation(month, date), humidity(month, $3, $5)
}' months.txt year.txt
