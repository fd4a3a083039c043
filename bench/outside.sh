#!/bin/sh
# The library beside the outside tables. crates/figures/stdout has the library's figures (rt holds the program to it); bench/outside/ has the published
# ones. This checks that the plain C has the same figures as the library, and that the tables in docs/VECTORS.md are those that come out. The estimates
# from radiation are the plain C's alone; bench/compare.sh holds the library to those.
#
#     bench/outside.sh          checks; writes nothing outside bench/build/
#     bench/outside.sh write    writes crates/figures/stdout and the tables in docs/VECTORS.md
set -eu
cd "$(dirname "$0")/.."
mode=${1:-check}
. bench/tables.sh

plain outside
$made/outside > $made/figures.stdout
[ "$mode" != write ] || cp $made/figures.stdout crates/figures/stdout
cmp $made/figures.stdout crates/figures/stdout
ours=crates/figures/stdout

# Ours less theirs, with its sign; nothing where they print nothing.
signed='function signed(a, b) { return b == "" ? "" : a == b ? "0" : sprintf("%+d", a - b) }'

awk -F'[ ,]' "$signed"'
/^#/ { next }
FNR == NR { if ($1 == "curve") { i[$2] = $3; iii[$2] = $5 } next }
FNR != NR {
    if (!head++) print "| II | I: ours | 000 | | 002 | | III: ours | 000 | | 002 | |\n|---|---|---|---|---|---|---|---|---|---|---|"
    print "| " $1 " | " i[$1] " | " $2 " | " signed(i[$1], $2) " | " $4 " | " signed(i[$1], $4) " | " iii[$1] " | " $3 " | " signed(iii[$1], $3) " | " $5 " | " signed(iii[$1], $5) " |"
}' $ours bench/outside/curve_numbers.csv > $made/curves.md

# How many published numbers lie how far off.
awk -F'[ ,]' "$signed"'
/^#/ { next }
FNR == NR { if ($1 == "curve") { i[$2] = $3; iii[$2] = $5 } next }
{ seen["000, I", signed(i[$1], $2)]++; seen["000, III", signed(iii[$1], $3)]++
  if ($4 != "") { seen["002, I", signed(i[$1], $4)]++; seen["002, III", signed(iii[$1], $5)]++ } }
END {
    n = split("000, I;000, III;002, I;002, III", who, ";")
    print "| table, condition | -5 | -4 | -3 | -2 | -1 | the same | +1 | +2 |\n|---|---|---|---|---|---|---|---|---|"
    for (k = 1; k <= n; k++) {
        printf "| %s |", who[k]
        for (d = -5; d <= 2; d++) printf " %s |", seen[who[k], d == 0 ? "0" : sprintf("%+d", d)] + 0
        print ""
    }
}' $ours bench/outside/curve_numbers.csv > $made/spread.md

awk -F'[ ,]' '
/^#/ { next }
FNR == NR { if ($1 == "soil") { half[$2] = $3; once[$2] = $4; twice[$2] = $5 } next }
function row(t, soil, x,    fit, gap) {
    fit = a * exp(-b * x)
    gap = sprintf("%+.3f", soil / 10000 - fit)
    return sprintf(" %.3f | %.3f | %s |", soil / 10000, fit, gap + 0 == 0 ? "0" : gap)
}
{
    if (!head++) print "| capacity | C/2: ours | fit | gap | C: ours | fit | gap | 2C: ours | fit | gap |\n|---|---|---|---|---|---|---|---|---|---|"
    t = int($1 * 10 + 0.5); a = $2; b = $3
    printf "| %.1f |%s%s%s\n", $1, row(t, half[t], $1 / 2), row(t, once[t], $1), row(t, twice[t], 2 * $1)
}' $ours bench/outside/retention.csv > $made/retention.md

# The largest gaps by capacity: in inches, and as a share of the capacity.
awk -F'|' 'NR > 2 {
    c = $2 + 0; k = c <= 1 ? 1 : c <= 2 ? 2 : c <= 4 ? 3 : c <= 8 ? 4 : 5
    for (j = 5; j <= 11; j += 3) {
        gap = $j < 0 ? -$j : $j + 0
        if (gap > most[k, j]) most[k, j] = gap
        if (gap / c > share[k, j]) share[k, j] = gap / c
    }
}
END {
    split("0.5 to 1.0;1.1 to 2.0;2.1 to 4.0;4.1 to 8.0;8.1 to 17.2", name, ";")
    print "| capacity, inches | largest gap at C/2 | largest share of C | gap at C | share | gap at 2C | share |\n|---|---|---|---|---|---|---|"
    for (k = 1; k <= 5; k++) {
        printf "| %s |", name[k]
        for (j = 5; j <= 11; j += 3) printf " %.3f | %.1f %% |", most[k, j], 100 * share[k, j]
        print ""
    }
}' $made/retention.md > $made/gaps.md

awk -F'[ ,]' '
/^#/ { next }
FNR == NR { if ($1 == "snow") { snows[$2] = $3; store[$2] = $4; reached[$2] = $5 } next }
{
    if (!head++) print "| January 1993 | mean | max | min | inches | mean - span/3 | 003, 004 | ours | min + 2/3 span | 003, table 11 | snow after, ours | water, ours |\n|---|---|---|---|---|---|---|---|---|---|---|---|"
    span = $4 - $5; by4 = $2 - span / 3; by11 = $5 + span * 2 / 3
    printf "| %d | %s | %s | %s | %s | %.1f | %s | %s | %.1f | %s | %.4f | %.4f |\n", $1, $2, $4, $5, $3, by4, by4 <= 32 ? "snow" : "rain", snows[$1] ? "snow" : "rain", by11, by11 <= 32 ? "snow" : "rain", store[$1] / 10000, reached[$1] / 10000
}' $ours bench/outside/snow_days.csv > $made/snow.md

# The melt beside the millimetres and the inches that documents 003 and 004 print, in units.
awk '
$1 != "melt" { next }
{
    if (!head++) print "| maximum, °F | degrees Celsius above freezing | millimetres | 1.5 mm a degree, in units | ours | 0.059 inch a degree, in units | ours before M-100 |\n|---|---|---|---|---|---|---|"
    warm = $2 / 18
    printf "| %.1f | %.3f | %.3f | %.2f | %d | %.2f | %d |\n", 32 + $2 / 10, warm, 1.5 * warm, 1.5 * warm / 0.00254, $3, 590 * warm, 295 * $2 / 9
}' $ours > $made/melt.md

# The frost index beside document 003's equation 7 without snow, in thousandths, and what it makes of condition I.
awk '
$1 != "frost" { next }
{
    if (!head++) print "| day | mean, °F | ours | 003, equation 7 | gap | condition I counts as |\n|---|---|---|---|---|---|"
    mean = $2 <= 30 ? 140 : 410
    theirs = 0.97 * theirs - 1000 * (mean - 320) / 18
    if (theirs < 0) theirs = 0
    gap = sprintf("%+.1f", $3 - theirs)
    counts = $3 >= 83000 ? "III" : $3 >= 56000 ? "II" : "I"
    printf "| %d | %d | %d | %.1f | %s | %s |\n", $2, mean / 10, $3, theirs, gap + 0 == 0 ? "0" : gap, counts
}' $ours > $made/frost.md

# Turc and Jensen-Haise beside the constants of document 000's appendix B, in whole units, both rounded down. Its radiation is in MJ/m2: a calorie is
# 4.184 J, so a cal/cm2 is 0.04184 MJ/m2. Below freezing it has no potential evapotranspiration.
plain plain_potential plain_text
theirs='
function turc(t, sn, h) { return 0.313 / 25.4 * (t / (t + 15)) * (sn + 2.1) * (h < 50 ? 1 + (50 - h) / 70 : 1) }
function jensen_haise(t, sn) { return 0.41 / 25.4 * sn * (0.025 * t + 0.078) }
function units(kind, t, sn, h) { return t < 0 ? 0 : int(10000 * (kind == 1 ? turc(t, sn, h) : jensen_haise(t, sn))) }'

# Lines of the program potential, each with its answer: an estimate over means in degrees Celsius and over radiation in cal/cm2 a day.
estimated() { # KIND MEANS RADIATIONS [HUMIDITY]
    for mean in $2; do
        for radiation in $3; do echo "$1 $((10 * mean)) $radiation${4:+ $4}"; done
    done > $made/lines
    $made/plain_potential < $made/lines | paste -d ' ' $made/lines -
}

# A row for each mean; and in NAME.row, where document 000 is the most above ours and the most below, in units.
beside() { # NAME WORDS KIND MEANS [HUMIDITY]
    estimated "$3" "$4" '100 300 500 700' ${5:+"$5"} | awk -v name="$2" -v row="$made/$1.row" "$signed$theirs"'
    {
        t = $2 / 10; ours = $NF; other = units($1, t, 0.04184 * $3, $4)
        if (NR == 1) print "| mean, °C | R 100: ours | 000 | | R 300: ours | 000 | | R 500: ours | 000 | | R 700: ours | 000 | |\n|---|---|---|---|---|---|---|---|---|---|---|---|---|"
        if (NR % 4 == 1) printf "| %d |", t
        printf " %d | %d | %s |%s", ours, other, signed(ours, other), NR % 4 ? "" : "\n"
        if (other - ours > above) { above = other - ours; at_above = place(t, $3, ours) }
        if (ours - other > under) { under = ours - other; at_under = place(t, $3, ours) }
    }
    function place(t, r, ours) { return sprintf("%d °C, R %d, where ours is %d", t, r, ours) }
    END { printf("| %s | %d | %s | %s | %s |\n", name, above, at_above, under ? under : "nowhere", at_under) > row }' > "$made/$1.md"
}
means='0 5 10 15 20 25 30 35'
beside turc 'Turc, humidity 50 and more' 1 "$means" 50
beside turcdry 'Turc, humidity 30' 1 "$means" 30
beside jensenhaise Jensen-Haise 2 "-5 -2 $means"
{
    printf '| estimate | 000 above ours by at most | at | below ours by at most | at |\n|---|---|---|---|---|\n'
    cat $made/turc.row $made/turcdry.row $made/jensenhaise.row
} > $made/constants.md

# What comes out of 20 °C and 500 cal/cm2 where document 000's radiation is read as MJ/m2, and as the mm of water that these evaporate by its
# latent heat, 2.44722 MJ a kg.
{ estimated 1 20 500 50; estimated 2 20 500; } | awk "$theirs"'
BEGIN { mj = 0.04184 * 500; mm = mj / 2.44722; printf "| 20 °C, R 500 | ours | 000, Sn = %.2f MJ/m² | 000, Sn = %.2f mm |\n|---|---|---|---|\n", mj, mm }
{ print "| " ($1 == 1 ? "Turc, humidity 50" : "Jensen-Haise") " | " $NF " | " units($1, 20, mj, 50) " | " units($1, 20, mm, 50) " |" }' > $made/sunlight.md

awk -F'\t' '
{ split($4, w, " "); n = w[1] == "refused" ? w[2] : 0; count[n]++
  if (n && !((n, w[4]) in seen)) { seen[n, w[4]] = 1; places[n]++; list[n] = list[n] (places[n] > 12 ? "" : (places[n] > 1 ? ", " : "") w[4]) } }
END {
    print "| refusal | vectors | different places | the first of them |\n|---|---|---|---|"
    for (n = 1; n <= 11; n++) print "| " n " | " count[n] + 0 " | " places[n] + 0 " | " list[n] (places[n] > 12 ? ", .." : "") " |"
    print "| none (`end`) | " count[0] " | | |"
}' docs/vectors.txt > $made/refusals.md

tables docs/VECTORS.md "$mode" refusals spread curves gaps retention frost snow melt sunlight constants turc turcdry jensenhaise
echo 'the outside tables are as docs/VECTORS.md has them'
