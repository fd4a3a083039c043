#!/bin/sh
# The tables of examples/README.md, from the figures that the plain C has for every cell. Those on frozen ground have the year twice:
# once as if the ground never froze, with setpoints that no index of that year reaches, and once with the program's own. Those on the year by
# radiation come of the commands that the page has a person type.
#
#     bench/examples.sh          checks; writes nothing outside bench/build/
#     bench/examples.sh write    writes the tables
set -eu
cd "$(dirname "$0")/.."
. bench/tables.sh

plain plain_cells
$made/plain_cells 56000 83000 < examples/ridge.txt > $made/ridge.cells
$made/plain_cells 2000000 2000000 < examples/year/year.txt > $made/never.cells
$made/plain_cells 56000 83000 < examples/year/year.txt > $made/frozen.cells

# The ridge and the valley on the days of rain: three cells in a row, each draining to the next, the last a closed depression. What does
# not run off sinks in; all but the last hand on what runs off and what they reject.
awk '
BEGIN { split("ridge slope valley", name, " "); print "| day | cell | rain | flows in | water | runs off | sinks in | evapotranspired | fills the soil | recharged | rejected | outflow |\n|---|---|---|---|---|---|---|---|---|---|---|---|" }
$1 == "day" { serial = $2; gross = $4 / 3; out = 0 }
$1 == "cell" {
    inflow = out; out = $4; rain = gross - $3; off = $2 < 2 ? out - $7 : 0
    if (gross > 0) print "| " serial " | " name[$2 + 1] " | " rain " | " inflow " | " rain + inflow " | " off " | " rain + inflow - off " | " $5 " | " $8 - soil[$2] " | " $6 " | " $7 " | " out " |"
    soil[$2] = $8
}' $made/ridge.cells > $made/ridge.md

# What the two tables of the year read of the text and of the two runs: by serial, and of each cell on the day SHOWN.
# shellcheck disable=SC2016
read_year='
FILENAME ~ /year.txt$/ && FNR == 1 { wide = $1; high = $2; first = $3; last = $4 }
FILENAME ~ /year.txt$/ && NF == 16 { water[$1] = $2; for (k = 1; k <= 4; k++) curve[$1, k] = $(2 + k) }
FILENAME ~ /year.txt$/ && FNR > 1 && NF == 4 { way[cells] = $1; cover[cells] = $2; group[cells] = $3; cells++ }
FILENAME ~ /year.txt$/ && NF == 7 { days++; day[$1] = $2; gross[$1] = $3; snows[$1] = 3 * $5 - ($6 - $4) <= 960 }
FILENAME !~ /year.txt$/ && FNR == 1 { run++ } # 1 never frozen, 2 frozen
$1 == "day" { serial = $2; index_of[serial] = $3; total[run, serial, 1] = $7; total[run, serial, 2] = $9 } # recharged, gone
$1 == "cell" && $2 == 0 && run == 2 { lies[serial] = $9 }
$1 == "cell" && serial == shown { runoff[run, $2] = $4 - $7; recharged[run, $2] = $6; rejected[run, $2] = $7 } # no cell of the year is a closed depression
function by_rain(s,    sum, k, growing) { # rule 5
    for (k = s - 5; k < s; k++) sum += gross[k]
    growing = day[s] >= first && day[s] <= last
    return sum < (growing ? 14000 : 5000) ? 1 : sum > (growing ? 21000 : 11000) ? 3 : 2
}
function counts_as(s,    c) { # M-106
    c = by_rain(s)
    return index_of[s] >= 83000 ? 3 : index_of[s] >= 56000 && c == 1 ? 2 : c
}
function number(n, condition) {
    if (condition == 1) return int(100000 * n / (228100 - 1281 * n) + 0.5)
    return condition == 3 ? int(100000 * n / (42700 + 573 * n) + 0.5) : n
}
BEGIN { cells = 0; split("I II III", condition, " "); split("A B C D", letter, " ") }'

# The days of March on which the two runs differ, and all days together; the snow is that of cell 0, which no cover holds back in March.
awk -v shown=0 "$read_year"'
function differ(s,    k, n) { for (k = 1; k <= 2; k++) n += total[1, s, k] != total[2, s, k]; return n }
function pairs(s,    k, row) { for (k = 1; k <= 2; k++) row = row " " total[1, s, k] " | " total[2, s, k] " |"; return row }
END {
    print "| day | falls as snow | melts | frost index | condition by the rain | counts as | recharged, never frozen | frozen | gone, never frozen | frozen |\n|---|---|---|---|---|---|---|---|---|---|"
    for (s = 1; s <= days; s++) {
        for (k = 1; k <= 2; k++) { total[1, "all", k] += total[1, s, k]; total[2, "all", k] += total[2, s, k] }
        if (s < 60 || s > 90 || !differ(s)) continue
        fell = snows[s] ? gross[s] : 0
        printf "| %d, %d March | %.4f | %.4f | %d | %s | %s |%s\n", s, s - 59, fell / 10000, (lies[s - 1] + fell - lies[s]) / 10000, index_of[s], condition[by_rain(s)], condition[counts_as(s)], pairs(s)
    }
    print "| all 365 days | | | | | |" pairs("all")
}' examples/year/year.txt $made/never.cells $made/frozen.cells > $made/march.md

# 13 March by cover and group: the lowest such cell to which no other leads.
awk -v shown=72 "$read_year"'
BEGIN {
    split("1 2 4 8 16 32 64 128", ways, " "); split("1 1 0 -1 -1 -1 0 1", right, " "); split("0 1 1 1 0 -1 -1 -1", down, " ")
    split("2 field;3 grass;4 forest;6 wetland;8 shrub;12 village", named, ";")
    for (k in named) { split(named[k], word, " "); name[word[1]] = word[2] }
}
END {
    for (i = 0; i < cells; i++)
        for (k = 1; k <= 8; k++) {
            c = i % wide + right[k]; r = int(i / wide) + down[k]
            if (way[i] == ways[k] && !water[cover[i]] && c >= 0 && c < wide && r >= 0 && r < high) fed[r * wide + c] = 1
        }
    for (i = cells - 1; i >= 0; i--) { count[cover[i], group[i]]++; if (!fed[i]) lowest[cover[i], group[i]] = i }
    print "| cover and soil group | cells | curve number by the rain | in frost | runoff, never frozen | frozen | recharged, never frozen | frozen | rejected, never frozen | frozen |\n|---|---|---|---|---|---|---|---|---|---|"
    for (c = 1; c <= 255; c++)
        for (g = 1; g <= 4; g++) {
            if (!((c, g) in lowest) || water[c]) continue
            i = lowest[c, g]
            print "| " name[c] ", " letter[g] " | " count[c, g] " | " number(curve[c, g], by_rain(shown)) " | " number(curve[c, g], counts_as(shown)) " | " runoff[1, i] " | " runoff[2, i] " | " recharged[1, i] " | " recharged[2, i] " | " rejected[1, i] " | " rejected[2, i] " |"
        }
}' examples/year/year.txt $made/never.cells $made/frozen.cells > $made/kinds.md

# The commands that the page has after <!-- typed: radiation -->, as they stand there, in a folder of their own with the plain C as ./run.
plain plain_balance plain_text
plain plain_potential plain_text
typed=$made/typed
rm -rf $typed
mkdir $typed
ln -s "$PWD/examples" $typed/examples
cat > $typed/run << 'END'
#!/bin/sh
case $1 in
potential) ../plain_potential < "$2" ;;
*) ../plain_balance < "$1" ;;
esac
END
chmod +x $typed/run
awk '/^```$/ && inside { exit } inside; /^<!-- typed: radiation -->$/ { marked = 1 } marked && /^```$/ { inside = 1 }' examples/README.md > $typed/commands
[ -s $typed/commands ] || { echo 'examples/README.md has no commands to type on radiation'; exit 1; }
(cd $typed && sh -eu commands) > $made/typed.said
cmp $typed/turc.potential examples/year/potential.out

# The year a fourth time, by Turc of what is left of the radiation after an albedo of 0.23.
awk '{ $3 = int(77 * $3 / 100); print }' examples/year/readings.txt > $typed/net.readings
$made/plain_potential < $typed/net.readings | paste -d ' ' $typed/year.days - | cat $typed/year.setup - > $typed/net.txt
$made/plain_balance < $typed/net.txt > $typed/net.out

# The year's totals over the land: what its days ask for, and then as examples/totals.sh has them.
cp examples/year/year.txt examples/year/year.out $typed
for by in year turc jensen net; do
    awk 'NF == 7 { asked += $7 } END { printf "asked - %.2f\n", asked / 10000 }' $typed/$by.txt
    examples/totals.sh $typed/$by.txt $typed/$by.out | sed 's/stored at the end/stored/'
done | awk '
$1 == "asked" { by++ }
{ land[by, $1] = $3 }
END {
    print "| inches over the land | the year as it is, Thornthwaite-Mather | by Turc | by Jensen-Haise | by Turc, albedo taken off |\n|---|---|---|---|---|"
    n = split("asked,potential evapotranspiration;evapotranspired,evapotranspired;recharged,recharged;gone,gone;stored,stored at the end", row, ";")
    for (i = 1; i <= n; i++) {
        split(row[i], word, ",")
        print "| " word[2] " | " land[1, word[1]] " | " land[2, word[1]] " | " land[3, word[1]] " | " land[4, word[1]] " |"
    }
}' > $made/radiation.md

# By month: the means of the readings, what the year and its two variants ask for, and what recharges over the land.
land=$(sed -n 's/.* cells, \([0-9]*\) of them land$/\1/p' $made/typed.said | head -n 1)
awk -v land="$land" '
/^#/ { next }
FILENAME ~ /months.txt$/ { days[++months] = $1; for (d = 1; d <= $1; d++) month[++serials] = months; next }
FILENAME ~ /readings.txt$/ { warmth[month[FNR]] += $2; sun[month[FNR]] += $3; next }
NF == 7 { asked[by, month[$1]] += $7; asked[by, "all"] += $7 }
NF == 8 { recharged[by, month[$1]] += $5; recharged[by, "all"] += $5 }
BEGIN { split("January February March April May June July August September October November December", name, " ") }
function inches(m,    k, row) {
    for (k = 1; k <= 3; k++) row = row sprintf(" %.2f |", asked[k, m] / 10000)
    for (k = 1; k <= 3; k++) row = row sprintf(" %.2f |", recharged[k, m] / land / 10000)
    return row
}
END {
    print "| month | mean, °C | radiation | potential: Thornthwaite-Mather | Turc | Jensen-Haise | recharged: Thornthwaite-Mather | Turc | Jensen-Haise |\n|---|---|---|---|---|---|---|---|---|"
    for (m = 1; m <= months; m++) printf "| %s | %.1f | %.0f |%s\n", name[m], warmth[m] / days[m] / 10, sun[m] / days[m], inches(m)
    print "| the year | | |" inches("all")
}' examples/year/months.txt examples/year/readings.txt by=1 $typed/year.txt $typed/year.out by=2 $typed/turc.txt $typed/turc.out by=3 $typed/jensen.txt $typed/jensen.out > $made/months.md

tables examples/README.md "${1:-check}" ridge march kinds radiation months
echo 'the tables of examples/README.md are as the plain C has them'
