#!/bin/sh
# README's table of the mistakes that no test can see. Each is made in the year's example, run by the plain C and set beside the year
# as it is. What the program says of each text, taken or refused, is held as well.
#
#     bench/mistakes.sh          checks; writes nothing outside bench/build/
#     bench/mistakes.sh write    writes the table
# shellcheck disable=SC2016 # what stands in single quotes is awk's, or the table's
set -eu
cd "$(dirname "$0")/.."
. bench/tables.sh

plain plain_cells
plain plain_balance plain_text
texts=$made/mistakes
mkdir -p $texts
cp examples/year/year.txt $texts/year

# Makes TEXT of another by an awk program, which knows the lines of a `cell` (its `row` and `column`) and of a `day`. Each line is
# printed as the program leaves it; a rule that ends in `next` leaves it out.
alter() { # TEXT OF PROGRAM
    awk '
    function near(x) { return int(x + 2000.5) - 2000 } # rounded so that no minus zero comes of it, which is bad form
    FNR == 1 { wide = $1; high = $2 }
    { cell = FNR > 1 && NF == 4; day = NF == 7 }
    cell { row = int(cells / wide); column = cells++ % wide }
    '"$3"'
    { print }' "$texts/$2" > "$texts/$1"
}

alter whole_fahrenheit year 'day { for (k = 4; k <= 6; k++) $k = near($k / 10) }'
alter whole_celsius year 'day { for (k = 4; k <= 6; k++) $k = near(($k - 320) / 18) }'
alter tenths_celsius year 'day { for (k = 4; k <= 6; k++) $k = near(($k - 320) / 1.8) }'
alter inches year 'day { $3 = near($3 / 10000) }'
alter hundredths year 'day { $3 = near($3 / 100) }'
alter missing year 'day && $2 == 194 { next } day { $1 = ++kept }'

# In the year as it is a day has one number for both, serial and day of year. April to September, with serials from 1, has two.
swap='{ was = $1; $1 = $2; $2 = was }'
alter summer year 'day && ($2 < 91 || $2 > 273) { next } day { $1 = $2 - 90 }'
alter summer_swapped summer "day $swap"
alter later_swapped summer "day { \$1 += 366 } day $swap"
alter new_year_swapped year "day { \$2 = (\$2 + 180) % 365 + 1 } day $swap" # as if the year began on 1 July

alter flipped year '
cell { held[row, column] = $0 }
cell && cells < wide * high { next }
cell { for (r = high - 1; r >= 0; r--) for (c = 0; c < wide; c++) print held[r, c]; next }'
# With width and height swapped the valley has rings. Its western side slopes one way: however it is cut into rows, none can be there.
alter swapped year "FNR == 1 $swap"
alter west year 'FNR == 1 { $1 = 12 } cell && column >= 12 { next }'
alter west_swapped west "FNR == 1 $swap"

alter clockwise year 'cell { for (k = 1; $1 > 1; k++) $1 /= 2; $1 = k }'
alter turned year 'cell { $1 = $1 == 128 ? 1 : 2 * $1 }'
alter edge year 'cell && (row == 0 || row == high - 1 || column == 0 || column == wide - 1) { $1 = -9999 }'
alter stream year 'cell && $2 == 6 { $2 = 5 }'

# The program's last line for a text, which has to begin with WORDS.
said() { # TEXT WORDS
    last=$($made/plain_balance < "$texts/$1" | tail -n 1)
    case $last in
    "$2 "*) echo "$last" ;;
    *) echo "mistakes: of $1 the program says $last, not $2" >&2; return 1 ;;
    esac
}

# A text's figures: how many cells; fallen, evapotranspired, recharged, rejected and gone over all days, and stored at the end, in
# units; then on a line each what the cells recharge. WIDTH puts the cells of rows that stand upside down back where they lie.
figures() { # TEXT [WIDTH]
    $made/plain_cells 56000 83000 < "$texts/$1" > $texts/cells
    awk -v width="${2:-0}" '
    $1 == "day" { for (k = 4; k <= 9; k++) sum[k] += $k; stored = $10 }
    $1 == "cell" { recharged[$2] += $6; if ($2 >= cells) cells = $2 + 1 }
    END {
        print cells, sum[4], sum[6], sum[7], sum[8], sum[9], stored
        for (i = 0; i < cells; i++) print recharged[width ? cells - width * (int(i / width) + 1) + i % width : i]
    }' $texts/cells > "$texts/$1.figures"
}

for text in year whole_fahrenheit whole_celsius tenths_celsius inches hundredths missing summer summer_swapped \
    west west_swapped clockwise turned stream; do
    said $text end > /dev/null
    figures $text
done
said flipped end > /dev/null
figures flipped 32
# plain_cells hands -9999 over as a caller in C would, made an unsigned number; of the text's own tests it has none.
in_a_text=$(said edge 'refused 4')
figures edge
over_new_year=$(said new_year_swapped 'refused 8')
later=$(said later_swapped 'refused 7')
ring=$(said swapped 'refused 5')
# One row stands for all three.
cmp $texts/whole_fahrenheit.figures $texts/whole_celsius.figures
cmp $texts/whole_fahrenheit.figures $texts/tenths_celsius.figures

# A row: TEXT's figures as inches over its grid, and how many cells recharge a tenth of an inch more or less than they do in RIGHT.
row() { # TEXT RIGHT MISTAKE 'WHAT IT DOES | HOW TO LOOK'
    awk -v mistake="$3" -v words="$4" '
    FNR == NR { right[FNR] = $1; next }
    FNR == 1 { for (k = 2; k <= NF; k++) inches = inches sprintf(" %.2f |", $k / $1 / 10000); next }
    { gap = $1 - right[FNR]; if (gap >= 1000 || gap <= -1000) off++ }
    END { print "| " mistake " |" inches " " off + 0 " | " words " |" }' "$texts/$2.figures" "$texts/$1.figures"
}

{
    echo '| mistake | fell | evapotranspired | recharged | rejected | gone | stored | cells off | what it does | how to look |'
    echo '|---|---|---|---|---|---|---|---|---|---|'
    row year year 'none: the year as it is' '|'
    row whole_fahrenheit year 'temperatures in whole degrees Fahrenheit (50 for 500), or in Celsius, whole (10) or tenths (100)' \
        'all that falls is snow and none melts; it is refused (10) only past 1,000 inches | a summer has maxima of 700 and more; what is stored falls from spring to autumn'
    row inches year 'rain in whole inches (1 for 12000)' 'next to no rain: the soil dries out | add up what fell (`examples/totals.sh`): it is what the gauge had'
    row hundredths year 'rain in hundredths of an inch (120 for 12000)' 'a hundredth of the rain | the same'
    row missing year 'a missing day, 13 July, the wettest of summer, and the serials renumbered' \
        'its rain is lost, and the five days after it remember too little | a year has 365 or 366 days, and the day of year rises by one from day to day'
    row summer summer 'none: April to September alone, serials from 1' '|'
    row summer_swapped summer 'there, serial and day of year swapped' \
        "51 days count as growing, not 136; over New Year it is \`$over_new_year\`, with serials past 366 \`$later\` | the first number goes on over New Year, the second begins again at 1"
    row flipped year 'rows flipped: the bottom row of the map first, directions as they were' \
        'what ran down the map runs up it; only a ring is refused (5), and here is none | the first cell is the top left of the map; follow a stream from cell to cell'
    row west west 'none: the western side alone, 12 by 24 cells' '|'
    row west_swapped west 'there, width and height swapped' \
        "each row begins at a wrong cell; the whole valley is \`$ring\` so, but a slope to one side has no ring | width, the number of columns, is first; a known pond is cell row × width + column, both from 0"
    row clockwise year 'directions 1 to 8, clockwise from the right' \
        '3, 5, 6 and 7 are closed depressions here, 4 and 8 point elsewhere | no direction is above 8; *rejected* is above 0 where the map has no closed depression'
    row turned year 'directions 1, 2, 4 to 128, clockwise from the upper right' \
        'every flow is turned by an eighth of a circle, and nothing is rejected | 1 is right, 4 is down; follow a stream from cell to cell'
    row edge year '-9999 as the direction of the outermost cells, handed over by C' \
        "as an unsigned number it is no direction, so a closed depression; in a text it is \`$in_a_text\` | *rejected*, as above; look for negative numbers before the call"
    row stream year 'the stream and its wetland entered as open water' 'what falls there and what reaches it is gone | only lakes and ponds have a 1 in the cover table'
} > $made/mistakes.md

tables README.md "${1:-check}" mistakes
echo 'the mistakes of README.md are as the plain C has them'
