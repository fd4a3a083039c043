#!/bin/sh
# The proved program `sheet` beside the plain C's: the ten files of a folder, standard output and standard error, byte for byte.
#
#     bench/sheet.sh [COPIES]
#
# Both are handed the valley of examples/, the ridge as a folder, one day, two years, the most cells, days and bytes; then a folder with each fault that a file can
# have, of which the line that is said, the status of `./run sheet`, its explanation and the untouched folder are looked at; a sheet that cannot be written; and
# COPIES damaged copies of each file. Writes nothing outside bench/build/.
set -eu
cd "$(dirname "$0")/.."
LC_ALL=C # the system's words in English
export LC_ALL
. bench/attempts.sh
PLAIN="$PLAIN plain_text"
RATTLE_HOME=${RATTLE_HOME:-$(kit_folder)} # looked up once
copies=${1:-10}
program=crates/sheet/out/sheet
names='direction.asc cover.asc group.asc water.asc covers.txt weather.txt'
sheets='recharge.asc evapotranspiration.asc outflow.asc interception.asc rejected.asc soil.asc snow.asc days.txt sheet.txt recharge.svg'
place=$made/folder # the folder that is tried
compared=0

# ---------------------------------------------------------------- folders

# The folder of an example, or of a text of balance, as PLACE; nothing else is in it.
put_folder() { # FOLDER
    rm -rf $place
    mkdir $place
    for each in $names; do cp "$1/$each" $place; done
}

# The numbers of a text of balance whose lines are a size and season, covers, cells and days, as a folder's files.
folder_of() { # TEXT FOLDER
    rm -rf "$2"
    mkdir "$2"
    awk -v folder="$2" '
    function grid(name, part,    i, file) {
        file = folder "/" name ".asc"
        printf "ncols %d\nnrows %d\nxllcorner 0\nyllcorner 0\ncellsize 1\nNODATA_value %d\n", columns, rows, part == 1 ? 999 : -1 > file
        for (i = 0; i < cells; i++) printf "%d%s", number[i, part], (i + 1) % columns ? " " : "\n" > file
    }
    BEGIN { covers = folder "/covers.txt"; weather = folder "/weather.txt"; cells = 0; printf "" > weather }
    NR == 1 { columns = $1; rows = $2; print $3, $4 > covers; next }
    NF == 1 || NF == 16 { print > covers }
    NF == 4 { for (part = 1; part <= 4; part++) number[cells, part] = $part; cells++ }
    NF == 7 { print > weather }
    END { grid("direction", 1); grid("cover", 2); grid("group", 3); grid("water", 4) }' "$1"
}

# The text of balance of a folder, by the plain C's setup.
text_of() { # FOLDER
    # shellcheck disable=SC2046
    $made/plain_setup_text $(for each in $names; do echo "$1/$each"; done)
}

# What stands in a folder, but for files beside their places.
state() { # FOLDER
    (cd "$1" && find . ! -name '*.new' | sort && find . -type f ! -name '*.new' -exec cksum {} + | sort)
}

none_beside() { # FOLDER
    [ -z "$(find "$1" -name '*.new')" ] || wrong "$1: a file is left beside its place"
}

# ---------------------------------------------------------------- both

# Hands the folder to both. A sheet: the same ten files, and the last of them printed. Words: the same, and an untouched folder.
hand() { # [FOLDER]
    asked=${1:-$place}
    rm -rf $made/plain.sheet
    state "$asked" > $made/before
    $made/plain_sheet "$asked" $made/plain.sheet > $made/plain.out 2> $made/plain.said || :
    loaded $program "$asked" > $made/got.out 2> $made/got.said || :
    cmp $made/plain.out $made/got.out || wrong "sheet $asked: standard output differs"
    cmp $made/plain.said $made/got.said || wrong "sheet $asked: standard error differs: $(cat $made/got.said)"
    none_beside "$asked"
    if [ -s $made/plain.said ]; then
        [ ! -s $made/got.out ] || wrong "sheet $asked: words and a sheet"
        [ "$(wc -l < $made/got.said)" -eq 1 ] || wrong "sheet $asked: not one line is said"
        state "$asked" | cmp - $made/before || wrong "sheet $asked: refused, and the folder has changed"
    else
        for each in $sheets; do cmp "$made/plain.sheet/$each" "$asked/sheet/$each" || wrong "sheet $asked: $each differs"; done
        cmp $made/got.out "$asked/sheet/sheet.txt" || wrong "sheet $asked: something else is printed"
    fi
    compared=$((compared + 1))
}

# A folder that is no fault.
accepts() { # WHAT
    [ -s $made/got.out ] || wrong "$1: no sheet: $(cat $made/got.said)"
}

# Holds what was said of the folder to a line, then `./run sheet` to the same, status 1, an explanation like this one, and the folder to what it was, also where an
# old sheet stands in it.
refuses() { # WHAT WORDS [PATTERN]
    hand
    line="sheet: $place/$2"
    [ "$(cat $made/got.said)" = "$line" ] || wrong "$1: it says '$(cat $made/got.said)' and not '$line'"
    cp -R $made/old.sheet $place/sheet
    state $place > $made/before
    attempt ./run sheet $place
    expect "$1" 1 /dev/null something
    [ "$(sed 1q $made/got.said)" = "$line" ] || wrong "$1: ./run says something else first"
    if grep -q 'does not belong' $made/got.said; then wrong "$1: no fault is found: $(cat $made/got.said)"; fi
    [ -z "${3-}" ] || said "$1" "$3"
    state $place | cmp - $made/before || wrong "$1: the folder or its old sheet has changed"
    none_beside $place
}

# One file of the ridge, changed by sed, and what is said then.
changed() { # FILE SCRIPT WORDS [PATTERN]
    put_folder $made/ridge
    sed -i "$2" "$place/$1"
    refuses "$1: $2" "$1: $3" "${4-}"
}

# ---------------------------------------------------------------- sheets

# A grid's cells in inches as units, one to a line.
units() { # GRID
    sed 1,6d "$1" | tr ' ' '\n' | tr -d .
}

# The sums over all days of the results by plain_cells, and the stores of the last day, in the order of its columns.
sums() { # WHICH < CELLS
    awk -v which="$1" '
    $1 == "cell" { sum[$2 + 0] += $(which + 3); last[$2 + 0] = $(which + 3); if ($2 + 1 > cells) cells = $2 + 1 }
    END { for (i = 0; i < cells; i++) printf "%.0f\n", which < 5 ? sum[i] : last[i] }'
}

# Each grid of the sheet of PLACE is the sum of what its days gave each cell, one after another.
summed() { # WHAT
    text_of $place > $made/sheet.text
    $made/plain_cells 56000 83000 < $made/sheet.text > $made/cells
    which=0
    for name in interception outflow evapotranspiration recharge rejected soil snow; do
        units $place/sheet/$name.asc | awk '{ print $1 + 0 }' > $made/units
        sums $which < $made/cells | cmp - $made/units || wrong "$1: $name is not what the days gave"
        which=$((which + 1))
    done
}

valley() {
    put_folder examples/valley
    hand
    accepts 'the valley'
    cmp $place/sheet/days.txt examples/year/year.out || wrong 'the valley has other days than balance prints'
    summed 'the valley'
    cp -R $place/sheet $made/year.sheet
    hand # once more, over its own sheet
    diff -r $place/sheet $made/year.sheet || wrong 'a second run gives another sheet'
}

ridge() {
    folder_of examples/ridge.txt $made/ridge
    put_folder $made/ridge
    hand
    cmp $place/sheet/days.txt examples/ridge.out || wrong 'the ridge has other days than balance prints'
    grep -q '^nodata_value -9999$' $place/sheet/recharge.asc || wrong 'a no-data number that a depth could have is kept'
    summed 'the ridge'
    cp -R $place/sheet $made/old.sheet
    echo 'an old sheet' > $made/old.sheet/sheet.txt
    echo 'a note of the office' > $made/old.sheet/note
}

# One day is the day's own results, and two years the sums over both: the first of them is the year's sheet, day by day.
periods() {
    put_folder examples/valley
    sed -n 194p examples/valley/weather.txt > $place/weather.txt # a day of rain
    hand
    summed 'one day'
    [ "$(sed -n 1p $place/sheet/days.txt | cut -d ' ' -f 5)" -gt 0 ] || wrong 'the one day has no recharge'
    awk '{ print } END { for (k = 1; k <= NR; k++) print "" }' examples/valley/weather.txt > $place/weather.txt
    awk '{ $1 += 365; print }' examples/valley/weather.txt >> $place/weather.txt
    hand
    summed 'two years'
    sed -n 1,365p $place/sheet/days.txt > $made/first.days
    sed '$d' examples/year/year.out | cmp - $made/first.days || wrong 'the first of two years is another one'
    sed -n '/^day 366 /q; p' $made/cells | sums 3 > $made/first.units
    units $made/year.sheet/recharge.asc | awk '{ print $1 + 0 }' | cmp - $made/first.units || wrong 'the first year of two recharges something else than the year'
}

# Other forms of the same files, and of the folder's name.
forms() {
    put_folder $made/ridge
    for name in $names; do tr ' ' '\n' < "$made/ridge/$name" > "$place/$name"; done
    hand
    cmp $place/sheet/days.txt examples/ridge.out || wrong 'rows that break elsewhere give another sheet'
    put_folder $made/ridge
    : > $place/weather.txt
    hand
    accepts 'no days'
    echo 'end 0' | cmp - $place/sheet/days.txt || wrong 'no days are some'
    put_folder $made/ridge
    mkdir $place/sheet
    echo old > $place/sheet/recharge.asc
    echo note > $place/sheet/note
    for name in $sheets; do echo stale > "$place/sheet/$name.new"; done
    hand
    [ "$(cat $place/sheet/note)" = note ] || wrong 'a file that is not of the sheet has changed'
    hand $place/
    from=$PWD
    (cd $place && loaded "$from/$program" . | cmp - sheet/sheet.txt) || wrong 'a folder named . has no sheet'
}

# The most cells, days and bytes, and one more.
limits() {
    awk 'BEGIN { print 64, 64, 120, 270; print 1; print 3, 0, 75, 75, 75, 75, 6000, 6000, 6000, 6000, 900, 0, 250, 250, 250, 250
        for (i = 0; i < 4096; i++) print (i % 64 ? 16 : 0), 3, 1 + i % 4, 100 + i % 500
        print 1, 150, 30900, 600, 700, 800, 2000 }' > $made/limits.txt
    folder_of $made/limits.txt $made/most
    put_folder $made/most
    hand
    accepts '4,096 cells'
    put_folder $made/ridge
    awk 'BEGIN { for (k = 1; k <= 20000; k++) print k, k % 99 + 1, k % 7 ? 0 : 9999, 400, 500, 600, 9 }' > $place/weather.txt
    hand
    accepts '20,000 days'
    echo 20001 1 0 400 500 600 0 >> $place/weather.txt
    refuses '20,001 days' 'weather.txt: more than 20000 days' '^Split the years'
    put_folder $made/ridge
    awk 'BEGIN { printf "%524288s", "" }' | cat $made/ridge/weather.txt - | head -c 524288 > $place/weather.txt
    hand
    accepts 'the longest weather'
    for longest in direction.asc:262144 cover.asc:262144 group.asc:262144 water.asc:262144 covers.txt:65536 weather.txt:524288; do
        put_folder $made/ridge
        awk -v bytes=${longest#*:} 'BEGIN { printf "%" bytes "s", "" }' >> $place/${longest%:*}
        refuses "$longest and more" "${longest%:*}: longer than ${longest#*:} bytes" '^[ST][pa][lk]'
    done
    put_folder $made/ridge
    awk 'BEGIN { printf "%65536s", "" }' | cat $made/ridge/covers.txt - | head -c 65536 > $place/covers.txt
    cells=$(for name in direction cover group water; do sed 1,6d $made/ridge/$name.asc; done | wc -c)
    refuses 'a setup that is too long' "covers.txt: the setup would have $((4 + 65536 + 1 + cells)) bytes, and 65536 are the most" '^Take out'
}

# ---------------------------------------------------------------- faults

missing() {
    for name in $names; do
        put_folder $made/ridge
        rm "$place/$name"
        refuses "no $name" "$name: No such file or directory"
        mkdir "$place/$name"
        refuses "a folder $name" "$name: Is a directory"
    done
    rm -rf $place/sheet
    attempt ./run sheet $made/no-such-folder
    expect 'no folder' 1 /dev/null something
    [ "$(cat $made/got.said)" = "sheet: $made/no-such-folder/direction.asc: No such file or directory" ] || wrong 'no folder: other words'
}

headers() {
    for name in cover.asc group.asc water.asc; do
        changed "$name" 's/^xllcorner 0/xllcorner 0.0/' "another corner than $place/direction.asc" '^Export the four grids over one extent'
        changed "$name" 's/^yllcorner 0/yllcorner 1/' "another corner than $place/direction.asc" '^Export'
        changed "$name" 's/^cellsize 1/cellsize 2/' "another cell size than $place/direction.asc" '^Export'
        changed "$name" 's/^ncols 3/ncols 1/; s/^nrows 1/nrows 3/' "another size than $place/direction.asc" '^Export'
    done
    for name in direction.asc cover.asc group.asc water.asc; do
        changed "$name" 's/^ncols/columns/' 'refused 12 at 0' '^line 1, column 1: .columns. stands where the header has ncols'
        changed "$name" '7s/ [0-9]*$/ x/' 'refused 12 at 2' '^Cell 2 (row 1 of 1 from the top, column 3 of 3 from the left) is refused:$'
    done
}

# shellcheck disable=SC2016 # what is shown stands in such quotes
setups() {
    changed covers.txt '1s/.*/120 270 2/; 2d; 3s/$/ 7/' 'not a season, a count of covers and 16 numbers for each' ': the number of covers is 2; 3 + 16 x 2 = 35 numbers are needed'
    changed covers.txt '2s/.*/x/' 'not a season, a count of covers and 16 numbers for each' '^line 2, column 1: `x` cannot be read as a number'
    changed covers.txt '3s/ 0 / 1.5 /' 'line 3: refused 11 at 4: not a whole number of 1 to 9 digits' '^line 3, column 3: `1.5` cannot be read'
    said 'a word of the covers' '^It is number 5 of covers.txt, the mark for open water of the 1st of 2 covers, code 3: 0 or 1\.$'
    changed covers.txt '1s/120/x/' 'line 1: refused 11 at 0: not a whole number of 1 to 9 digits' '^It is number 1 of covers.txt, the first day of the growing season'
    changed covers.txt '4s/^7/3/' 'entry 1: refused 3 at 1: the order of the codes, or a figure of this cover outside its limits' '^line 4, column 1: the code is 3; codes must rise'
    changed covers.txt '3s/ 0 / 2 /' 'entry 0: refused 3 at 0: the order of the codes, or a figure of this cover outside its limits' '^line 3, column 3: the mark for open water is 2; it may be 0 or 1\.$'
    changed covers.txt '1s/270/400/' 'refused 6 at 0: the growing season is outside its limits' '^Each may be 1 to 366'
    changed direction.asc '7s/^[0-9]*/-1/' 'row 1, column 1: refused 4 at 0: a direction below zero' '^line 7, column 1: the direction is -1; it may be 0 or more\.$'
    changed cover.asc '7s/[0-9]*$/99/' 'row 1, column 3: refused 4 at 2: the cover table has no entry for this cover' ': the cover code is 99; the codes of the cover table are 3 7\.$'
    changed cover.asc '7s/[0-9]*$/-3/' 'row 1, column 3: refused 4 at 2: the cover table has no entry for this cover' ': the cover code is -3; '
    changed group.asc '7s/ [0-9]* / 5 /' 'row 1, column 2: refused 4 at 1: a soil group outside 1 to 4' ': the soil group is 5; it may be 1 to 4\.$'
    changed group.asc '7s/ [0-9]* / 0 /' 'row 1, column 2: refused 4 at 1: a soil group outside 1 to 4' ': the soil group is 0; '
    changed water.asc '7s/^[0-9]*/601/' 'row 1, column 1: refused 4 at 0: available water outside 0 to 600' '^line 7, column 1: the available water is 601; it may be 0 to 600'
    changed direction.asc '7s/.*/1 16 0/' 'row 1, column 1: refused 5 at 0: the directions lead round in a ring' '^The directions lead round in a ring of 2 cells'
    said 'a ring' '^cell 0, row 1, column 1 (line 7, column 1): direction 1, right, to cell 1\.$'
    said 'a ring' '^Fill the pit in the elevation model'
}

# shellcheck disable=SC2016
weathers() {
    changed weather.txt '3s/ [0-9]*$/ x/' 'line 3: refused 11 at 20: not a whole number of 1 to 9 digits' '^It is number 21 of weather.txt, the potential evapotranspiration of the 3rd day'
    changed weather.txt '3s/ [0-9]*$//' 'line 5: refused 11 at 34: the last day has fewer than 7 numbers' '^Line 3 has 6 numbers, and a day has 7\.$'
    said 'a cut-off day' '^weather.txt has 34 numbers and ends at line 5, column [0-9]*, within a day\.$'
    changed weather.txt '2s/^2 [0-9]* /2 367 /' 'line 2: refused 7 at 0: a figure of this day is outside its limits' '^line 2, column 3: the day of year is 367; it may be 1 to 366\.$'
    changed weather.txt '1s/^1 /-1 /' 'line 1: refused 7 at 0: a figure of this day is outside its limits' '^line 1, column 1: the serial is -1; it may be 0 to 9,999,999\.$'
    changed weather.txt '4s/.*/4 153 0 700 600 800 0/' 'line 4: refused 7 at 0: a figure of this day is outside its limits' 'the minimum temperature is 700; the mean temperature is 600'
    changed weather.txt 3d 'line 3: refused 8 at 0: the serial does not follow that of the day before' '^Serial 3 is missing: fill that day in\.$'
    changed weather.txt '3s/^3 /2 /' 'line 3: refused 8 at 0: the serial does not follow that of the day before' '^Look for a day given twice'
    put_folder $made/ridge # days break anywhere: the line is that of the day's first number
    tr '\n' ' ' < $made/ridge/weather.txt | sed 's/ 3 \([0-9]*\) /\n\n 3 \1\n/; s/ 4 \([0-9]*\) / 5 \1 /' > $place/weather.txt
    refuses 'days that break anywhere' 'weather.txt: line 4: refused 8 at 0: the serial does not follow that of the day before' '^line 4, column [0-9]*: the serial of the 4th day is 5; it should be 4'
    put_folder $made/ridge
    awk 'BEGIN { for (k = 1; k <= 40; k++) print k, 1, 400000, 100, 200, 300, 0 }' > $place/weather.txt
    refuses 'snow' 'weather.txt: line 26: refused 10 at 0: the snow of row 1, column 1 passes 1,000 inches of water' '^That is on the 26th day'
    printf '1 1 0 1 1 1 1\r\n' > $place/weather.txt
    rm -rf $place/sheet
    refuses 'Windows line ends' 'weather.txt: line 1: refused 11 at 6: not a whole number of 1 to 9 digits' 'a carriage return'
}

# Of two faults the one that comes first in the order of the tests is said: reading, grids, covers, the weather's form, the setup, the days.
orders() {
    put_folder $made/ridge
    echo x >> $place/weather.txt
    sed -i '1s/270/400/' $place/covers.txt
    refuses 'a bad word before a season' 'weather.txt: line 6: refused 11 at 35: not a whole number of 1 to 9 digits'
    rm $place/weather.txt
    rm -rf $place/sheet
    refuses 'no weather before a season' 'weather.txt: No such file or directory'
    sed -i '3s/ 0 / x /' $place/covers.txt
    rm -rf $place/sheet
    refuses 'a bad cover before no weather' 'covers.txt: line 3: refused 11 at 4: not a whole number of 1 to 9 digits'
    sed -i 's/^ncols/columns/' $place/water.asc
    rm -rf $place/sheet
    refuses 'a bad grid before a bad cover' 'water.asc: refused 12 at 0'
}

# ---------------------------------------------------------------- a sheet that cannot be written

# The program alone, on a folder whose sheet cannot be written: what it says, that it prints nothing, and that no file is left beside its place.
unwritten() { # WHAT WORDS COMMAND..
    what=$1 words=$2
    shift 2
    state $place > $made/before
    attempt "$@"
    expect "$what" 1 /dev/null something
    [ "$(cat $made/got.said)" = "sheet: $place/$words" ] || wrong "$what: it says $(cat $made/got.said)"
    none_beside $place
}

unchanged() { # WHAT
    state $place | cmp - $made/before || wrong "$1: the folder has changed"
}

# A file stands where the folder should, a folder where a file should, a disk is full; and, where this does not run as root, a folder that nobody may write.
unwritable() {
    put_folder $made/ridge
    echo file > $place/sheet
    unwritten 'a file called sheet' 'sheet/recharge.asc.new: Not a directory' ./run sheet $place
    unchanged 'a file called sheet'
    rm $place/sheet
    ln -s nowhere $place/sheet
    unwritten 'a link to nowhere' 'sheet/recharge.asc.new: No such file or directory' ./run sheet $place
    unchanged 'a link to nowhere'
    put_folder examples/valley
    unwritten 'a disk that fills up' 'sheet/recharge.asc.new: File too large' sh -c "trap '' XFSZ; ulimit -f 1; ./run sheet $place"
    unchanged 'a disk that fills up: the folder that was made'
    put_folder $made/ridge
    cp -R $made/old.sheet $place/sheet
    ln -s /dev/full $place/sheet/outflow.asc.new
    unwritten 'a disk that is full, over an old sheet' 'sheet/outflow.asc.new: No space left on device' ./run sheet $place
    unchanged 'a disk that is full, over an old sheet'
    mkdir $place/sheet/days.txt.new
    attempt ./run sheet $place
    expect 'a folder beside a place' 1 /dev/null something
    said 'a folder beside a place' "^sheet: $place/sheet/days.txt.new: Is a directory\$"
    unchanged 'a folder beside a place'
    rmdir $place/sheet/days.txt.new
    none_beside $place
    rm $place/sheet/rejected.asc
    mkdir $place/sheet/rejected.asc
    unwritten 'a folder in a place' 'sheet/rejected.asc: Is a directory' ./run sheet $place
    locked
}

locked() {
    [ "$(id -u)" -ne 0 ] || return 0
    put_folder $made/ridge
    chmod a-w $place
    unwritten 'a folder that may not be written' 'sheet: Permission denied' ./run sheet $place
    chmod u+w $place
    unchanged 'a folder that may not be written'
}

# ---------------------------------------------------------------- damaged copies

# Damaged copies of each file. What is said is explained, and no other fault is found than the program's.
damaged() { # FILE
    rm -rf $made/damaged
    mkdir $made/damaged
    awk -v copies="$copies" -v folder=$made/damaged -f bench/damage.awk "$made/ridge/$1"
    for copy in "$made"/damaged/*.txt; do
        put_folder $made/ridge
        cp "$copy" "$place/$1"
        hand
        [ ! -s $made/plain.said ] || explained
        sed "s|^sheet: $place/||; s/[0-9][0-9]*/N/g" $made/plain.said >> $made/sheet.all
    done
}

explained() {
    attempt ./run sheet $place
    expect "$(cat $made/plain.said)" 1 /dev/null something
    sed 1q $made/got.said | cmp - $made/plain.said || wrong "./run says something else than $(cat $made/plain.said)"
    if grep -q 'does not belong' $made/got.said; then wrong "not explained: $(cat $made/got.said)"; fi
    case $(cat $made/plain.said) in *refused*) [ "$(wc -l < $made/got.said)" -ge 2 ] || wrong "nothing more is said of $(cat $made/plain.said)" ;; esac
}

# ---------------------------------------------------------------- ./run sheet

statuses() {
    put_folder examples/valley
    $made/plain_sheet $place $made/plain.sheet > $made/plain.out
    attempt ./run sheet $place
    expect 'the valley' 0 $made/plain.out nothing
    attempt ./run sheet $place/ <&-
    expect 'the valley, without standard input' 0 $made/plain.out nothing
    attempt sh -c "cd $place && $PWD/run sheet ."
    expect 'the valley as .' 0 $made/plain.out nothing
    for folders in '' "$place $place"; do
        # shellcheck disable=SC2086
        attempt ./run sheet $folders
        expect "./run sheet $folders" 2 /dev/null something
        said "./run sheet $folders" '^  *./run sheet FOLDER$'
    done
    for name in '' "$(awk 'BEGIN { printf "%5000s", "" }' | tr ' ' x)"; do
        attempt ./run sheet "$name"
        expect 'no name, or one that is too long' 2 /dev/null something
        said 'no name, or one that is too long' "^sheet: the folder's name is empty, or has more than 4096 bytes\$"
    done
    attempt ./run sheet "$(awk 'BEGIN { printf "%4096s", "" }' | tr ' ' x)"
    expect 'a name of 4,096 bytes' 1 /dev/null something
    said 'a name of 4,096 bytes' '/direction.asc: File name too long$'
    for how in full_disk closed; do
        attempt $how ./run sheet $place
        expect "an output that is $how" 2 /dev/null something
    done
    attempt env RATTLE_HOME=$made/no-such-folder ./run sheet $place
    expect 'a program that cannot be started' 2 /dev/null something
}

# An explanation that fails leaves the words and the status as they are. A folder's name may look like anything.
unexplained() {
    put_folder $made/ridge
    echo x >> $place/weather.txt
    mkdir -p $made/no-awk
    printf '#!/bin/sh\nexit 3\n' > $made/no-awk/awk
    chmod +x $made/no-awk/awk
    attempt env PATH="$PWD/$made/no-awk:$PATH" ./run sheet $place
    expect 'an awk that fails' 1 /dev/null something
    said 'an awk that fails' "^sheet: $place/weather.txt: line 6: refused 11 at 35: "
    attempt said_to_full_disk ./run sheet $place
    expect 'no room on standard error' 1 /dev/null nothing
    odd="$made/a: refused 4 at 1: %s"
    rm -rf "$odd"
    cp -R $made/ridge "$odd"
    rm "$odd/cover.asc"
    attempt ./run sheet "$odd"
    expect 'a folder with an odd name' 1 /dev/null something
    [ "$(cat $made/got.said)" = "sheet: $odd/cover.asc: No such file or directory" ] || wrong 'a folder with an odd name: other words'
}

# What README shows between ``` and ```, from a copy of a folder on, is typed in a folder of its own, with what comes on standard error.
shown() {
    awk '/^```/ { if (found) exit; block = ""; next } { block = block $0 "\n" } /^\$ \.\/run sheet / { found = 1 } END { if (found) printf "%s", block }' README.md > $made/readme
    sed -n 's/^\$ //p' $made/readme > $made/commands
    [ -s $made/commands ] || wrong 'README shows no sheet'
    rm -rf $made/shown
    mkdir $made/shown
    ln -s "$PWD/run" "$PWD/examples" $made/shown
    sh -c "cd $made/shown && while read -r command; do echo \"\\\$ \$command\" && eval \"\$command\" < /dev/null; done < ../commands" > $made/typed.out 2>&1 || :
    diff $made/readme $made/typed.out || wrong 'README shows something else'
}

# README begins with the beginning of the valley's sheet.
begun() {
    awk '/^```$/ { if (found) exit; next } /^RECHARGE SHEET$/ { found = 1 } found' README.md > $made/readme
    [ -s $made/readme ] || wrong 'README does not begin with a sheet'
    head -n "$(wc -l < $made/readme)" $made/year.sheet/sheet.txt | diff $made/readme - || wrong "README begins with another sheet than the valley's"
}

plain plain_sheet plain_sheet_text plain_sheet_look plain_sheet_warnings plain_sheet_input plain_map
plain plain_setup_text
plain plain_cells
rm -rf $made/ridge $made/old.sheet $made/year.sheet
: > $made/sheet.all
folder_of examples/ridge.txt $made/first
./run sheet $made/first > $made/first.out # proves and builds the program, where that is to be done
valley
ridge
periods
forms
limits
missing
headers
setups
weathers
orders
unwritable
for name in $names; do damaged "$name"; done
statuses
unexplained
shown
begun
echo "$compared folders have the sheet, or the words, of the plain C; $tried runs have the status and the words that they should; of damaged files was said:"
sort $made/sheet.all | uniq -c
