#!/bin/sh
# The proved program `setup` (M-101) beside the plain C's: standard output and standard error, byte for byte.
#
#     bench/setup.sh [check [COPIES]]    checks; writes nothing outside bench/build/
#     bench/setup.sh write               stores what examples/grids/ is held to: read the explanations before you keep them
#
# Both are handed the valley of examples/; a small desk of six files with every fault that a word of a grid can have, every form of the other files,
# every pair of faults, the longest files and texts, and names and files that the system refuses; the grids of bench/grids/; and COPIES damaged ones. Then
# `./run setup`, which proves and builds the program where that is to be done: its statuses, what it says of refused grids, the pipe to `./run`, and what README shows
# of it.
set -eu
cd "$(dirname "$0")/.."
LC_ALL=C # the system's words in English
export LC_ALL
. bench/attempts.sh
PLAIN="$PLAIN plain_text"
RATTLE_HOME=${RATTLE_HOME:-$(kit_folder)} # looked up once
mode=${1:-check} copies=${2:-240}
program=crates/setup/out/setup
valley='examples/valley/direction.asc examples/valley/cover.asc examples/valley/group.asc examples/valley/water.asc examples/valley/covers.txt examples/valley/weather.txt'
desk=$made/desk # its files are called 1 to 6, as the arguments count
file=$made/desk/file

# ---------------------------------------------------------------- both

# Hands the arguments to both, and holds the proved program to the plain C: $made/setup.out and $made/setup.said are what that has to say, a text or a line of
# words.
hand() { # [ARGUMENT..]
    $made/plain_setup_text "$@" > $made/setup.out 2> $made/setup.said || : # the other has no status to compare
    loaded $program "$@" > $made/got.out 2> $made/got.said || :
    cmp $made/setup.out $made/got.out || wrong "setup $*: standard output differs"
    cmp $made/setup.said $made/got.said || wrong "setup $*: standard error differs: $(cat $made/got.said)"
    if [ -s $made/setup.out ]; then
        [ ! -s $made/setup.said ] || wrong "setup $*: a text and words"
    else
        [ "$(wc -l < $made/setup.said)" -eq 1 ] || wrong "setup $*: neither a text nor a line of words"
    fi
    cat $made/setup.said >> $made/setup.all
    echo run >> $made/setup.runs
}

# Holds what was said last to a line; nothing stands for a text.
says() { # LINE
    [ "$(cat $made/setup.said)" = "$1" ] || wrong "it says '$(cat $made/setup.said)' and not '$1'"
}

# The small desk with another file, or two, in their places.
desk_with() { # PLACE FILE [PLACE FILE]
    at=$1 put=$2 at_other=${3-} put_other=${4-}
    set --
    for n in 1 2 3 4 5 6; do
        case $n in
        "$at") set -- "$@" "$put" ;;
        "$at_other") set -- "$@" "$put_other" ;;
        *) set -- "$@" $desk/$n ;;
        esac
    done
    hand "$@"
}

# The same with what standard input has, as that file. A refusal of it is explained, at its place.
desk_as() { # PLACE
    cat > $file
    desk_with "$1" $file
    explained_rightly $file
}

explained_rightly() { # GRID
    last=$(cat $made/setup.said)
    [ "$last" = "setup: $1: refused 12 at ${last##* }" ] || return 0
    explain_grid awk "${last##* }" < "$1" > $made/grid.said || wrong "$last: the explanation failed"
    awk -v number=12 -v place="${last##* }" -v text="$1" -f bench/explained.awk $made/grid.said || wrong "$last: explained otherwise"
    echo grid >> $made/explained
}

# ---------------------------------------------------------------- the files

# A grid as its words are given, the corner and the cell size the desk's.
grid() { # COLUMNS ROWS NO-DATA CELL..
    printf 'ncols %s\nnrows %s\nxllcorner 304785.5\nyllcorner -4771440\ncellsize 30\nNODATA_value %s\n' "$1" "$2" "$3"
    columns=$1
    shift 3
    echo "$*" | awk -v columns="$columns" '{ for (k = 1; k <= NF; k++) printf "%s%s", $k, k % columns && k < NF ? " " : "\n" }'
}

# So many cells alike.
even_grid() { # COLUMNS ROWS CELL [COUNT]
    grid "$1" "$2" 7
    awk -v count="${4:-$(($1 * $2))}" -v cell="$3" 'BEGIN { for (; count > 0; count--) print cell }'
}

# A cover file of so many words after its count.
cover_file() { # COUNT WORDS
    echo "120 270 $1" | tr -d '\n'
    awk -v words="$2" 'BEGIN { for (; words > 0; words--) printf " 50"; print "" }'
}

# A file with blanks behind it, up to so many bytes.
padded() { # FILE BYTES
    cat "$1"
    head -c $(($2 - $(wc -c < "$1"))) /dev/zero | tr '\000' ' '
}

# 3 by 2 cells with the covers and the days of the ridge. Each grid has a no-data number of its own.
make_desk() {
    rm -rf $desk
    mkdir $desk
    grid 3 2 -9999 1 1 4 0 16 16 > $desk/1
    grid 3 2 255 3 7 3 3 3 7 > $desk/2
    grid 3 2 0 1 2 3 4 1 2 > $desk/3
    grid 3 2 -1 100 200 300 400 500 0 > $desk/4
    { echo 120 270 && sed -n 2,4p examples/ridge.txt; } > $desk/5
    awk 'NF == 7' examples/ridge.txt > $desk/6
}

# The valley is made anew, and gives the year; the desk's text stands here in full.
texts() {
    rm -rf $made/valley
    mkdir $made/valley
    examples/valley/make.sh $made/valley
    for name in $valley; do cmp "$name" "$made/valley/$(basename "$name")" || wrong "$name is not what make.sh makes"; done
    # shellcheck disable=SC2086 # six names
    hand $valley
    says ''
    tr ' ' '\n' < $made/setup.out | tr -s '\n' > $made/valley/words
    tr ' ' '\n' < examples/year/year.txt | cmp - $made/valley/words || wrong 'the valley has other numbers than the year'
    $made/plain_balance < $made/setup.out | cmp - examples/year/year.out || wrong 'the valley gives another year'
    hand $desk/1 $desk/2 $desk/3 $desk/4 $desk/5 $desk/6
    {
        printf '3 2\n120 270\n2\n'
        sed -n 3,4p examples/ridge.txt
        printf '\n1 3 1 100\n1 7 2 200\n4 3 3 300\n0 3 4 400\n16 3 1 500\n16 7 2 0\n'
        awk 'NF == 7' examples/ridge.txt
    } > $made/desk.txt
    cmp $made/desk.txt $made/setup.out || wrong 'the desk has another text'
    $made/plain_balance < $made/desk.txt > $made/desk.out
}

# ---------------------------------------------------------------- grids

# Grid PLACE with another word, as printf's %b takes it, in place of its Nth; an empty one drops it.
other_word() { # PLACE N WORD
    form=$(awk -v n="$2" '{ for (k = 1; k <= NF; k++) if (++words == n) $k = "%b"; print }' $desk/"$1")
    # shellcheck disable=SC2059
    printf "$form\n" "$3" | desk_as "$1"
}

# Names and values at odds with the form that each has, its neighbours, and bytes that are no blanks. The last has a byte 0.
words() {
    n=1
    while [ $n -le 18 ]; do
        for word in '' '1 1' 0 1 -1 2 3 4096 4097 999999999 -999999999 1234567890 -9999 007 -0 1.0 -1.5 1. .1 - -. 1.5.2 --1 1-1 +1 1e5 1,5 x ncol ncols nrows cellsize \
            XLLCORNER NoData_Value nodata 12345678901234567890 123456789012345678901 -1234567890123456789 -12345678901234567890 1234567890.123456789 \
            1234567890.1234567890 '\t1' '1\t' '1\r' '\r' '1\v' '\0302\02401' '\0357\0273\02771' '1\0000'; do
            other_word 1 $n "$word"
        done
        n=$((n + 1))
    done
}

# Blanks and line breaks are free, and so is the letter case of names; the order is not.
forms() {
    tr '\n' ' ' < $desk/1 | desk_as 1
    says ''
    tr ' ' '\n' < $desk/1 | desk_as 1
    says ''
    awk '{ gsub(/ /, "   "); print " " $0 "  \n" }' $desk/1 | desk_as 1
    says ''
    printf '%s' "$(cat $desk/1)" | desk_as 1
    says ''
    tr '[:upper:]' '[:lower:]' < $desk/1 | desk_as 1
    says ''
    tr '[:lower:]' '[:upper:]' < $desk/1 | desk_as 1
    says ''
    awk '{ printf "%s\r\n", $0 }' $desk/1 | desk_as 1
    says "setup: $file: refused 12 at 0"
    tr ' ' '\t' < $desk/1 | desk_as 1
    for lines in 1 1,6 2,4 6 7,8 1,8; do
        sed "${lines}d" $desk/1 | desk_as 1
        sed "$lines{p;}" $desk/1 | desk_as 1
    done
    for line in 1 2 3 4 5 6 7; do
        sed "$line{h;d;}; $((line + 1)){G;}" $desk/1 | desk_as 1 # changed for the next
    done
    bytes=$(wc -c < $desk/1)
    while [ "$bytes" -gt 0 ]; do # the end is cut off
        bytes=$((bytes - 1))
        head -c $bytes $desk/1 | desk_as 1
    done
}

# Each of the four: a bad cell first, in the midst, last and beyond, before a wrong count; its own no-data number, and no other; what is refused is told by its name.
places() { # PLACE
    for n in 13 15 18; do
        other_word "$1" $n x
        says "setup: $file: refused 12 at $((n - 13))"
        other_word "$1" $n "$(sed -n 's/NODATA_value //p' $desk/"$1")"
        says "setup: $file: refused 12 at $((n - 13))"
        other_word "$1" $n -9998
        says ''
        other_word "$1" $n ''
        says "setup: $file: refused 12 at 0"
    done
    for end in 5 '5 6 7' 'x' '5 6 x' '-9998 -9999 255 0 -1'; do { cat $desk/"$1" && echo "$end"; } | desk_as "$1"; done
    for n in 1 2 3 6 7 12; do
        other_word "$1" $n x
        says "setup: $file: refused 12 at 0"
    done
}

# Sizes at the limit and past it, also past where a product of 32 bits begins again.
sizes() {
    for size in '1 1' '1 4096' '4096 1' '64 64' '63 65'; do
        # shellcheck disable=SC2086 # its two numbers
        even_grid $size 1 > $file
        hand $file $file $file $file $desk/5 $desk/6
        says ''
    done
    for size in '1 4097' '4097 1' '64 65' '17 241'; do
        # shellcheck disable=SC2086
        even_grid $size 1 | desk_as 1
        says "setup: $file: refused 12 at 0"
    done
    for size in '641 6700417' '65536 65537' '999999999 999999999' '-1 -1' '-2 -3' '0 0' '0 6' '6 0'; do
        # shellcheck disable=SC2086
        even_grid $size 1 6 | desk_as 1
        says "setup: $file: refused 12 at 0"
    done
}

# The grid vectors, as other tools export them, four times the same: refused as their answers say, or a text.
exported() {
    for grid in bench/grids/*.asc; do
        hand "$grid" "$grid" "$grid" "$grid" $desk/5 $desk/6
        case $(cat "${grid%.asc}.out") in
        'refused 12 at '*) says "setup: $grid: $(cat "${grid%.asc}.out")" ;;
        *) says '' ;;
        esac
        explained_rightly "$grid"
    done
}

# ---------------------------------------------------------------- what has to agree

# Another size, corner or cell size, which is compared as text: 30 is not 30.0.
differing() { # PLACE
    for size in '2 3' '3 1' '3 3' '2 2' '4 2' '6 1' '1 6'; do
        # shellcheck disable=SC2086 # its two numbers
        even_grid $size 1 | sed 's/^xllcorner .*/xllcorner 31/; s/^cellsize .*/cellsize 31/' | desk_as "$1"
        says "setup: $(differing_name "$1"): another size than $(first_name "$1")"
    done
    for corner in 's/304785.5/304785.50/' 's/304785.5/304786.5/' 's/-4771440/-4771441/' 's/-4771440/4771440/'; do
        sed "$corner; s/^cellsize .*/cellsize 31/" $desk/"$1" | desk_as "$1"
        says "setup: $(differing_name "$1"): another corner than $(first_name "$1")"
    done
    for size in 30.0 030 3 300 -30 29.999; do
        sed "s/^cellsize .*/cellsize $size/" $desk/"$1" | desk_as "$1"
        says "setup: $(differing_name "$1"): another cell size than $(first_name "$1")"
    done
}

# The first of the grids is the one that the others are held to.
differing_name() { if [ "$1" -eq 1 ]; then echo $desk/2; else echo $file; fi; }
first_name() { if [ "$1" -eq 1 ]; then echo $file; else echo $desk/1; fi; }

# ---------------------------------------------------------------- covers and weather

covers() {
    for count in 1 2 5 63 64; do
        for more in -16 -1 0 1 16; do
            cover_file $count $((16 * count + more)) | desk_as 5
            if [ $more -eq 0 ]; then says ''; else says "setup: $file: not a season, a count of covers and 16 numbers for each"; fi
        done
    done
    for count in 0 65 66 -1 -2 01 001 +1 1.0 1. x 1x '1,' '"1"' 100000001 1000000001 4294967297 18446744073709551617 ''; do
        for words in 0 16 32 1040 1056; do
            cover_file "$count" $words | desk_as 5
            says "setup: $file: not a season, a count of covers and 16 numbers for each"
        done
    done
    for form in '' ' \n ' 120 '120 270' '120 270 1' '120\t270 1' '1\r\n'; do
        # shellcheck disable=SC2059
        printf "$form" | desk_as 5
        says "setup: $file: not a season, a count of covers and 16 numbers for each"
    done
    awk '{ printf "%s\r\n", $0 }' $desk/5 | desk_as 5 # its count has a carriage return
    says "setup: $file: not a season, a count of covers and 16 numbers for each"
    unread_words
}

# No other word of the cover file, and none of the weather, is looked at: that is for balance.
unread_words() {
    cover_file 1 16 | sed 's/120 270/x \t-/; s/50/1.5/g' | desk_as 5
    says ''
    cover_file 1 16 | tr ' ' '\n' | desk_as 5
    says ''
    printf '%s' "$(cover_file 2 32)" | desk_as 5
    says ''
    cover_file 2 32 | tr 5 '\377' | tr 0 '\000' | desk_as 5
    says ''
    for form in '' ' ' '\n' 1 '1 2 3' 'x\ty\r\n' '\377\000\001' '\n\n1 1 1 1 1 1 1'; do
        # shellcheck disable=SC2059
        printf "$form" | desk_as 6
        says ''
    done
}

# ---------------------------------------------------------------- lengths

lengths() {
    for place in 1 2 3 4; do
        padded $desk/$place 262144 | desk_as $place
        says ''
        padded $desk/$place 262145 | desk_as $place
        says "setup: $file: longer than 262144 bytes"
        padded $desk/$place 400000 | desk_as $place
    done
    for place in 5 6; do
        rest=$(($(wc -c < $made/desk.txt) - $(wc -c < $desk/$place)))
        padded $desk/$place 65537 | desk_as $place
        says "setup: $file: longer than 65536 bytes"
        padded $desk/$place 65536 | desk_as $place
        says "setup: the text would have $((65536 + rest)) bytes, and balance reads 65536"
        padded $desk/$place $((65537 - rest)) | desk_as $place
        says 'setup: the text would have 65537 bytes, and balance reads 65536'
        padded $desk/$place $((65536 - rest)) | desk_as $place
        says ''
        $made/plain_balance < $made/setup.out | cmp - $made/desk.out || wrong 'balance takes a text of just 65,536 bytes otherwise'
    done
    for cell in -999999999 999999999; do
        even_grid 64 64 $cell > $file
        padded $desk/5 65536 > $made/covers
        padded $desk/6 65536 > $made/weather
        hand $file $file $file $file $made/covers $made/weather
        says "setup: the text would have $((6 + 65536 + 1 + 4096 * 4 * ${#cell} + 4096 * 4 + 65536)) bytes, and balance reads 65536"
    done
}

# ---------------------------------------------------------------- two faults

# A file with a fault, which is standard input. The lower its rank, the sooner it is said.
fault() { # RANK PLACE KIND
    cat > "$desk/$3-$2"
    echo "$1 $2 $3-$2"
}

# First what is found by reading, by file; then by judging, by file; by comparing, by file; the covers; the text.
make_faults() {
    for place in 1 2 3 4 5 6; do echo "1$place $place missing-$place"; done
    for place in 1 2 3 4; do
        padded $desk/$place 262145 | fault 1$place $place long
        grid 3 2 8 1 1 1 1 1 x | fault 2$place $place bad
    done
    for place in 2 3 4; do
        grid 3 3 8 1 1 1 1 1 1 1 1 1 | fault 3$place $place size
        sed 's/304785.5/304785/' $desk/$place | fault 3$place $place corner
        sed 's/cellsize 30/cellsize 31/' $desk/$place | fault 3$place $place cellsize
    done
    padded $desk/5 65537 | fault 15 5 long
    padded $desk/6 65537 | fault 16 6 long
    cover_file 2 31 | fault 40 5 form
    padded $desk/6 65500 | fault 50 6 filling
}

# Of any two faults in two files the one that comes first is said, as it is said alone.
pairs() {
    make_faults > $made/faults
    while read -r rank place fault; do
        desk_with "$place" $desk/"$fault"
        cp $made/setup.said $desk/"$fault.said"
        [ -s $made/setup.said ] || wrong "$fault: nothing is said"
        while read -r rank_after place_after fault_after; do
            if [ "$place_after" -eq "$place" ] || [ "$rank_after" -le "$rank" ]; then continue; fi
            desk_with "$place" $desk/"$fault" "$place_after" $desk/"$fault_after"
            cmp $made/setup.said $desk/"$fault.said" || wrong "$fault and $fault_after: another is said first"
        done < $made/faults
    done < $made/faults
}

# ---------------------------------------------------------------- names and the system

# A name of so many bytes, for the file at PATH: each ./ in front changes nothing.
long_name() { # BYTES PATH
    awk -v bytes="$1" -v path="$2" 'BEGIN {
        if ((bytes - length(path)) % 2) path = "./" "/" path
        while (length(path) < bytes) path = "./" path
        print path
    }'
}

names() {
    for place in 1 2 3 4 5 6; do
        desk_with $place "$(long_name 4095 $desk/$place)"
        says ''
        desk_with $place "$(long_name 4096 $desk/$place)"
        says "setup: $(long_name 4096 $desk/$place): File name too long"
        for bytes in 4097 4098 9000; do
            desk_with $place "$(long_name $bytes $desk/$place)"
            says "setup: a file's name has more than 4096 bytes"
        done
        desk_with $place ''
        says "setup: a file's name has more than 4096 bytes"
        desk_with $place '' 1 $made/no-such-file # which comes before any file is opened
        desk_with $place "$(printf '%0300d' 0)"
    done
    for name in "a file's name" '-' '--help' '%s%n' "$(printf 'x\r\303\277')" 'a: refused 12 at 0'; do
        desk_with 2 "$desk/$name"
        cp $desk/2 "$desk/$name"
        desk_with 2 "$desk/$name"
        says ''
        cp $desk/5 "$desk/$name"
        desk_with 2 "$desk/$name"
        says "setup: $desk/$name: refused 12 at 0"
        rm "$desk/$name"
    done
    # a name that is no text in UTF-8 cannot be opened by Rattle's std, where the plain C opens it: it is said with a mark in the place of such bytes
    name=$(printf 'x\r\377')
    cp $desk/2 "$desk/$name"
    attempt loaded $program $desk/1 "$desk/$name" $desk/3 $desk/4 $desk/5 $desk/6
    expect 'a name that is no text' 0 /dev/null something
    [ "$(cat $made/got.said)" = "setup: $desk/$(printf 'x\r\357\277\275'): invalid filename" ] || wrong "a name that is no text: it says $(cat $made/got.said)"
    rm "$desk/$name"
}

arguments() {
    set --
    for count in 0 1 2 3 4 5 6 7 8; do
        if [ $count -ne 6 ]; then
            hand "$@"
            says 'usage: setup DIRECTION COVER GROUP WATER COVERS WEATHER'
        fi
        set -- "$@" $desk/1
    done
}

# What the system says of a file. Where this runs as root, the one without permissions is read.
system_words() {
    cp $desk/1 $desk/locked
    chmod 0 $desk/locked
    ln -s loop $desk/loop
    for place in 1 2 3 4 5 6; do
        for words in 'no-such-file:No such file or directory' '.:Is a directory' '1/file:Not a directory' 'loop:Too many levels of symbolic links'; do
            desk_with $place "$desk/${words%%:*}"
            says "setup: $desk/${words%%:*}: ${words#*:}"
        done
        desk_with $place $desk/locked
        desk_with $place /proc/self/mem # its first byte cannot be read
        says 'setup: /proc/self/mem: Input/output error'
        desk_with $place /dev/null
        desk_with $place /dev/zero
        desk_with $place /dev/stdin < $desk/$place
        says ''
    done
    for how in full_disk closed; do
        $how $made/plain_setup_text $desk/1 $desk/2 $desk/3 $desk/4 $desk/5 $desk/6 2> $made/setup.said || :
        attempt $how loaded $program $desk/1 $desk/2 $desk/3 $desk/4 $desk/5 $desk/6
        cmp $made/setup.said $made/got.said || wrong "an output that is $how: other words"
    done
    full_disk $made/plain_setup_text $desk/1 $desk/2 $desk/3 $desk/4 $desk/5 $desk/6 2> $made/setup.said || :
    says 'setup: standard output: No space left on device'
}

# ---------------------------------------------------------------- damaged grids

# Damaged copies of a grid, each as one of the four.
damaged() { # GRID COPIES
    rm -rf $made/damaged
    mkdir $made/damaged
    awk -v copies="$2" -v folder=$made/damaged -f bench/damage.awk "$1"
    place=0
    for copy in "$made"/damaged/*.txt; do
        place=$((place % 4 + 1))
        desk_with $place "$copy"
        explained_rightly "$copy"
    done
}

# How often each kind of line was said; a comparison says little of what it never reached.
met() {
    awk '
    BEGIN {
        kinds = split("refused 12 at 0$;refused 12 at [1-9][0-9]*$;another size than;another corner than;another cell size than;not a season;" \
            "longer than 262144;longer than 65536;the text would have;a name has more;usage;No such file;Is a directory", kind, ";")
    }
    { sub(/file.s name/, "name"); for (k = 1; k <= kinds; k++) times[k] += $0 ~ kind[k] }
    END {
        for (k = 1; k <= kinds; k++) { printf "%s%s: %d times", (k > 1 ? "; " : "said: "), kind[k], times[k]; bad += !times[k] }
        print ""
        exit bad > 0
    }' $made/setup.all || wrong 'some kind of line was never said'
}

# ---------------------------------------------------------------- ./run setup

accepted() {
    # shellcheck disable=SC2086
    $made/plain_setup_text $valley > $made/valley.txt
    # shellcheck disable=SC2086
    attempt ./run setup $valley
    expect 'the valley' 0 $made/valley.txt nothing
    # shellcheck disable=SC2086
    attempt ./run setup $valley <&-
    expect 'the valley, without standard input' 0 $made/valley.txt nothing
    attempt sh -c "./run setup $valley | ./run"
    expect 'a pipe' 0 examples/year/year.out nothing
    attempt sh -c "./run setup $valley > $made/text && ./run $made/text"
    expect 'by a file' 0 examples/year/year.out nothing
    attempt ./run setup $desk/1 /dev/stdin $desk/3 $desk/4 $desk/5 $desk/6 < $desk/2
    expect 'a grid on standard input' 0 $made/desk.txt nothing
    # shellcheck disable=SC2002 # a pipe is what is tried
    attempt sh -c "cat $desk/6 | ./run setup $desk/1 $desk/2 $desk/3 $desk/4 $desk/5 /dev/stdin"
    expect 'weather by a pipe' 0 $made/desk.txt nothing
    echo 'not asked' > $desk/setup
    attempt sh -c "cd $desk && $PWD/run setup 1 2 3 4 5 6"
    expect 'a file called setup' 0 $made/desk.txt nothing
}

# What each fault is said by, and its status: 2 where the system has the word.
faults() {
    while read -r _ place fault; do
        set --
        for n in 1 2 3 4 5 6; do if [ $n -eq "$place" ]; then set -- "$@" "$desk/$fault"; else set -- "$@" $desk/$n; fi; done
        attempt ./run setup "$@"
        case $fault in
        missing-*) expect "$fault" 2 /dev/null "$desk/$fault.said" ;;
        bad-*)
            expect "$fault" 1 /dev/null something
            sed 1q $made/got.said | cmp - "$desk/$fault.said" || wrong "$fault: the program says something else"
            said "$fault" '^Cell 5 (row 2 of 2 from the top, column 3 of 3 from the left) is refused:$'
            said "$fault" '^line 8, column 5: .x. cannot be read as a number'
            ;;
        *) expect "$fault" 1 /dev/null "$desk/$fault.said" ;;
        esac
    done < $made/faults
}

# The mistakes of examples/grids/, by every awk of this machine. That with Windows line ends is not stored.
make_windows() { awk '{ printf "%s\r\n", $0 }' examples/valley/direction.asc > $made/windows.asc; }

# The place of the last refusal, and what is said of it, under the name that the grid has in examples/grids/.
mistake() { # SAID
    grid=examples/grids/$(basename "$1" .said).asc
    [ -f "$grid" ] || grid=$made/windows.asc
    # shellcheck disable=SC2086
    set -- "$grid" ${valley#* }
    hand "$@"
    attempt ./run setup "$@"
    sed "1s|$made/|examples/grids/|" $made/got.said > $made/mistake.said
}

mistakes() {
    awks > $made/awk.list
    [ "$(find examples/grids -name '*.asc' | wc -l)" -eq $(($(find examples/grids -name '*.said' | wc -l) - 1)) ] || wrong 'examples/grids has a grid without what is said of it'
    for told in examples/grids/*.said; do
        mistake "$told"
        expect "$told" 1 /dev/null something
        diff "$told" $made/mistake.said || wrong "$told: something else is said"
        last=$(cat $made/setup.said)
        while read -r awk; do
            { sed 1q "$told" && explain_grid "$awk" "${last##* }" < "$grid"; } | cmp - "$told" || wrong "$told: explained otherwise by $awk"
        done < $made/awk.list
    done
}

store() {
    for grid in examples/grids/*.asc $made/windows.asc; do
        told=examples/grids/$(basename "$grid" .asc).said
        mistake "$told"
        cp $made/mistake.said "$told"
    done
}

# What is said of a grid, as printf takes it.
cause() { # GRID PATTERN
    # shellcheck disable=SC2059
    printf "$1" > $file
    attempt ./run setup $file $desk/2 $desk/3 $desk/4 $desk/5 $desk/6
    expect "'$1'" 1 /dev/null something
    said "'$1'" "$2"
}

# shellcheck disable=SC2016 # what is shown stands in such quotes
causes() {
    front='ncols 3\nnrows 2\n' corner='xllcorner 1\nyllcorner 1\n' end='cellsize 1\nNODATA_value -9999\n'
    cause '' '^The grid is empty: it has no bytes\.$'
    cause ' \n' '^The grid is empty: it has blanks, and no word\.$'
    cause 'ncols\n' '^The grid ends at line 1, column 1, within its header; the next would be the value of ncols\.$'
    cause "$front" '^The grid ends at line 2, column 7, within its header; the next would be xllcorner\.$'
    cause 'ncols 3\nrows 2' '^line 2, column 1: `rows` stands where the header has nrows\.$'
    said 'another name' '^A header has these, in this order, each with its number: ncols, nrows, xllcorner, yllcorner, cellsize, NODATA_value\.$'
    cause '\357\273\277ncols 3' '^line 1, column 1: .*byte order mark'
    cause '\377\376n\000' '^line 1, column 1: .*UTF-16'
    cause 'ncols,3' '^line 1, column 1: `ncols,3` .* a comma'
    cause 'ncols\t3\r\n' "^To put blanks in their place: tr '.t.r' ' .n' < GRID > NEW\\.\$"
    cause 'ncols 3\r\n' '^line 1, column 7: `3\\r` .* a carriage return .* It stands for ncols, the number of columns\.$'
    cause 'ncols 3.0\n' '^line 1, column 7: `3.0` cannot be read as a number: it has a decimal point'
    cause "${front}xllcenter 1" '`xllcenter` stands .* The corner is the centre of that cell less half a cell size\.$'
    cause "${front}xllcorner 1e5" '^line 3, column 11: `1e5` cannot be taken as xllcorner: it has letters'
    cause "${front}xllcorner 5." '`5.` cannot be taken as xllcorner\. A corner or a cell size has 1 to 20 characters: digits, with a minus in front and a point between two digits allowed\.$'
    cause "${front}xllcorner 1.2345678901234567890" 'it has 21 characters\.'
    cause "$front${corner}dx 1 dy 1" '`dx` stands where the header has cellsize\. .* square cells\.$'
    cause "$front${corner}cellsize 1\n1 2 3" '`1` stands where the header has NODATA_value\. Put that line in before it'
    cause "$front${corner}cellsize 1\nNODATA_value -9999.0\n" 'a decimal point .* It stands for NODATA_value, a whole number that no cell has\.$'
    cause "ncols 0\nnrows 2\n$corner$end" '^line 1, column 7: ncols is 0; line 2, column 7: nrows is 2\.$'
    cause "ncols 65\nnrows 64\n$corner$end" '^65 x 64 = 4160 cells, and 4,096 are the most: split the area along its divides\.$'
    cells "$front$corner$end"
}

# shellcheck disable=SC2016
cells() { # HEADER
    cause "${1}1 2 3\n4 -9999 6\n" '^line 8, column 3: the cell is -9999, which is the no-data number (line 6, column 14)\.$'
    said 'a gap' '^Every cell needs a number: fill the gaps, or cut the four grids down to a part without any\. If it is no gap, change NODATA_value\.$'
    cause "${1}1 2 3\n4 -9999 x\n" '^1 cell is the no-data number, and 1 cannot be read; this is the first\.$'
    cause "${1}1 2 3\n-9999 -9999 6\n" '^2 cells are the no-data number; this is the first\.$'
    cause "${1}1 y 3\n4 5 x\n" '^2 words cannot be read; this is the first\.$'
    cause "${1}1 2 3\r\n4 5 6\r\n" "^To put blanks in their place: tr '.r' '.n' < GRID > NEW\\.\$"
    cause "${1}1 2 3\n4 5 6\n7 x\n" '^By its header the grid has 3 x 2 = 6 cells; behind the last of them cell 7 is refused:$'
    cause "$1" '^By its header the grid has 3 x 2 = 6 cells, and none stands behind it\.$'
    cause "${1}1 2 3\n4 5\n" '6 cells, and 5 stand behind it, up to line 8, column 3: 1 is missing\.$'
    said 'a cell too few' '^Line 8 has 2 numbers, and a row has 3\.$'
    cause "${1}1 2 3\n" '^No line stands out: whole rows are missing\.$'
    cause "${1}1 2 3\n4 5 6\n7 8 9\n" '6 cells, and 9 stand behind it: 3 are too many, from line 9, column 1 on\.$'
    said 'a row too many' '^Lines of 3 numbers: 3, for 2 rows\.$'
}

# An explanation that fails leaves the words and the status as they are.
unexplained() {
    mkdir -p $made/no-awk
    printf '#!/bin/sh\nexit 3\n' > $made/no-awk/awk
    chmod +x $made/no-awk/awk
    set -- $desk/bad-1 $desk/2 $desk/3 $desk/4 $desk/5 $desk/6
    attempt env PATH="$PWD/$made/no-awk:$PATH" ./run setup "$@"
    expect 'an awk that fails' 1 /dev/null something
    said 'an awk that fails' "^setup: $desk/bad-1: refused 12 at 5\$"
    attempt said_to_full_disk ./run setup "$@"
    expect 'no room on standard error' 1 /dev/null nothing
    attempt said_to_closed ./run setup "$@"
    expect 'standard error closed' 1 /dev/null nothing
    shift
    attempt sh -c "cat $desk/bad-1 | ./run setup /dev/stdin $*"
    expect 'a refused grid by a pipe' 1 /dev/null something
    said 'a refused grid by a pipe' '^run: /dev/stdin: keep it in a file to have it explained$'
}

neither() {
    for names in '' "$desk/1" "$desk/1 $desk/2 $desk/3 $desk/4 $desk/5" "$desk/1 $desk/2 $desk/3 $desk/4 $desk/5 $desk/6 $desk/6"; do
        # shellcheck disable=SC2086
        attempt ./run setup $names
        expect "./run setup $names" 2 /dev/null something
        said "./run setup $names" '^  *./run setup DIRECTION COVER GROUP WATER COVERS WEATHER$'
    done
    set -- $desk/2 $desk/3 $desk/4 $desk/5 $desk/6
    for name in '' "$(long_name 5000 $desk/1)" $desk "$desk/a: refused 12 at 0" "a: another size than $desk/1"; do
        attempt ./run setup "$name" "$@"
        expect "'$name' as a grid" 2 /dev/null something
        [ "$(wc -l < $made/got.said)" -eq 1 ] || wrong "'$name' as a grid: more than a line is said"
    done
    for how in full_disk closed; do
        attempt $how ./run setup $desk/1 "$@"
        expect "an output that is $how" 2 /dev/null something
        said "an output that is $how" '^run: the text could not be written$'
    done
    attempt env TMPDIR=$made/no-such-folder ./run setup $desk/1 "$@"
    expect 'no room to keep the text' 2 /dev/null something
    attempt env RATTLE_HOME=$made/no-such-folder ./run setup $desk/1 "$@"
    expect 'a program that cannot be started' 2 /dev/null something
}

# A disk that fills up under the text, whether the program is stopped or hears of it: no part of the text is passed on.
cut_short() {
    attempt sh -c "ulimit -f 20; ./run setup $valley" # 20 times 512 bytes a file
    expect 'a text that is cut short' 2 /dev/null something
    attempt sh -c "trap '' XFSZ; ulimit -f 20; ./run setup $valley"
    expect 'a text that is cut short, and the program hears of it' 2 /dev/null something
    said 'a text that is cut short, and the program hears of it' '^setup: standard output: File too large$'
}

# ---------------------------------------------------------------- README

# What README shows between ``` and ``` is typed, with what comes on standard error.
shown() {
    awk '/^```/ { if (found) exit; block = ""; next } { block = block $0 "\n" } /^\$ cd examples\/valley$/ { found = 1 } END { printf "%s", block }' README.md > $made/readme
    sed -n 's/^\$ //p' $made/readme > $made/commands
    [ "$(wc -l < $made/commands)" -ge 3 ] || wrong 'README does not show three commands on the valley'
    sh -c "while read -r command; do echo \"\\\$ \$command\" && eval \"\$command\" < /dev/null; done < $made/commands" > $made/typed.out 2>&1 || : # two of them fail
    diff $made/readme $made/typed.out || wrong 'README shows something else on the valley'
}

plain plain_setup_text
plain plain_balance
: > $made/setup.all
: > $made/setup.runs
: > $made/explained
make_desk
make_windows
# shellcheck disable=SC2086
./run setup $valley > $made/first.out # proves and builds the program, where that is to be done
[ "$mode" != write ] || store
./run examples/ridge.txt > $made/first.out # as above
texts
words
forms
for place in 1 2 3 4; do
    places $place
    differing $place
done
sizes
exported
covers
lengths
pairs
names
arguments
system_words
damaged $desk/1 "$copies"
damaged examples/valley/direction.asc "$copies"
met
accepted
faults
mistakes
causes
unexplained
neither
cut_short
shown
echo "$(wc -l < $made/setup.runs) runs of setup have the text and the words of the plain C; $tried runs have the status and the words that they should; \
$(wc -l < $made/explained) refused grids are explained"
