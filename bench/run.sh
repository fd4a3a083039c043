#!/bin/sh
# Tries what stands around the proved program, of which no proof speaks: the status of `./run`, what it passes on, what it and the program say
# on standard error, the explanations of refusals (tools/), and examples/totals.sh.
#
#     bench/run.sh          checks; writes nothing outside bench/build/
#     bench/run.sh write    stores what examples/refused/ is held to: read the explanations before you keep them
#
# The refusals themselves are the plain C's. Where balance or why is not built yet, ./run proves and builds it first.
set -eu
cd "$(dirname "$0")/.."
LC_ALL=C # the system's words in English
export LC_ALL
. bench/attempts.sh
PLAIN="$PLAIN plain_text"
mode=${1:-check}

# ---------------------------------------------------------------- accepted

accepted() {
    attempt ./run examples/ridge.txt
    expect 'a file' 0 examples/ridge.out nothing
    attempt ./run examples/year/year.txt
    expect 'the year' 0 examples/year/year.out nothing
    attempt ./run < examples/ridge.txt
    expect 'standard input' 0 examples/ridge.out nothing
    # shellcheck disable=SC2002 # a pipe is what is tried
    attempt sh -c 'cat examples/ridge.txt | ./run'
    expect 'a pipe' 0 examples/ridge.out nothing
    attempt sh -c '{ head -n 4; sleep 1; cat; } < examples/ridge.txt | ./run'
    expect 'a pipe that writes in pieces' 0 examples/ridge.out nothing
    attempt sh -c '{ echo notes; cat examples/ridge.txt; } | { read -r notes; ./run; }'
    expect 'a pipe that was read in part' 0 examples/ridge.out nothing
    ln -sf "$PWD/run" $made/linked
    attempt $made/linked examples/ridge.txt
    expect 'by a link' 0 examples/ridge.out nothing
    rm -f $made/fifo
    mkfifo $made/fifo
    cat examples/ridge.txt > $made/fifo &
    writer=$!
    attempt ./run $made/fifo
    kill $writer 2> /dev/null || : # it would wait for a reader that never came
    expect 'a named pipe' 0 examples/ridge.out nothing
}

# ---------------------------------------------------------------- refused

# Two texts that are not stored: one with Windows line ends, and ten years, which are too long.
make_texts() {
    awk '{ printf "%s\r\n", $0 }' examples/ridge.txt > $made/11-windows.txt
    awk 'NR <= 7 { print } END { for (day = 1; day <= 3650; day++) print day, (day - 1) % 365 + 1, 0, 500, 600, 700, 1000 }' \
        examples/ridge.txt > $made/11-long.txt
}

# explained AWK TEXT PRINTED: what the last line of PRINTED means, by that awk.
explained() {
    # shellcheck disable=SC2046 # refused NUMBER at PLACE
    set -- "$1" "$2" $(($(wc -l < "$3") - 1)) $(tail -n 1 "$3")
    explain_text "$1" "$5" "$7" "$3" '' < "$2"
}

refused() {
    awks > $made/awk.list
    for out in examples/refused/*.out; do
        name=$(basename "$out" .out)
        text=examples/refused/$name.txt
        [ -f "$text" ] || text=$made/$name.txt
        $made/plain_balance < "$text" | cmp - "$out" || wrong "$name: the plain C has another output"
        attempt ./run "$text"
        expect "$name" 1 "$out" "examples/refused/$name.said"
        attempt ./run < "$text"
        expect "$name on standard input" 1 "$out" "examples/refused/$name.said"
        while read -r awk; do
            explained "$awk" "$text" "$out" | cmp - "examples/refused/$name.said" || wrong "$name: explained otherwise by $awk"
        done < $made/awk.list
    done
}

store() {
    for text in examples/refused/*.txt $made/11-windows.txt $made/11-long.txt; do
        name=examples/refused/$(basename "$text" .txt)
        $made/plain_balance < "$text" > "$name.out"
        explained awk "$text" "$name.out" > "$name.said"
    done
}

# What is said of a word that cannot be read: every cause by itself.
cause() { # WORD, as printf takes it, PATTERN
    # shellcheck disable=SC2059
    printf "3 1 120 $1" > $made/word.txt
    $made/plain_balance < $made/word.txt > $made/word.out
    attempt explained awk $made/word.txt $made/word.out
    grep -q "^line 1, column 9: .*$2" $made/got.out || wrong "'$1' is not said to have '$2': $(cat $made/got.out)"
}

# shellcheck disable=SC2016 # what is shown stands in such quotes
causes() {
    cause 0.25 '`0.25`.* a decimal point'
    cause 1,000 'a comma'
    cause '270\t3' '`270\\t3`.* a tab'
    cause '270\r\n3' '`270\\r`.* a carriage return .*Windows'
    cause +5 'a plus sign'
    cause 007 'a zero in front'
    cause -0 'minus zero'
    cause - 'a minus without digits'
    cause 5-6 'a minus that is not in front'
    cause 1234567890 '10 digits'
    cause 1e5 'letters'
    cause '"3"' 'the sign `"`'
    cause '3\0004' '`3\\x004`.* no plain text'
    cause '3\302\240' '`3\\xC2\\xA0`.* no plain text'
    cause 123456789012345678901 '`12345678901234567890..` (21 bytes)'
    cause '1.5,+\t' 'a decimal point .*, a comma .*, a tab .*, a plus sign'
    printf '\357\273\2773 1' > $made/mark.txt
    attempt ./run $made/mark.txt
    said 'a byte order mark' 'line 1, column 1: .*byte order mark'
}

# A number left out of a line, or one too many, is found on that line, in every so many lines; and where one of the first five is left out
# that is said.
odd_lines() { # TEXT EVERY
    rows=$(wc -l < "$1") row=3
    while [ "$row" -le "$rows" ]; do
        for damage in "${row}s/ [^ ]*\$//" "${row}s/\$/ 1/"; do
            sed "$damage" "$1" > $made/odd.txt
            $made/plain_balance < $made/odd.txt > $made/odd.out
            attempt explained awk $made/odd.txt $made/odd.out
            grep -q "^Line $row has " $made/got.out || wrong "$1, line $row: it is not found: $(cat $made/got.out)"
        done
        row=$((row + $2))
    done
    for damage in 2d '1s/ [^ ]*$//'; do
        sed "$damage" "$1" > $made/odd.txt
        $made/plain_balance < $made/odd.txt > $made/odd.out
        attempt explained awk $made/odd.txt $made/odd.out
        grep -q 'numbers before it was left out' $made/got.out || wrong "$1, $damage: not said to be left out: $(cat $made/got.out)"
    done
}

# An explanation that fails leaves the text and the status as they are.
unexplained() {
    text=examples/refused/7-mark.txt out=examples/refused/7-mark.out
    mkdir -p $made/no-awk
    printf '#!/bin/sh\nexit 3\n' > $made/no-awk/awk
    chmod +x $made/no-awk/awk
    attempt env PATH="$PWD/$made/no-awk:$PATH" ./run $text
    expect 'an awk that fails' 1 $out something
    attempt said_to_full_disk ./run $text
    expect 'no room on standard error' 1 $out nothing
    attempt said_to_closed ./run $text
    expect 'standard error closed' 1 $out nothing
}

# ---------------------------------------------------------------- neither

neither() {
    attempt ./run $made/no-such-file
    expect 'a missing file' 2 /dev/null something
    said 'a missing file' 'no-such-file: no such file'
    attempt ./run --help
    expect 'no file but a question' 2 /dev/null something
    said 'no file but a question' 'usage: '
    attempt ./run examples/ridge.txt examples/ridge.txt
    expect 'two files' 2 /dev/null something
    said 'two files' '^usage: '
    for text in examples/ridge.txt examples/refused/7-mark.txt; do
        attempt full_disk ./run $text
        expect "$text to a full disk" 2 /dev/null something
        said "$text to a full disk" 'No space left on device'
        attempt closed ./run $text
        expect "$text to a closed output" 2 /dev/null something
    done
    attempt ./run < /proc/self/mem # of this shell: its first byte cannot be read
    expect 'a read that fails' 2 /dev/null something
    said 'a read that fails' 'Input/output error'
    attempt ./run <&-
    expect 'a closed input' 2 /dev/null something
    attempt env TMPDIR=$made/no-such-folder ./run examples/ridge.txt
    expect 'no room to keep the text' 2 /dev/null something
}

# A disk that fills up under the program's output, just so that `end 46` is left of `end 465`: no text's last line is that.
cut_short() {
    awk 'BEGIN {
        print "1 1 120 270 1\n5 1 100 100 100 100 0 0 0 0 0 0 0 0 0 0\n0 5 4 0"
        for (day = 0; day < 465; day++) print 1000000 + day, 1, (day == 0 ? 100 : 0), 0, 0, 0, 0
    }' > $made/cut.txt
    attempt sh -c "ulimit -f 20; { ./run $made/cut.txt; echo \$? >&2; } | cat" # 20 times 512 bytes a file, but not a pipe
    [ "$(tail -n 1 $made/got.out)" = 'end 46' ] || wrong "a text that is cut short: it ends with $(tail -n 1 $made/got.out)"
    [ "$(tail -n 1 $made/got.said)" = 2 ] || wrong "a text that is cut short: status $(tail -n 1 $made/got.said), not 2"
}

# What the program itself says: of a folder, which ./run leaves to it, and run alone by the same loader.
program_itself() {
    attempt ./run < examples
    expect 'a folder as standard input' 2 /dev/null something
    said 'a folder as standard input' '^balance: standard input: Is a directory$'
    attempt ./run examples
    expect 'a folder as the file' 2 /dev/null something
    attempt loaded crates/balance/out/balance < /proc/self/mem
    cmp $made/got.out /dev/null || wrong 'a read that fails: the program prints something'
    said 'a read that fails in the program' '^balance: standard input: Input/output error$'
    attempt loaded crates/balance/out/balance < examples/ridge.txt
    expect 'the program by its loader' 0 examples/ridge.out nothing
    attempt full_disk loaded crates/balance/out/balance < examples/ridge.txt
    said 'the program on a full disk' '^balance: standard output: No space left on device$'
}

# ---------------------------------------------------------------- why

# Every day of a cell, and one of them; a serial that no day has, and a text without days.
asked() {
    attempt ./run why examples/ridge.txt 0
    expect 'why: every day' 0 crates/why/stdout nothing
    { sed -n 7,8p crates/why/stdout; echo 'end 1'; } > $made/day.out
    attempt ./run why examples/ridge.txt 0 4
    expect 'why: one day' 0 $made/day.out nothing
    echo 'end 0' > $made/none.out
    attempt ./run why examples/ridge.txt 0 9
    expect 'why: a serial that no day has' 2 $made/none.out something
    said 'why: a serial that no day has' '^why: no day of the text has serial 9$'
    sed 7q examples/ridge.txt > $made/no-days.txt
    attempt ./run why $made/no-days.txt 0
    expect 'why: a text without days' 0 $made/none.out nothing
}

# A text that balance refuses is refused alike, and explained alike, also where the days before it are not asked about.
asked_of_refused() {
    for out in examples/refused/*.out; do
        name=$(basename "$out" .out)
        text=examples/refused/$name.txt
        [ -f "$text" ] || text=$made/$name.txt
        for serial in '' 9999999; do
            attempt ./run why "$text" 0 ${serial:+"$serial"}
            tail -n 1 $made/got.out > $made/last.out
            tail -n 1 "$out" | cmp - $made/last.out || wrong "why: $name is refused otherwise"
            mv $made/last.out $made/got.out
            expect "why: $name" 1 $made/got.out "examples/refused/$name.said"
        done
    done
}

# A cell outside the grid: after a bad cell, and before a ring.
asked_outside() {
    echo 'refused 4 at 3' > $made/outside.out
    attempt ./run why examples/ridge.txt 3 1
    expect 'why: a cell outside the grid' 1 $made/outside.out something
    said 'why: a cell outside the grid' '^There is no cell 3: the grid is 3 x 1, and its 3 cells are numbered from 0 to 2'
    echo 'refused 4 at 999999999' > $made/outside.out
    attempt ./run why examples/refused/5-ring.txt 999999999
    expect 'why: a cell outside the grid, and a ring' 1 $made/outside.out something
    for out in examples/refused/4-*.out; do
        attempt ./run why "${out%.out}.txt" 999999999
        expect "why: a cell outside the grid, and ${out%.out}" 1 "$out" "${out%.out}.said"
    done
}

# What is neither: arguments that are no numbers, wrong usage, reads and writes that fail.
asked_wrongly() {
    for cell in 01 -1 +1 1.0 x '' 1234567890 12345678901234567890; do
        attempt ./run why examples/ridge.txt "$cell" 4
        expect "why: cell '$cell'" 2 /dev/null something
        said "why: cell '$cell'" '^why: the cell is no number of 1 to 9 digits$'
        attempt ./run why examples/ridge.txt 0 "$cell"
        expect "why: serial '$cell'" 2 /dev/null something
        said "why: serial '$cell'" '^why: the serial is no number of 1 to 9 digits$'
    done
    for arguments in 'examples/ridge.txt' 'examples/ridge.txt 0 4 5'; do
        # shellcheck disable=SC2086 # its words
        attempt ./run why $arguments
        expect "why: $arguments" 2 /dev/null something
        said "why: $arguments" '^usage: '
    done
    attempt ./run why $made/no-such-file 0
    expect 'why: a missing file' 2 /dev/null something
    said 'why: a missing file' 'no-such-file: no such file; usage: ./run why FILE CELL'
    attempt full_disk ./run why examples/ridge.txt 0
    expect 'why: a full disk' 2 /dev/null something
    attempt ./run why examples 0
    expect 'why: a folder' 2 /dev/null something
    said 'why: a folder' '^why: standard input: Is a directory$'
    attempt loaded crates/why/out/why < examples/ridge.txt
    expect 'why itself without a cell' 0 /dev/null something
    said 'why itself without a cell' '^usage: why CELL \[SERIAL\] < TEXT$'
    attempt full_disk loaded crates/why/out/why 0 < examples/ridge.txt
    said 'why itself on a full disk' '^why: standard output: No space left on device$'
}

# ---------------------------------------------------------------- damaged texts

# Every refusal of the plain C on damaged copies, explained.
damaged() { # TEXT COUNT
    rm -rf $made/damaged
    mkdir $made/damaged
    awk -v copies="$2" -v folder=$made/damaged -f bench/damage.awk "$1"
    for text in "$made"/damaged/*.txt; do
        $made/plain_balance < "$text" > $made/damaged.out
        last=$(tail -n 1 $made/damaged.out)
        case $last in
        'refused '*) ;;
        *) continue ;;
        esac
        explained awk "$text" $made/damaged.out > $made/damaged.said || wrong "$text: $last: the explanation failed"
        number=${last#refused } number=${number%% *}
        awk -v number="$number" -v place="${last##* }" -v text="$text" -f bench/explained.awk $made/damaged.said ||
            wrong "$text: $last: explained otherwise"
        echo "$number" >> $made/explained
    done
}

# ---------------------------------------------------------------- totals.sh

totals() {
    sed 's/^        //' > $made/year.totals << 'END'
        inches             over the grid  over the land
        gross                      32.53          32.53
        intercepted                 3.07           3.09
        evapotranspired            20.68          20.85
        recharged                   8.37           8.43
        rejected                    0.00           0.00
        gone                        0.41           0.16
        stored at the end           7.91           7.98
        365 days, 768 cells, 762 of them land
END
    attempt examples/totals.sh examples/year/year.txt examples/year/year.out
    expect 'the totals of the year' 0 $made/year.totals nothing
    tr ' ' '\n' < examples/year/year.txt > $made/column.txt # a number a line
    attempt examples/totals.sh $made/column.txt examples/year/year.out
    expect 'the totals of a text with a number a line' 0 $made/year.totals nothing
    sed '30s/.*/refused 7 at 0/; 31,$d' examples/year/year.out > $made/part.out
    attempt examples/totals.sh examples/year/year.txt $made/part.out
    expect 'the totals of a refused year' 1 /dev/null something
    sed '$d' examples/year/year.out > $made/part.out
    attempt examples/totals.sh examples/year/year.txt $made/part.out
    expect 'the totals of a year without its end' 1 /dev/null something
    attempt examples/totals.sh examples/ridge.txt examples/year/year.out
    expect 'the totals of another input' 1 /dev/null something
    sed 's/ 12000 / 12001 /' examples/ridge.txt > $made/other.txt
    attempt examples/totals.sh $made/other.txt examples/ridge.out
    expect 'the totals of an input with other weather' 1 /dev/null something
    water_alone
}

# A grid of open water alone has no land to divide by.
water_alone() {
    printf '%s\n' '1 1 120 270 1' '5 1 100 100 100 100 0 0 0 0 0 0 0 0 0 0' '0 5 4 0' '1 1 5000 0 0 0 0' > $made/water.txt
    $made/plain_balance < $made/water.txt > $made/water.out
    attempt examples/totals.sh $made/water.txt $made/water.out
    [ "$status" -eq 0 ] || wrong 'the totals of open water alone: it fails'
    grep -q '^gone  *0.50  *-$' $made/got.out || wrong 'the totals of open water alone: not 0.50 inches gone, and none of the land'
}

# README shows a run of each kind: these lines stand there one after the other.
shown() { # FILE..
    cat "$@" | awk '
    FNR == NR { want[++lines] = $0; next }
    { at = $0 == want[at + 1] ? at + 1 : $0 == want[1]; if (at == lines) { found = 1; exit } }
    END { exit !found }' - README.md || wrong "README does not show $*"
}

plain plain_balance
make_texts
[ "$mode" != write ] || store
./run examples/ridge.txt > $made/first.out # proves and builds the program, where that is to be done
accepted
refused
causes
odd_lines examples/ridge.txt 1
odd_lines examples/refused/7-mark.txt 1
odd_lines examples/year/year.txt 97
unexplained
neither
cut_short
totals
./run why examples/ridge.txt 0 > $made/first.out # as above
asked
asked_of_refused
asked_outside
asked_wrongly
: > $made/explained
damaged examples/ridge.txt 200
damaged examples/refused/8-serial.txt 60
damaged examples/refused/5-ring.txt 40
damaged examples/refused/10-snow.txt 40
damaged examples/year/year.txt 60
echo "damaged texts explained, by refusal: $(sort -n $made/explained | uniq -c | awk '{ printf "%s%d (%d times)", (NR > 1 ? ", " : ""), $2, $1 }')"
program_itself
shown examples/ridge.out
shown examples/refused/7-temperatures.out examples/refused/7-temperatures.said
echo "$tried runs have the status, the text and the words that they should; $(wc -l < $made/explained) refusals of damaged texts are explained"
