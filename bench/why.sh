#!/bin/sh
# The proved program `why` (M-105) beside the plain C's: standard output and standard error, byte for byte.
#
#     bench/why.sh [TEXTS [SEED]]
#
# Both are asked about every cell of the ridge, on all days and on each; about some cells of the year; about the texts of examples/refused/; about
# TEXTS random ones, valid or damaged; and with arguments that are none. Of the random ones the last line has to be that of `balance` too. Then
# the statuses of `./run why`, which proves and builds the program where that is to be done (what it says of a refusal: bench/run.sh). Writes nothing outside
# bench/build/.
set -eu
cd "$(dirname "$0")/.."
LC_ALL=C # the system's words in English
export LC_ALL
. bench/tables.sh
. tools/loader.sh
PLAIN="$PLAIN plain_text plain_why_text"
RATTLE_HOME=${RATTLE_HOME:-$(kit_folder)} # looked up once
texts=${1:-300} seed=${2:-1}
compared=0

wrong() { # WORDS
    echo "bench/why.sh: wrong: $1"
    exit 1
}

# Asks both, and holds the proved program to the plain C: $made/why.out and $made/why.said are what that has to say.
ask() { # TEXT [ARGUMENT..]
    text=$1
    shift
    $made/plain_why "$@" < "$text" > $made/why.out 2> $made/why.said || : # the other has no status to compare
    loaded crates/why/out/why "$@" < "$text" > $made/got.out 2> $made/got.said || :
    cmp $made/why.out $made/got.out || wrong "why $* < $text: standard output differs"
    cmp $made/why.said $made/got.said || wrong "why $* < $text: standard error differs"
    cat $made/why.out >> $made/why.all
    compared=$((compared + 1))
}

# ---------------------------------------------------------------- texts

ridge() {
    for cell in 0 1 2 3 4095 4096 999999999; do
        ask examples/ridge.txt $cell
        for serial in 0 1 2 3 4 5 6 999999999; do ask examples/ridge.txt $cell $serial; done
    done
}

year() { # CELL..
    for cell in "$@"; do
        ask examples/year/year.txt "$cell"
        ask examples/year/year.txt "$cell" 72
    done
}

refused() {
    for text in examples/refused/*.txt; do
        for cell in 0 1 999999999; do ask "$text" $cell; done
        ask "$text" 0 2
        ask "$text" 0 999999999
    done
}

# The random texts of the fuzz with `balance`'s output by the plain C, whose last line is also that of `why` about cell 0, which every
# grid has, on all days. Then another cell is asked about on a day of the text, and now and then one that few grids have.
random() {
    rm -rf $made/texts
    mkdir $made/texts
    # shellcheck disable=SC2046,SC2086
    ${CC:-cc} $C11 -O1 $(printf 'bench/%s.c ' $FUZZ $CASES $PLAIN fast fast_text table) -o $made/fuzz_texts
    $made/fuzz_texts vectors $made/texts "$texts" "$seed"
    number=0
    for text in "$made"/texts/*.in; do
        number=$((number + 1))
        ask "$text" 0
        tail -n 1 "${text%.in}.out" > $made/last.out
        tail -n 1 $made/why.out | cmp - $made/last.out || wrong "why 0 < $text: its last line is not balance's"
        ask "$text" $((number % 9)) "$(awk -v from=$((number % 4)) 'NF == 8 && NR > from { print $1; found = 1; exit } END { if (!found) print from }' "${text%.in}.out")"
        [ $((number % 5)) -ne 0 ] || ask "$text" $((number % 100))
    done
}

# ---------------------------------------------------------------- arguments

# A bad argument prints nothing on standard output and one line on standard error, whatever the text.
bad() { # [ARGUMENT..]
    for text in examples/ridge.txt examples/refused/4-cell.txt; do
        ask $text "$@"
        [ ! -s $made/why.out ] || wrong "why $*: standard output has something"
        [ "$(wc -l < $made/why.said)" -eq 1 ] || wrong "why $*: standard error has not one line"
    done
}

arguments() {
    bad
    bad 0 1 2
    bad 0 1 2 3
    tab=$(printf '\t')
    for word in '' - -0 -1 +1 00 01 000000001 1234567890 4294967296 18446744073709551616 1.5 1e5 0x1 x 1x x1 ' 1' '1 ' '1 2' "1$tab" 1,000 --help / :; do
        bad "$word"
        bad "$word" 1
        bad 0 "$word"
        bad "$word" "$word"
    done
}

# ---------------------------------------------------------------- ./run why

# ./run why gives the status, and the plain C's text.
status() { # STATUS FILE [ARGUMENT..]
    want=$1 text=$2 got=0
    shift 2
    ./run why "$text" "$@" > $made/got.out 2> $made/got.said || got=$?
    [ $got -eq "$want" ] || wrong "./run why $text $*: status $got, not $want"
    $made/plain_why "$@" < "$text" 2> $made/why.said | cmp - $made/got.out || wrong "./run why $text $*: another text"
    if [ "$want" -eq 0 ]; then
        [ ! -s $made/got.said ] || wrong "./run why $text $*: standard error has: $(cat $made/got.said)"
    else
        [ -s $made/got.said ] || wrong "./run why $text $*: standard error says nothing"
    fi
}

statuses() {
    status 0 examples/ridge.txt 0
    status 0 examples/ridge.txt 2 4
    status 1 examples/ridge.txt 3
    for text in examples/refused/*.txt; do status 1 "$text" 0; done
    status 0 examples/refused/8-serial.txt 0 2 # the run ends before the refused day
    status 2 examples/ridge.txt 0 99
    status 2 examples/ridge.txt
    status 2 examples/ridge.txt 0 1 2
    status 2 examples/ridge.txt x
    status 2 examples/ridge.txt 0 x
}

# README shows the ridge and the valley on the fourth day, as they are.
readme() {
    for cell in 0 2; do
        $made/plain_why $cell 4 < examples/ridge.txt > $made/why.out
        sed -n "/^\$ .\/run why examples\/ridge.txt $cell 4\$/,/^end 1\$/p" README.md | sed 1d | cmp - $made/why.out || wrong "README.md: cell $cell"
    done
}

# ---------------------------------------------------------------- in all

# How often each reason was told, and each last line; a comparison says little of what it never reached.
told() {
    awk '
    /^serial / { sub(/^serial [0-9]*: /, ""); sub(/: .*/, ""); if (!times[$0]++) reason[++kinds] = $0; next }
    $1 == "end" { ends[$2 < 2 ? $2 : "more"]++ }
    $1 == "refused" { refused[$2]++ }
    END {
        for (i = 1; i <= kinds; i++) printf "told %d times: %s\n", times[reason[i]], reason[i]
        printf "end 0: %d times, end 1: %d, more days: %d\n", ends[0], ends[1], ends["more"]
        n = split("1 3 4 5 6 7 8 10 11", number, " ")
        for (i = 1; i <= n; i++) { printf "%srefused %d: %d times", (i > 1 ? ", " : ""), number[i], refused[number[i]]; bad += !refused[number[i]] }
        print ""
        exit kinds != 7 || bad || !ends[0] || !ends[1] || !ends["more"]
    }' $made/why.all || wrong 'some reason or some last line was never told'
}

plain plain_why
./run why examples/ridge.txt 0 > $made/first.out # proves and builds the program, where that is to be done
: > $made/why.all
ridge
year 0 1 3 7 78 150 365 767 # shrub, forest, grass, field, wetland, village, lake; the last
refused
random
arguments
statuses
readme
told
echo "$compared runs of why have the text and the words of the plain C"
