#!/bin/sh
# The proved program `potential` (M-103) beside the plain C's: standard output and standard error, byte for byte.
#
#     bench/potential.sh [check [TEXTS [SEED]]]    checks; writes nothing outside bench/build/
#     bench/potential.sh write                     stores what examples/readings/ is held to: read the explanations before you keep them
#
# Both answer the year of examples/, every form that a line and the end of a text can have, every limit and its neighbours, the whole range of
# each reading, the longest texts and TEXTS random ones. Then `./run potential`, which proves and builds the program where that is to be done:
# its statuses, what it says of refused lines, and what README shows of it. The answers are the plain C's.
set -eu
cd "$(dirname "$0")/.."
LC_ALL=C # the system's words in English
export LC_ALL
. bench/attempts.sh
PLAIN="$PLAIN plain_text"
RATTLE_HOME=${RATTLE_HOME:-$(kit_folder)} # looked up once
mode=${1:-check} texts=${2:-300} seed=${3:-1}
text=$made/readings.txt
compared=0 explained=0

# Has both answer a text, and holds the proved program to the plain C: $made/potential.out is what that answers. All answers are kept, each before
# its line, to be counted.
answer() { # TEXT
    $made/plain_potential < "$1" > $made/potential.out 2> $made/potential.said || wrong "$1: the plain C fails"
    loaded crates/potential/out/potential < "$1" > $made/got.out 2> $made/got.said || : # it has no status to compare
    cmp $made/potential.out $made/got.out || wrong "$1: standard output differs"
    cmp $made/potential.said $made/got.said || wrong "$1: standard error differs"
    paste -d ' ' $made/potential.out "$1" >> $made/potential.all
    compared=$((compared + 1))
}

# The same of a text as printf takes it.
answer_to() { # FORMAT
    # shellcheck disable=SC2059
    printf -- "$1" > $text
    answer $text
}

# ---------------------------------------------------------------- forms

year() {
    examples/year/readings.sh | cmp - examples/year/readings.txt || wrong 'examples/year/readings.txt is not what readings.sh makes'
    answer examples/year/readings.txt
    cmp $made/potential.out examples/year/potential.out || wrong 'examples/year/potential.out is not what comes out of readings.txt'
}

# A line alone, and between two good ones, which are answered all the same.
line() { # LINE
    answer_to "$1"
    answer_to "$1\n"
    answer_to "1 200 500 60\n$1\n2 200 500\n"
}

lines() {
    for form in '' ' ' '    ' '1 200 500 60' '2 200 500' ' 1 200 500 60' '1 200 500 60 ' '1   200  500 60' '1' '1 200' '1 200 500' '1 200 500 60 1' \
        '1 200 500 60 1 1' '1 200 500 60 x' '2' '2 200' '2 200 500 60' '2 200 500 60 1' '0 200 500 60' '3 200 500 60' '3 200 500' '-1 200 500 60' '-2 200 500' \
        '12 200 500 60' '21 200 500' '200 500 60' '1 200 -1 60 1' '2 700 500 60' '3 700 500'; do line "$form"; done
    # What is no number, in each place; the last of them is a byte 0.
    for word in 1.0 '1,' 1,0 +1 01 001 -0 -01 -00 - -- 1- --1 1-1 1e0 0x1 x I '"1"' '1\t' '\t1' '1\r' '\r1' '1\v' '1\f' '1;' 1/1 1:1 '1\302\240' '\357\273\2771' '\377' \
        1234567890 0123456789 -1234567890 18446744073709551617 '1\000'; do
        line "$word 200 500 60"
        line "1 $word 500 60"
        line "1 200 $word 60"
        line "1 200 500 $word"
        line "1 200 500 60 $word"
        line "2 200 $word"
        line "$word"
    done
}

# The same lines with every end that a text can have, and texts of nothing but ends.
ends() {
    for end in '' '\n' '\n\n' '\n\n\n' ' ' ' \n' '\n ' '\n \n' ' \n \n ' '\r' '\r\n' '\n\r\n' '\n\000' '\000\n'; do
        answer_to "$end"
        answer_to "1 200 500 60$end"
        answer_to "2 200 500$end"
        answer_to "1 200 500 60\n2 200 500$end"
        answer_to "\n1 700 500 60$end"
    done
}

# ---------------------------------------------------------------- readings

# Has both answer the lines of both estimates out of three lists of readings; FIRST:LAST or FIRST:LAST:STEP in a list are all those. Within
# the limits a line has at most 16 bytes, so that 4,000 of them are no text too long.
readings() { # MEANS RADIATIONS HUMIDITIES
    awk -v means="$1" -v suns="$2" -v airs="$3" '
    function list(words, out,    word, n, k, part, parts, last, value, count) {
        n = split(words, word, " ")
        for (k = 1; k <= n; k++) {
            parts = split(word[k], part, ":")
            last = part[parts > 1 ? 2 : 1] + 0
            for (value = part[1] + 0; value <= last; value += parts > 2 ? part[3] : 1) out[++count] = value
        }
        return count
    }
    BEGIN {
        n = list(means, t); m = list(suns, r); l = list(airs, h)
        for (i = 1; i <= n; i++)
            for (j = 1; j <= m; j++) {
                print 2, t[i], r[j]
                for (k = 1; k <= l; k++) print 1, t[i], r[j], h[k]
            }
    }' > $text
    rm -f $made/lines.*
    split -a 3 -l 4000 $text $made/lines.
    for file in "$made"/lines.*; do
        answer "$file"
        [ "$(wc -l < $made/potential.out)" -eq "$(wc -l < "$file")" ] || wrong "$file: not every line is answered"
    done
}

limits() {
    readings '-999999999 -9999 -601:-599 -33:-31 -1:1 599:601 999999999' '-9999 -1:1 999:1001' '-9999 -1:1 49:51 99:101 999'
}

# The whole range of each reading, with some of the others.
ranges() {
    readings -600:600 '0 1 59 147 500 999 1000' '0 30 49 50'
    readings '-600 -33 -31 0 1 200 333 600' 0:1000 '0 77'
    readings '1 200 600' '0 333 1000' 0:100
}

# Where the units of exact numbers can be whole, and one rounding more or less decides: 254 is twice 127, which has to divide R of Jensen-Haise, and R + 50 or the
# mean's tenths of Turc. `1 3 331 1` would be 65 units and is 64; with T as 3 times 0.1 it would be 65 too.
edges() {
    readings 1:600 77:1000:127 0:50
    readings 127:600:127 0:1000 '0 10 20 30 40'
    readings -600:600 127:1000:127 50
}

# ---------------------------------------------------------------- lengths

# A text of so many bytes: lines, then one that is filled up with blanks, and a line feed or none.
of_length() { # BYTES END
    awk -v bytes="$1" -v ends="$2" 'BEGIN {
        for (left = bytes; left > 100; left -= 13) print "1 200 500 60"
        printf "1 200 500 60%*s", left - 12 - ends, ""
        if (ends) print ""
    }' > $text
    [ "$(wc -c < $text)" -eq "$1" ] || wrong "a text of $1 bytes has $(wc -c < $text)"
    answer $text
}

# So many times the same bytes.
many() { # BYTES FORMAT
    # shellcheck disable=SC2059
    head -c "$1" /dev/zero | tr '\000' "$2" > $text
    answer $text
}

lengths() {
    for end in 0 1; do
        for bytes in 65535 65536; do
            of_length $bytes $end
            [ "$(wc -l < $made/potential.out)" -gt 5000 ] || wrong "a text of $bytes bytes is not answered"
        done
        for bytes in 65537 65538 131072; do
            of_length $bytes $end
            [ "$(cat $made/potential.out)" = 'refused 11 at 0' ] || wrong "a text of $bytes bytes is answered"
        done
    done
    for byte in '\n' ' ' 1 x; do for bytes in 65536 65537; do many $bytes "$byte"; done; done
}

# ---------------------------------------------------------------- random texts

# Each refused line, up to the twentieth, is explained, in order and at a place where a word begins or at the beginning of an empty line.
explained_all() { # TEXT
    explain_readings awk $made/potential.out < "$1" > $made/readings.said
    awk '
    FNR == 1 { file++ }
    file == 1 { row[FNR] = " " $0 }
    file == 2 && $1 == "refused" && ++refused <= 20 { place[refused] = $4; due = refused }
    file == 3 && $1 == "line" {
        split($0, word, /[ ,:]+/)
        if (word[2] != place[++said]) bad = 1
        if (substr(row[word[2]], word[4], 2) !~ /^ [^ ]$/ && (row[word[2]] ~ /[^ ]/ || word[4] != 1)) bad = 1
    }
    END { exit bad || said != due }' "$1" $made/potential.out $made/readings.said || wrong "$1: explained otherwise: $(cat $made/readings.said)"
    explained=$((explained + $(grep -c '^line ' $made/readings.said)))
}

random() {
    rm -rf $made/readings
    mkdir $made/readings
    awk -v texts="$texts" -v seed="$seed" -v folder=$made/readings -f bench/readings.awk
    before=$(wc -l < $made/potential.all)
    for file in "$made"/readings/*.txt; do
        answer "$file"
        if grep -q '^refused ' $made/potential.out; then explained_all "$file"; fi
    done
    tail -n +$((before + 1)) $made/potential.all | met
}

# How often each kind of answer was met; a comparison says little of what it never reached.
met() {
    awk '
    BEGIN { kinds = split("Turc, 0;Turc, above 0;Jensen-Haise, 0;Jensen-Haise, above 0;refused 11;refused 13", kind, ";") }
    $1 == "refused" { times["refused " $2]++ }
    /^[0-9]/ { times[($2 == 1 ? "Turc" : "Jensen-Haise") ($1 > 0 ? ", above 0" : ", 0")]++ }
    END {
        for (k = 1; k <= kinds; k++) { printf "%s%s: %d times", (k > 1 ? "; " : "answers to random texts: "), kind[k], times[kind[k]]; bad += !times[kind[k]] }
        print ""
        exit bad > 0
    }' || wrong 'some kind of answer was never met'
}

# ---------------------------------------------------------------- ./run potential

accepted() {
    readings=examples/year/readings.txt answers=examples/year/potential.out
    attempt ./run potential $readings
    expect 'a file' 0 $answers nothing
    attempt ./run potential < $readings
    expect 'standard input' 0 $answers nothing
    attempt sh -c "{ head -n 4; sleep 1; cat; } < $readings | ./run potential"
    expect 'a pipe that writes in pieces' 0 $answers nothing
    attempt ./run potential /dev/null
    expect 'an empty text' 0 /dev/null nothing
    echo 1608 > $made/one.out
    printf '1 200 500 60' > $text
    attempt ./run potential $text
    expect 'a last line that no line feed ends' 0 $made/one.out nothing
}

# ./run potential gives the plain C's text and status 1, and says what it should.
refused() { # WHAT PATTERN: of the text
    $made/plain_potential < $text > $made/potential.out
    attempt ./run potential $text
    expect "$1" 1 $made/potential.out something
    said "$1" "$2"
}

# The mistakes of examples/readings/, by every awk of this machine.
mistakes() {
    awks > $made/awk.list
    for file in examples/readings/*.txt; do
        name=${file%.txt}
        answer "$file"
        cmp $made/potential.out "$name.out" || wrong "$name.out is not what comes out"
        attempt ./run potential "$file"
        expect "$file" 1 "$name.out" "$name.said"
        attempt ./run potential < "$file"
        expect "$file on standard input" 1 "$name.out" "$name.said"
        while read -r awk; do
            explain_readings "$awk" "$name.out" < "$file" | cmp - "$name.said" || wrong "$file: explained otherwise by $awk"
        done < $made/awk.list
    done
}

store() {
    for file in examples/readings/*.txt; do
        $made/plain_potential < "$file" > "${file%.txt}.out"
        explain_readings awk "${file%.txt}.out" < "$file" > "${file%.txt}.said"
    done
}

# What is said of a line by itself, as printf takes it: every cause.
cause() { # LINE COLUMN PATTERN
    # shellcheck disable=SC2059
    printf "2 0 0\n$1\n" > $text
    refused "'$1'" "^line 2, column $2: .*$3"
    [ "$(wc -l < $made/got.said)" -eq "${4:-1}" ] || wrong "'$1': more is said than its line: $(cat $made/got.said)"
}

# shellcheck disable=SC2016 # what is shown stands in such quotes
causes() {
    cause '' 1 'no number stands on this line'
    cause '   ' 1 'no number stands on this line'
    cause '3 211 520 60' 1 'the first number is 3; it may be 1 for Turc or 2 for Jensen-Haise\.$'
    cause 1 1 'ends here with 1 number; Turc has 4, and the next would be the mean temperature: -600 to 600, in tenths of a degree Celsius\.$'
    cause '1 211 520' 7 'ends here with 3 numbers; Turc has 4, and the next would be the humidity: 0 to 100, in percent\.$'
    cause '2 211' 3 'ends here with 2 numbers; Jensen-Haise has 3, and the next would be the radiation: 0 to 1,000, in cal/cm2 a day\.$'
    cause '1 211 520 60 5 6' 14 '5 is too many: Turc has 4 numbers; the line has 6\.$'
    cause '2 211 520 60' 11 '60 is too many: Jensen-Haise has 3 numbers, and no humidity; the line has 4\.$'
    cause '1 21.1 520 60' 3 '`21.1`.* a decimal point .* It stands for the mean temperature: -600 to 600, in tenths of a degree Celsius\.$'
    cause '1 211 520 NA' 11 '`NA`.* letters .* It stands for the humidity: 0 to 100, in percent\.$'
    cause '2 211 520 NA' 11 '`NA`.* letters (no names, no notes, no mark for a missing value)\.$'
    cause 'Turc 211 5,2 60' 1 '`Turc`.* It stands for the estimate: 1 for Turc or 2 for Jensen-Haise\. 2 words of the line cannot be read; this is the first\.$'
    cause '1,211,520,60' 1 'a comma'
    cause '1 211 520 60\r' 11 '`60\\r`.* a carriage return .*Windows'
    cause '1\t211\t520\t60' 1 'a tab'
    cause '1 +211 520 60' 3 'a plus sign'
    cause '1 0211 520 60' 3 'a zero in front'
    cause '1 -0 520 60' 3 'minus zero'
    cause '1 1234567890 520 60' 3 '10 digits'
    cause '1 211 5\000 60' 7 '`5\\x00`.* no plain text'
    cause '1 601 520 60' 3 'the mean temperature is 601; it may be -600 to 600, in tenths of a degree Celsius\.$'
    cause '2 211 1001' 7 'the radiation is 1001; it may be 0 to 1,000, in cal/cm2 a day\.$'
    cause '  1 -601 -1 101' 5 'the mean .* Column 10: the radiation is -1; .* Column 13: the humidity is 101; it may be 0 to 100, in percent\.$'
    cause '1 -9999 520 60' 3 'the mean temperature is -9999' 2
    said 'a mark' '^There is no mark for a missing value'
    printf '1;211;520;60\n# in July\n' > $text
    refused 'a sign after another' '^line 2, column 1: `#` .* it has the sign `#`\. '
    printf '\357\273\2771 211 520 60\n' > $text
    refused 'a byte order mark' '^line 1, column 1: .*byte order mark'
}

# A wrong file does not flood the terminal, and of one too long only that is said.
floods() {
    for many in 20 21 22 365; do
        head -n $many examples/year/readings.txt | tr ' ' , > $text
        refused "$many lines with commas" '^line 20, column 1: '
        case $many in
        20) [ "$(wc -l < $made/got.said)" -eq 20 ] || wrong "of 20 lines more is said: $(cat $made/got.said)" ;;
        21) said '21 lines' '^1 more line is refused\.$' ;;
        *) said "$many lines" "^$((many - 20)) more lines are refused\\.\$" ;;
        esac
        [ "$(wc -l < $made/got.said)" -le 21 ] || wrong "$many lines with commas: more than 21 lines are said"
    done
    for many in 65536 65537; do
        many $many '\n'
        if [ $many -eq 65536 ]; then refused "$many line feeds" '^65516 more lines are refused\.$'
        else refused "$many line feeds" '^The text has more than 65,536 bytes, blanks counted: the first too many is at line 65537, column 1\.$'
        fi
    done
}

# An explanation that fails leaves the text and the status as they are.
unexplained() {
    mkdir -p $made/no-awk
    printf '#!/bin/sh\nexit 3\n' > $made/no-awk/awk
    chmod +x $made/no-awk/awk
    attempt env PATH="$PWD/$made/no-awk:$PATH" ./run potential examples/readings/station.txt
    expect 'an awk that fails' 1 examples/readings/station.out something
    attempt said_to_full_disk ./run potential examples/readings/station.txt
    expect 'no room on standard error' 1 examples/readings/station.out nothing
    attempt said_to_closed ./run potential examples/readings/station.txt
    expect 'standard error closed' 1 examples/readings/station.out nothing
}

neither() {
    attempt ./run potential $made/no-such-file
    expect 'a missing file' 2 /dev/null something
    said 'a missing file' 'no-such-file: no such file; usage: ./run potential \[FILE\]$'
    attempt ./run potential $text $text
    expect 'two files' 2 /dev/null something
    said 'two files' '^  *./run potential \[FILE\]$'
    for file in examples/year/readings.txt examples/readings/station.txt; do
        attempt full_disk ./run potential $file
        expect "$file to a full disk" 2 /dev/null something
        said "$file to a full disk" 'No space left on device'
        attempt closed ./run potential $file
        expect "$file to a closed output" 2 /dev/null something
    done
    attempt ./run potential <&-
    expect 'a closed input' 2 /dev/null something
    attempt ./run potential < /proc/self/mem # of this shell: its first byte cannot be read
    expect 'a read that fails' 2 /dev/null something
    said 'a read that fails' 'Input/output error'
    attempt env TMPDIR=$made/no-such-folder ./run potential $text
    expect 'no room to keep the text' 2 /dev/null something
    attempt env RATTLE_HOME=$made/no-such-folder ./run potential /dev/null
    expect 'a program that cannot be started, and no lines' 2 /dev/null something
}

# A disk that fills up under the program's answers, just at the end of one: what is left looks whole, and only the count tells, since the program hears of the
# failed write and ends as always. Four answers of 2 bytes, five of 16, ninety of 17 and 479 of 18 are 10,240 bytes, 20 times 512.
cut_short() {
    awk 'BEGIN { for (k = 1; k <= 700; k++) print (k <= 4 ? "2 0 0" : "") }' > $text
    attempt sh -c "trap '' XFSZ; ulimit -f 20; { ./run potential $text; echo \$? >&2; } | cat" # of a file, but not of a pipe
    [ "$(tail -n 1 $made/got.out)" = 'refused 11 at 578' ] || wrong "answers that are cut short: they end with $(tail -n 1 $made/got.out)"
    [ "$(tail -n 1 $made/got.said)" = 2 ] || wrong "answers that are cut short: status $(tail -n 1 $made/got.said), not 2"
    said 'answers that are cut short' '^potential: standard output: File too large$'
    said 'answers that are cut short' '^run: not every line is answered$'
}

# What the program itself says: of a folder, which ./run leaves to it, and run alone by the same loader.
program_itself() {
    attempt ./run potential examples
    expect 'a folder as the file' 2 /dev/null something
    said 'a folder as the file' '^potential: standard input: Is a directory$'
    attempt ./run potential < examples
    expect 'a folder as standard input' 2 /dev/null something
    attempt loaded crates/potential/out/potential < /proc/self/mem
    expect 'a read that fails in the program' 0 /dev/null something
    said 'a read that fails in the program' '^potential: standard input: Input/output error$'
    attempt full_disk loaded crates/potential/out/potential < examples/year/readings.txt
    said 'the program on a full disk' '^potential: standard output: No space left on device$'
}

# ---------------------------------------------------------------- README

# What README shows between ``` and ``` is typed, in a folder with the files that it shows by cat. There a file called `potential` stands in
# nobody's way.
shown() {
    folder=$made/shown
    rm -rf $folder
    mkdir $folder
    ln -s "$PWD/run" $folder/run
    awk '/^```/ { if (found) exit; block = ""; next } { block = block $0 "\n" } /^\$ cat readings$/ { found = 1 } END { printf "%s", block }' README.md > $folder/readme
    awk -v folder=$folder '/^\$ / { file = $2 == "cat" ? folder "/" $3 : ""; next } file != "" { print > file }' $folder/readme
    sed -n 's/^\$ //p' $folder/readme > $folder/commands
    [ "$(wc -l < $folder/commands)" -eq 4 ] || wrong 'README does not show four commands on a station'
    (cd $folder && while read -r command; do echo "\$ $command" && sh -c "$command" < /dev/null; done < commands) > $made/typed.out
    diff $folder/readme $made/typed.out || wrong 'README shows something else on a station'
    grep -qF "$(grep '^line 11, ' examples/readings/station.said)" README.md || wrong 'README shows another explanation than examples/readings/ has'
    echo 'not asked' > $folder/potential
    attempt sh -c "cd $folder && ./run potential < readings"
    expect 'a file called potential' 0 $folder/potential.out nothing
}

# The wrong units of README's example, each as it is said there.
# shellcheck disable=SC2016 # README's own quotes
wrong_units() {
    for answer in '1 200 500 60:which is 1608' '1 200 21 60:in MJ.m² R is 21, and the answer 207' '1 200 242 60:it is 242, and 853' '1 20 500 60:`1 20 500 60`, and 331'; do
        answer_to "${answer%%:*}"
        [ "$(cat $made/potential.out)" = "${answer##* }" ] || wrong "README: ${answer%%:*} is $(cat $made/potential.out)"
        grep -q "${answer#*:}" README.md || wrong "README does not say: ${answer#*:}"
    done
}

plain plain_potential
[ "$mode" != write ] || store
./run potential examples/year/readings.txt > $made/first.out # proves and builds the program, where that is to be done
: > $made/potential.all
year
lines
ends
limits
ranges
edges
lengths
random
accepted
mistakes
causes
floods
unexplained
neither
cut_short
program_itself
shown
wrong_units
echo "$compared runs of potential have the text and the words of the plain C, $(grep -c '^[^ ]' $made/potential.all) answers; \
$tried runs have the status and the words that they should; $explained refused lines of random texts are explained"
