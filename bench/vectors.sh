#!/bin/sh
# The vectors of crates/vectors and the outputs of examples/, worked out by the plain C.
#
#     bench/vectors.sh          checks that what is stored is what comes out; writes nothing outside bench/build/
#     bench/vectors.sh write    stores it
set -eu
cd "$(dirname "$0")/.."
mkdir -p bench/build
. bench/files.sh

CC=${CC:-cc}
made=bench/build

# Keeps MADE as STORED, or holds STORED to it.
keep() {
    if [ "$mode" = write ]; then
        mkdir -p "$(dirname "$2")"
        cp "$1" "$2"
    else
        cmp "$1" "$2"
    fi
}
mode=${1:-check}

# shellcheck disable=SC2046,SC2086
(cd bench && $CC $WARN -O2 $(printf '%s.c ' $VECTORS $CASES $PLAIN plain_text) -o build/vectors &&
    $CC $WARN -O2 $(printf '%s.c ' plain_balance $PLAIN plain_text) -o build/plain_balance &&
    $CC $WARN -O2 $(printf '%s.c ' plain_potential $PLAIN plain_text) -o build/plain_potential)

examples/year/make.sh > $made/year.txt
keep $made/year.txt examples/year/year.txt
for example in ridge year/year; do
    name=$(basename $example)
    $made/plain_balance < examples/$example.txt > "$made/$name.out"
    keep "$made/$name.out" examples/$example.out
done
# what a station read on the days of that year, and the potential evapotranspiration by it
examples/year/readings.sh > $made/readings.txt
keep $made/readings.txt examples/year/readings.txt
$made/plain_potential < examples/year/readings.txt > $made/potential.out
keep $made/potential.out examples/year/potential.out
# and what the program `potential` is run on
$made/plain_potential < crates/potential/stdin > $made/potential.stdout
keep $made/potential.stdout crates/potential/stdout

$made/vectors $made/vectors.pack $made/vectors.list ridge examples/ridge.txt year examples/year/year.txt
keep $made/vectors.pack crates/vectors/data/vectors
keep $made/vectors.list docs/vectors.txt
count=$(wc -l < docs/vectors.txt)
printf 'a short buffer is left alone\n%d vectors, 0 differ\n' "$count" > $made/vectors.stdout
keep $made/vectors.stdout crates/vectors/stdout
printf '%d vectors, two examples and a year of readings are as the plain C has them\n' "$count"
