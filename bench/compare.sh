#!/bin/sh
# Compares the proved library with document 01, as document 02 amends it, written again in C, plain and fast.
#
#     ./compare.sh [CASES [TEXTS [SEED]]]
#
# Builds all of them for this machine, checks the papers' figures and the worked example, and runs the implementations side by
# side on random and damaged cases: every returned number, store, result cell, total, memory, serial and frost index, and
# why cells got their figures, which the fast C does not say. Nor has it the estimates from radiation: those of the plain C and of
# the library are held to binary64 worked out in integers, of readings at every limit, beside it and of odd bits. Nor Arc grids: what
# the two read and write, in many forms and damaged, is held to what the damage foretells, every lent cell and byte of it. Nor lists of
# days in one call: every sum and total of the library's is held to single days of the plain C. A difference
# prints its seed and fails. It proves the library first where no check has kept its proof in out/, which takes
# minutes (what `rt ci` proves it keeps elsewhere); the rest takes seconds.
#
# PROVED=no leaves the proved library out. Another implementation of balance.h, with the prefix other_, stands in for it by
#     THIRD=other THIRD_TEXT=other THIRD_OBJECTS="path/other.o ..." ./compare.sh
# (THIRD and THIRD_TEXT are independent of each other.) Everything built goes to build/.
set -eu
cd "$(dirname "$0")"
mkdir -p build
. ./files.sh

CC=${CC:-cc}
SHIPPED=no
if [ "${PROVED:-yes}" = yes ] && [ -z "${THIRD:-}" ]; then
    for crate in clib cperiod; do
        ./native.sh $crate build/lib$crate.a
    done
    THIRD=recharge THIRD_TEXT=recharge THIRD_OBJECTS='build/libclib.a build/libcperiod.a' SHIPPED=yes
    # the header for C says the same as balance.h
    $CC $WARN -fsyntax-only same_header.c
fi
DEFINE="${THIRD:+-DTHIRD=$THIRD} ${THIRD_TEXT:+-DTHIRD_TEXT=$THIRD_TEXT}"
OBJECTS=${THIRD_OBJECTS:-}

# The table in retention.h must be the one that its maker writes.
$CC $WARN -O2 make_retention.c -o build/make_retention
build/make_retention | cmp - retention.h

for file in $PLAIN plain_text $CASES $FUZZ $FIGURES; do
    $CC $WARN -O2 -c $file.c -o build/$file.o
done
for file in fast fast_text; do
    $CC $WARN -O3 -c $file.c -o build/$file.o
done
# shellcheck disable=SC2086
$CC $WARN -O2 $DEFINE -c table.c -o build/table.o

objects() { # NAME..
    printf 'build/%s.o ' "$@"
}
# shellcheck disable=SC2086
LIBRARY="$(objects $PLAIN plain_text fast fast_text table) $OBJECTS"
# shellcheck disable=SC2046,SC2086
$CC $(objects $FUZZ $CASES) $LIBRARY -o build/fuzz
# shellcheck disable=SC2046,SC2086
$CC $(objects $FIGURES) $LIBRARY -o build/figures
# shellcheck disable=SC2046,SC2086
$CC $WARN -O2 plain_balance.c $(objects $PLAIN plain_text) -o build/plain_balance

# The figures and the worked example, the latter through the program as well.
build/figures > build/figures.out || { grep -v '^ok' build/figures.out; exit 1; }
tail -n 1 build/figures.out
printf '%s\n' '2 1 120 270' 1 \
    '3 0 75 75 75 75 6000 6000 6000 6000 900 0 250 250 250 250' \
    '1 3 2 200' '0 3 2 200' '1 150 30900 600 700 800 2000' '2 151 0 600 700 800 2000' > build/example.txt
build/plain_balance < build/example.txt > build/example.out
printf '%s\n' '1 61800 1800 4000 12000 44000 0 100000' '2 0 0 3928 0 0 0 96072' 'end 2' |
    cmp - build/example.out

# crates/example runs the same two days, and once more the second serial.
echo '2 152 0 600 700 800 2000' >> build/example.txt
build/plain_balance < build/example.txt | cmp - ../crates/example/stdout

# The random cases under the checkers of memory and of undefined behaviour, fewer of them. A third
# implementation is left out of it.
# shellcheck disable=SC2046,SC2086
$CC $WARN -O1 -g -fsanitize=address,undefined -fno-sanitize-recover=all \
    $(printf '%s.c ' $FUZZ $CASES $PLAIN plain_text fast fast_text table) -o build/fuzz_checked
build/fuzz_checked 2000 2000 900000001 > build/checked.out || { cat build/checked.out; exit 1; }
tail -n 1 build/checked.out

build/fuzz "${1:-50000}" "${2:-50000}" "${3:-1}"

# On another processor the library was compiled again for it: there the archive that is shipped, for x86-64, is compared as well.
if [ "$SHIPPED" = yes ] && [ "$(uname -m)" != x86_64 ]; then ./shipped.sh 1000 1000; fi
