#!/bin/sh
# Builds the library for C and the three examples over it, and tries them. The worked example prints what worked.out has. What each cell got of the
# ridge is held to ridge.cells; of the year, all cells together, to the recharge that `balance` printed (examples/year/year.out); a refused text
# gives no cell; an Arc grid comes out in its one form, or its refusal does (bench/grids.sh tries many); and a read or a write that fails is said.
set -eu
cd "$(dirname "$0")"
work=$(mktemp -d)
trap 'rm -rf "$work"' EXIT
../../bench/native.sh clib "$work/libclib.a"
for program in worked cells grid; do
    ${CC:-cc} -std=c11 -Wall -Wextra -Wconversion -O2 -I../../include $program.c "$work/libclib.a" -o "$work/$program"
done
# the header for C++ too, where there is a compiler
if command -v "${CXX:-c++}" >/dev/null; then ${CXX:-c++} -std=c++11 -Wall -Wextra -fsyntax-only -x c++ ../../include/recharge.h; fi

"$work/worked" >"$work/worked.out"
cmp worked.out "$work/worked.out"
cat worked.out

"$work/cells" <../ridge.txt >"$work/ridge.cells"
cmp ridge.cells "$work/ridge.cells"
"$work/cells" <../year/year.txt >"$work/year.cells"
awk '{ for (i = 1; i <= NF; i++) sum += $i } END { printf "%.4f %d cells\n", sum, NR * NF }' "$work/year.cells" >"$work/cells.sum"
awk 'NF == 8 { sum += $5 } END { printf "%.4f 768 cells\n", sum / 10000 }' ../year/year.out | cmp - "$work/cells.sum"
if echo '1 1' | "$work/cells" >"$work/none" 2>"$work/why"; then echo 'run.sh: a refused text was taken' >&2; exit 1; fi
[ ! -s "$work/none" ] && [ "$(cat "$work/why")" = 'cells: refused 11 at 2' ]
printf '%s ' NCOLS 3 NROWS 2 XLLCORNER -93.25 YLLCORNER 44 CELLSIZE 30 NODATA_VALUE -9999 >"$work/head"
printf '%s\n' 'ncols 3' 'nrows 2' 'xllcorner -93.25' 'yllcorner 44' 'cellsize 30' 'nodata_value -9999' '1 1 4' '64 16 0' >"$work/form"
{ cat "$work/head" && echo 1 1 4 64 16 0; } | "$work/grid" | cmp "$work/form" -
"$work/grid" <"$work/form" | cmp "$work/form" -
status=0
{ cat "$work/head" && echo 1 1 4 64 -9999 0; } | "$work/grid" >"$work/none" || status=$?
[ $status -eq 1 ] && [ "$(cat "$work/none")" = 'refused 12 at 4' ]
for program in worked cells grid; do
    status=0
    "$work/$program" <../ridge.txt >/dev/full 2>"$work/why" || status=$?
    [ $status -eq 2 ] && grep -q "^$program: standard output: " "$work/why"
done
for program in cells grid; do
    status=0
    "$work/$program" <.. >"$work/none" 2>"$work/why" || status=$?
    [ $status -eq 2 ] && [ ! -s "$work/none" ] && grep -q "^$program: standard input: " "$work/why"
done
echo 'cells.c: each cell of the ridge, all cells of the year, a refused text, a read and a write that fail'
echo 'grid.c: a grid in its one form, that form again, a no-data cell, a read and a write that fail'
