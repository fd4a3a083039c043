#!/bin/sh
# The grid vectors (M-101): Arc ASCII grids as other tools export them, bench/grids/NAME.asc, each with its answer, NAME.out.
#
#     bench/grids.sh          checks that the answers are those of the plain C and of the proved library; writes nothing outside bench/build/
#     bench/grids.sh write    stores the plain C's: read them before you keep them
#
# An answer is the grid's one written form, or the line `refused 12 at P`. Both come out of examples/c/grid.c: once over the plain C, whose calls
# stand in for the library's, and once over the archive that native.sh makes. A form read once more has to give itself. docs/VECTORS.md has to list
# every vector with what comes of it. PROVED=no leaves the proved library out.
set -eu
cd "$(dirname "$0")/.."
. bench/tables.sh
mode=${1:-check}

wrong() { # WORDS
    echo "bench/grids.sh: wrong: $1"
    exit 1
}

built() { # PROGRAM LIBRARY [ARGUMENT..]: grid.c over a library
    program=$1 library=$2
    shift 2
    # shellcheck disable=SC2086
    ${CC:-cc} $WARN -O2 -Iinclude "$@" examples/c/grid.c "$library" -o "$made/$program"
}

# Has a program answer a grid in $made/grid.out: status 0 with a form, 1 with a refusal.
answered() { # PROGRAM GRID
    status=0
    "$made/$1" <"$2" >$made/grid.out || status=$?
    case $status:$(cat $made/grid.out) in
    0:'ncols '* | 1:'refused 12 at '*) ;;
    *) wrong "$1 < $2: status $status, and the answer begins: $(head -n 1 $made/grid.out)" ;;
    esac
}

# Each vector by a program, held to its answer; a form has to give itself.
all() { # PROGRAM
    for grid in bench/grids/*.asc; do
        out=${grid%.asc}.out
        answered "$1" "$grid"
        cmp $made/grid.out "$out" || wrong "$1 < $grid"
        [ $status -ne 0 ] || { answered "$1" "$out" && cmp $made/grid.out "$out"; } || wrong "$1 < $out: its own form gives another"
    done
}

# Every vector with what comes of it, as the page lists them in its own order.
listed() {
    for out in bench/grids/*.out; do
        [ -f "${out%.out}.asc" ] || wrong "$out is an answer to nothing"
        answer=$(head -n 1 "$out")
        case $answer in refused*) ;; *) answer=taken ;; esac
        echo "$(basename "$out" .out) $answer"
    done | LC_ALL=C sort >$made/grids.list
    sed -n '/^## Arc grids/,/^## /s/^| `\([^`]*\)` |.* | \([^|]*\) |$/\1 \2/p' docs/VECTORS.md | LC_ALL=C sort | cmp - $made/grids.list ||
        wrong 'docs/VECTORS.md lists other vectors or other answers'
}

built plain_grid bench/plain_grids.c -Drecharge_grid_read=plain_grid_read -Drecharge_grid_write=plain_grid_write -Drecharge_grid_inches=plain_grid_inches
if [ "$mode" = write ]; then
    for grid in bench/grids/*.asc; do
        answered plain_grid "$grid"
        cp $made/grid.out "${grid%.asc}.out"
    done
fi
all plain_grid
by='the plain C has them'
if [ "${PROVED:-yes}" = yes ]; then
    bench/native.sh clib $made/libclib.a
    built proved_grid $made/libclib.a
    all proved_grid
    by='the plain C and the proved library have them'
fi
listed
echo "$(grep -c 'taken$' $made/grids.list) grids are taken and $(grep -c ' refused ' $made/grids.list) refused, as $by"
