#!/bin/sh
# Writes the valley of examples/year as a mapping desk has it, the input of the program `setup`: four Arc ASCII grids, in the form in which GDAL
# exports them, the cover table with the season before it, and the weather.
#
#     examples/valley/make.sh [FOLDER]    into FOLDER, or into its own
#
# Every number is that of year.txt but for the place of the map, which is made as its ground is: cells of 30 metres near Madison, the corner in metres of UTM
# zone 16.
set -eu
here=$(dirname "$0")
awk -v folder="${1:-$here}" '
function grid(name, part,    r, c, file) {
    file = folder "/" name ".asc"
    printf "ncols        %d\nnrows        %d\n", columns, rows > file
    print "xllcorner    304785.000000000000\nyllcorner    4771440.000000000000\ncellsize     30.000000000000\nNODATA_value -9999" > file
    for (r = 0; r < rows; r++) {
        for (c = 0; c < columns; c++) printf " %d", number[r * columns + c, part] > file
        print "" > file
    }
}
BEGIN { covers = folder "/covers.txt"; weather = folder "/weather.txt"; cells = 0 }
NR == 1 { columns = $1; rows = $2; print $3, $4 > covers; next }
NF == 1 || NF == 16 { print > covers }
NF == 4 { for (part = 1; part <= 4; part++) number[cells, part] = $part; cells++ }
NF == 7 { print > weather }
END {
    grid("direction", 1)
    grid("cover", 2)
    grid("group", 3)
    grid("water", 4)
}' "$here/../year/year.txt"
