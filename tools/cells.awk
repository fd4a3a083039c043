# The cells of a grid of width by height, and how they are said, for the scripts that explain refusals. Cells count from 0, rows and columns from 1.

BEGIN { MOST_CELLS = 4096 }

function cell_named(cell) {
    return "cell " cell " (row " row(cell) " of " height " from the top, column " col(cell) " of " width " from the left)"
}

function row(cell) { return int(cell / width) + 1 }

function col(cell) { return cell % width + 1 }

function capital(text) { return toupper(substr(text, 1, 1)) substr(text, 2) }

function is_grid() { return width >= 1 && height >= 1 && width * height <= MOST_CELLS }

# What is wrong with a size that is none.
function say_size() {
    if (width < 1 || height < 1) print "Each is at least 1, and the cells are " commas(MOST_CELLS) " at most."
    else print width " x " height (width * height < 1e15 ? sprintf(" = %.0f", width * height) : "") " cells, and " commas(MOST_CELLS) \
        " are the most: split the area along its divides."
}
