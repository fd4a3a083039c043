/* The vectors on flow over the grid: small and largest grids, rings. */
#include "vectors.h"

#include <stdio.h>

/* Three days: a cloudburst, a dry one, and rain on wet ground. */
static void put_three_days(void)
{
    put("1 150 400000 600 700 800 2000\n2 151 0 600 700 800 2000\n3 152 50000 600 700 800 2000\n");
}

/* ---------------------------------------------------------------- small grids */

/* A grid of one row of directions, each cell a meadow of the group 1 to 4 in turn. */
static void row(const char *name, const char *ends, const char *reason, int width, int height, const int *direction)
{
    put("%d %d 120 270\n", width, height);
    put_three_covers();
    for (int i = 0; i < width * height; i++)
        put("%d 2 %d %d\n", direction[i], i % 4 + 1, 100 + i);
    put_three_days();
    vector(name, ends, reason);
}

static void single_cells(void)
{
    static const int ways[] = {0, 1, 2, 4, 8, 16, 32, 64, 128, 129};
    char name[40];

    for (size_t i = 0; i < sizeof ways / sizeof ways[0]; i++) {
        snprintf(name, sizeof name, "single cell, direction %d", ways[i]);
        row(name, "end 3", i == 0 || i == 9 ? "a closed depression" : "every way leads off the grid", 1, 1, &ways[i]);
    }
    put("1 1 1 366\n"), put_three_covers(), put("1 3 1 600\n"), put_three_days();
    vector("single cell, open water", "end 3", "all that falls is gone, nothing is stored");
    put("1 1 1 366\n"), put_three_covers(), put("1 1 1 600\n"), put_three_days();
    vector("single cell, capacity 0", "end 3", "rule 8's loss is 0");
}

static void small_grids(void)
{
    static const int inward[] = {2, 4, 8, 1, 0, 16, 128, 64, 32};
    static const int outward[] = {32, 64, 128, 16, 1, 1, 8, 4, 2};
    static const int upslope_below[] = {0, 64, 64, 64, 64, 64};
    static const int wraps[] = {1, 1, 1, 1, 1, 1};
    static const int wraps_left[] = {16, 16, 16, 16, 16, 16};
    static const int diagonal[] = {2, 0, 0, 0, 2, 0, 0, 0, 2};
    static const int anti_diagonal[] = {0, 0, 8, 0, 8, 0, 8, 0, 0};
    static const int confluence[] = {1, 4, 16, 1, 4, 16, 1, 4, 16};

    row("all eight directions inward", "end 3", "a closed depression in the middle takes all", 3, 3, inward);
    row("all eight directions outward", "end 3", "each edge and corner leaves", 3, 3, outward);
    row("upslope cells below", "end 3", "cells visited by row would bring water a day late", 1, 6, upslope_below);
    row("right over the edge", "end 3", "leaves and does not wrap to the next row", 2, 3, wraps);
    row("left over the edge", "end 3", "leaves and does not wrap to the row before", 2, 3, wraps_left);
    row("lower right", "end 3", "along the diagonal", 3, 3, diagonal);
    row("lower left", "end 3", "along the other diagonal", 3, 3, anti_diagonal);
    row("three streams meet", "end 3", "inflow of two sides and from above", 3, 3, confluence);
}

/* Ridge, lake, valley: the lake passes nothing on. */
static void lakes(void)
{
    put("5 1 120 270\n"), put_three_covers();
    put("1 2 1 200\n1 2 2 200\n1 3 1 0\n1 2 3 200\n1 2 4 200\n");
    put_three_days();
    vector("open water in a stream", "end 3", "its inflow is gone, the cell behind it gets none");
    put("3 1 120 270\n"), put_three_covers();
    put("1 2 1 200\n16 3 1 0\n16 2 4 200\n");
    put_three_days();
    vector("open water on what would be a ring", "end 3", "an open-water cell points nowhere whatever its byte");
    put("4 1 120 270\n"), put_three_covers();
    put("1 2 1 200\n0 2 2 200\n1 2 3 200\n1 2 4 200\n");
    put_three_days();
    vector("closed depression in a stream", "end 3", "its outflow is 0, all infiltrates or is rejected");
    put("3 1 120 270\n"), put_three_covers();
    put("1 3 1 0\n1 3 2 0\n1 3 3 0\n");
    put("1 20 30000 -300 -200 -100 2000\n2 21 0 300 310 320 0\n");
    vector("a lake in frost", "end 2", "what falls on it is gone that day, no snow lies on it");
}

/* ---------------------------------------------------------------- rings */

static void rings(void)
{
    static const int four[] = {0, 0, 0, 0, 0, 0, 1, 4, 0, 0, 64, 16, 0, 0, 0, 0};
    static const int tail[] = {4, 0, 0, 0, 1, 1, 4, 0, 0, 64, 16, 0, 0, 0, 0, 0};
    static const int lowest_last[] = {1, 4, 16, 0, 0, 2, 0, 0, 0, 0, 32, 0, 0, 0, 0, 0};
    static const int two[] = {0, 1, 16, 0, 0, 0, 0, 0, 0, 0, 0, 0, 0, 0, 1, 16};
    static const int diagonals[] = {0, 0, 2, 0, 0, 128, 0, 8, 0, 0, 32, 0, 0, 0, 0, 0};
    static const int pair_below[] = {1, 1, 1, 1, 4, 0, 64, 0};

    row("ring of four", "refused 5 at 6", "its lowest cell stands inside the grid", 4, 4, four);
    row("ring with a tail", "refused 5 at 5", "cells 0 and 4 lead into it and are not on it", 4, 4, tail);
    row("ring of two at a diagonal", "refused 5 at 5", "found behind cells that are not on it", 4, 4, lowest_last);
    row("two rings", "refused 5 at 1", "the lower one is named", 4, 4, two);
    row("ring by diagonals", "refused 5 at 2", "four cells in a rhombus", 4, 4, diagonals);
    row("ring of two below", "refused 5 at 4", "down and up again, in the last rows", 2, 4, pair_below);
}

/* A ring along a frame: the cells of the rows top..bottom and columns left..right, clockwise. */
static int frame(int r, int c, int top, int bottom, int left, int right)
{
    if (r < top || r > bottom || c < left || c > right)
        return 4; /* down, at last off the grid or into the frame */
    if (r == top)
        return c < right ? 1 : 4;
    if (c == right)
        return r < bottom ? 4 : 16;
    if (r == bottom)
        return c > left ? 16 : 64;
    return c == left ? 64 : 0;
}

static void frames(void)
{
    put("12 12 120 270\n"), put_three_covers();
    for (int i = 0; i < 144; i++)
        put("%d 2 1 200\n", frame(i / 12, i % 12, 3, 9, 2, 10));
    put_three_days();
    vector("ring of 28 cells", "refused 5 at 38", "row 3, column 2 of 12; the rows above lead into it");
    put("12 12 120 270\n"), put_three_covers();
    for (int i = 0; i < 144; i++)
        put("%d %d 1 200\n", frame(i / 12, i % 12, 3, 9, 2, 10), i == 9 * 12 + 5 ? 3 : 2);
    put_three_days();
    vector("ring of 28 cells cut by a pond", "end 3", "open water breaks it");
}

/* ---------------------------------------------------------------- the largest grids */

/* All 4,096 cells in a row or a column, all one way. */
static void line(const char *name, int width, int height, int direction)
{
    put("%d %d 120 270\n", width, height), put_three_covers();
    for (int i = 0; i < 4096; i++)
        put("%d %d %d %d\n", direction, i % 3 == 0 ? 1 : 2, i % 4 + 1, i % 100);
    put_three_days();
    vector(name, "end 3", "every cell drains through all the others");
}

/* The step from cell i of a 64 x 64 serpentine: even rows right, odd rows left, then down. */
static int serpentine(int i)
{
    int r = i / 64, c = i % 64;

    if (r % 2 == 0)
        return c < 63 ? 1 : 4;
    return c > 0 ? 16 : 4;
}

/* The same path walked backwards, up to cell 0 and off the grid there. */
static int serpentine_back(int i)
{
    int r = i / 64, c = i % 64;

    if (i == 0)
        return 64;
    if (r % 2 == 0)
        return c > 0 ? 16 : 64;
    return c < 63 ? 1 : 64;
}

/* All 4,096 cells in one ring: row 0 right, the odd rows left and the even ones right between
 * columns 1 and 63, column 0 back up. */
static int long_ring(int i)
{
    int r = i / 64, c = i % 64;

    if (c == 0 && r > 0)
        return 64;
    if (r % 2 == 0)
        return c < 63 ? 1 : 4;
    return c > 1 || r == 63 ? 16 : 4;
}

static void square(const char *name, const char *ends, const char *reason, int (*direction)(int))
{
    put("64 64 120 270\n"), put_three_covers();
    for (int i = 0; i < 4096; i++)
        put("%d %d %d %d\n", direction(i), i % 5 == 0 ? 1 : 2, i % 4 + 1, i % 100);
    put_three_days();
    vector(name, ends, reason);
}

/* Every cell passes all on towards the last one, whose curve number is 99: water of 1.6 thousand
 * million units, so that the square in rule 6 passes 64 bits. */
static void largest_outflow(void)
{
    put("4096 1 120 270\n2\n");
    put_cover(1, 0, 100, 0, 0, 0, 0), put_cover(2, 0, 99, 100000, 0, 0, 0);
    for (int i = 0; i < 4096; i++)
        put("1 %d 1 0\n", i == 4095 ? 2 : 1);
    put("1 150 400000 600 700 800 0\n2 151 400000 600 700 800 0\n");
    vector("the largest outflow", "end 2", "a squared passes 64 bits in rule 6");
}

void grid_cases(void)
{
    single_cells();
    small_grids();
    lakes();
    rings();
    frames();
    line("4,096 cells to the right", 4096, 1, 1);
    line("4,096 cells to the left", 4096, 1, 16);
    line("4,096 cells down", 1, 4096, 4);
    line("4,096 cells up", 1, 4096, 64);
    square("serpentine of 4,096 cells", "end 3", "one path through all cells", serpentine);
    square("serpentine back to cell 0", "end 3", "one path, every row visited last first", serpentine_back);
    square("ring of 4,096 cells", "refused 5 at 0", "one ring through all cells", long_ring);
    largest_outflow();
}
