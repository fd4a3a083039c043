/* Valid grids, and the facts of a grid. */
#include "cases_parts.h"
#include "text.h"

#include <stdlib.h>
#include <string.h>

/* ---------------------------------------------------------------- facts of a grid */

const uint32_t *case_entry(const struct grid_case *g, uint32_t cell)
{
    for (size_t i = 0; i < g->covers_len; i += BALANCE_ENTRY)
        if (g->covers[i] == g->cover[cell])
            return g->covers + i;
    abort(); /* only asked of cells whose code is in the table */
}

bool case_is_water(const struct grid_case *g, uint32_t cell)
{
    return case_entry(g, cell)[E_WATER] == 1;
}

uint32_t case_capacity(const struct grid_case *g, uint32_t cell)
{
    if (case_is_water(g, cell))
        return 0;
    return g->water[cell] * case_entry(g, cell)[E_ROOTS + g->group[cell] - 1];
}

const struct step compass[8] = {
    {1, 1, 0}, {2, 1, 1}, {4, 0, 1}, {8, -1, 1}, {16, -1, 0}, {32, -1, -1}, {64, 0, -1},
    {128, 1, -1},
};

int32_t case_next(const struct grid_case *g, uint32_t cell)
{
    int column = (int)(cell % g->width), row = (int)(cell / g->width);

    if (case_is_water(g, cell))
        return CASE_STAYS;
    for (int i = 0; i < 8; i++) {
        if (compass[i].number != g->direction[cell])
            continue;
        column += compass[i].right;
        row += compass[i].down;
        if (column < 0 || row < 0 || column >= (int)g->width || row >= (int)g->height)
            return CASE_LEAVES;
        return row * (int)g->width + column;
    }
    return CASE_STAYS;
}

uint32_t closed_number(void)
{
    static const uint32_t closed[] = {0,   3,   5,   6,   12,  24,    48,    96,     127,    129,
                                      192, 254, 255, 256, 257, 260,   264,   272,    320,    384,
                                      512, 513, 516, 640, 769, 65537, 65540, 131072, 999999999};
    return ONE_OF(closed);
}

/* ---------------------------------------------------------------- grids */

static void make_covers(struct grid_case *g)
{
    uint32_t entries = chance(30) ? 1 : chance(10) ? 64 : (uint32_t)between(1, 12);
    uint32_t waters = chance(40) ? 0 : (uint32_t)between(1, 60); /* percent of open water */
    uint32_t spare = 255 - entries;                              /* codes that may be left out */
    uint32_t code = 0;
    bool stony = chance(25); /* a table of capacities near 0 */

    for (uint32_t i = 0; i < entries; i++) {
        uint32_t *e = g->covers + i * BALANCE_ENTRY;
        uint32_t gap = spare == 0 || chance(40) ? 0 : (uint32_t)below(spare / 2 + 1);
        if (i == 0 && chance(10))
            gap = spare; /* the highest codes */
        spare -= gap;
        code += 1 + gap;
        e[E_CODE] = code;
        e[E_WATER] = chance(waters);
        for (int k = 0; k < 4; k++) {
            e[E_CURVE + k] = edgy32(30, 100);
            e[E_RECHARGE + k] = edgy32(0, 100000);
            e[E_ROOTS + k] = stony ? (uint32_t)between(0, 5) : edgy32(0, 1000);
        }
        e[E_GROWING] = edgy32(0, 10000);
        e[E_DORMANT] = edgy32(0, 10000);
    }
    g->covers_len = entries * BALANCE_ENTRY;
}

static void make_size(struct grid_case *g)
{
    uint32_t kind = (uint32_t)below(200);

    if (kind < 1) { /* the largest, of every shape */
        uint32_t bits = (uint32_t)between(0, 12);
        g->width = 1u << bits;
        g->height = 4096 / g->width;
    } else if (kind < 4) { /* large */
        g->width = (uint32_t)between(1, 200);
        g->height = (uint32_t)between(1, 4096 / g->width);
    } else if (kind < 20) {
        g->width = (uint32_t)between(1, 24);
        g->height = (uint32_t)between(1, 24);
    } else if (kind < 40) { /* a line */
        g->width = chance(50) ? 1 : (uint32_t)between(1, 40);
        g->height = g->width == 1 ? (uint32_t)between(1, 40) : 1;
    } else if (kind < 50) {
        g->width = g->height = 1;
    } else {
        g->width = (uint32_t)between(1, 8);
        g->height = (uint32_t)between(1, 8);
    }
    g->cells = g->width * g->height;
}

/* A chain through all cells, row by row, every other row backwards; from the top down or from
 * the bottom up. */
static void flow_serpentine(struct grid_case *g)
{
    bool up = chance(50);

    for (uint32_t row = 0; row < g->height; row++) {
        bool leftwards = ((up ? g->height - 1 - row : row) & 1) != 0;
        for (uint32_t column = 0; column < g->width; column++) {
            bool turns = leftwards ? column == 0 : column == g->width - 1;
            g->direction[row * g->width + column] = turns ? (up ? 64 : 4) : leftwards ? 16 : 1;
        }
    }
}

/* A chain that winds inwards to a closed basin. */
static void flow_spiral(struct grid_case *g)
{
    int left = 0, top = 0, right = (int)g->width - 1, bottom = (int)g->height - 1;
    int column = 0, row = 0, w = (int)g->width;

    for (uint32_t i = 0; i < g->cells; i++)
        g->direction[i] = 0;
    while (left <= right && top <= bottom) {
        for (; column < right; column++)
            g->direction[row * w + column] = 1;
        top++;
        if (top > bottom)
            break;
        for (; row < bottom; row++)
            g->direction[row * w + column] = 4;
        right--;
        if (left > right)
            break;
        for (; column > left; column--)
            g->direction[row * w + column] = 16;
        bottom--;
        if (top > bottom)
            break;
        for (; row > top; row--)
            g->direction[row * w + column] = 64;
        left++;
        if (left > right)
            break;
        g->direction[row * w + column] = 1;
        column++;
    }
}

/* Downhill over random heights: any lower neighbour will do; at the edge, over it sometimes. */
static void flow_downhill(struct grid_case *g)
{
    static uint32_t height[CASE_ROOM];

    for (uint32_t i = 0; i < g->cells; i++)
        height[i] = (uint32_t)below(1u << 30);
    for (uint32_t i = 0; i < g->cells; i++) {
        g->direction[i] = closed_number();
        for (int tries = 0; tries < 6; tries++) {
            uint32_t before = g->direction[i];
            g->direction[i] = compass[below(8)].number;
            int32_t next = case_next(g, i);
            if (next == CASE_LEAVES || (next >= 0 && height[next] < height[i]))
                break;
            g->direction[i] = before;
        }
    }
}

/* Closes one cell of each ring. */
static void break_rings(struct grid_case *g)
{
    static uint32_t walk[CASE_ROOM]; /* the walk that came past here, 1 for the first */

    memset(walk, 0, g->cells * sizeof walk[0]);
    for (uint32_t i = 0; i < g->cells; i++) {
        int32_t at = (int32_t)i, next;
        while (at >= 0 && walk[at] == 0) {
            walk[at] = i + 1;
            next = case_next(g, (uint32_t)at);
            if (next >= 0 && walk[next] == i + 1) {
                g->direction[at] = closed_number();
                break;
            }
            at = next;
        }
    }
}

static void make_flow(struct grid_case *g)
{
    uint32_t one_way = compass[below(8)].number;

    switch (below(8)) {
    case 0:
    case 1: flow_serpentine(g); break;
    case 2: flow_spiral(g); break;
    case 3:
    case 4: flow_downhill(g); break;
    case 5: /* all one way */
        for (uint32_t i = 0; i < g->cells; i++)
            g->direction[i] = one_way;
        break;
    case 6: /* anything, with many open ends */
        for (uint32_t i = 0; i < g->cells; i++)
            g->direction[i] = chance(30) ? closed_number() : compass[below(8)].number;
        break;
    default:
        for (uint32_t i = 0; i < g->cells; i++)
            g->direction[i] = compass[below(8)].number;
        break;
    }
    if (chance(20)) /* some closed cells in mid-stream */
        for (uint32_t i = 0; i < g->cells; i++)
            if (chance(5))
                g->direction[i] = closed_number();
    break_rings(g);
}

void make_grid(struct grid_case *g)
{
    make_size(g);
    make_covers(g);
    uint32_t entries = (uint32_t)(g->covers_len / BALANCE_ENTRY);
    uint32_t favourite = (uint32_t)below(entries); /* so that long chains are not all lakes */
    bool uniform = chance(30);

    for (uint32_t i = 0; i < g->cells; i++) {
        uint32_t entry = uniform || chance(60) ? favourite : (uint32_t)below(entries);
        g->cover[i] = g->covers[entry * BALANCE_ENTRY];
        g->group[i] = (uint32_t)between(1, 4);
        g->water[i] = chance(80) ? edgy32(0, 600) : (uint32_t)between(0, 3);
    }
    make_flow(g);
    g->first = edgy32(1, 366);
    g->last = edgy32(g->first, 366);
    g->first_setpoint = TEXT_FIRST_SETPOINT;
    g->second_setpoint = TEXT_SECOND_SETPOINT;
    g->direction_len = g->cover_len = g->group_len = g->water_len = g->cells;
}
