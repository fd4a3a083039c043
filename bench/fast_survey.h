/* fast.c's tests of the setup: the cover index, each cell's plot and next cell, the flow order.
 * Static functions, for fast.c alone. */
#ifndef FAST_SURVEY_H
#define FAST_SURVEY_H

#include "balance.h"

#include <stdbool.h>
#include <string.h>

enum {
    CELLS = BALANCE_MAX_CELLS,

    /* Numbers past the last cell, for water that goes to no cell. */
    OVER_EDGE = CELLS,
    CLOSED,
    OPEN_WATER,
    TARGETS,

    PLOTS = 4 * BALANCE_MAX_COVERS /* a plot is a cover with a group: 4 x entry + group - 1 */
};

/* The fields of a cover entry. */
enum { CODE = 0, WATER = 1, CURVE = 2, RECHARGE = 6, GROWING = 10, DORMANT = 11, ROOTS = 12 };

#define REFUSE(number, place) ((uint64_t)(number) << 32 | (uint64_t)(place))

/* What the tests of the setup leave behind for the day. */
struct routes {
    uint8_t plot[CELLS];   /* which plot a cell is */
    uint16_t next[CELLS];  /* where its water goes: a cell, or one of the numbers above */
    uint16_t order[CELLS]; /* the cells, upslope first */
};

/* Test 3, and the index: 1 + entry for each code of the table, 0 for the others. */
static uint64_t index_covers(const uint32_t *covers, size_t covers_len, uint8_t index[256])
{
    const size_t entries = covers_len / BALANCE_ENTRY;
    uint32_t before = 0;

    if (covers_len % BALANCE_ENTRY != 0 || entries - 1 >= BALANCE_MAX_COVERS)
        return REFUSE(3, 0);
    memset(index, 0, 256);
    for (size_t i = 0; i < entries; i++) {
        const uint32_t *e = covers + i * BALANCE_ENTRY;
        bool bad = e[CODE] <= before || e[CODE] > 255 || e[WATER] > 1 ||
                   e[GROWING] > 10000 || e[DORMANT] > 10000;
        for (int g = 0; g < 4; g++) /* x - 30 wraps below 30 */
            bad |= e[CURVE + g] - 30 > 70 || e[RECHARGE + g] > 100000 || e[ROOTS + g] > 1000;
        if (bad)
            return REFUSE(3, i);
        before = e[CODE];
        index[before] = (uint8_t)(i + 1);
    }
    return 0;
}

/* Test 4, with each cell's plot, next cell and count of cells pointing to it. */
static uint64_t read_cells(uint32_t width, uint32_t height, const uint32_t *covers,
                           const uint8_t index[256], const uint32_t *direction,
                           const uint32_t *cover, const uint32_t *group, const uint32_t *water,
                           struct routes *r, uint16_t *waiting)
{
    /* By the direction's bit: right, lower right, down, ... Unsigned, so they wrap back. */
    const uint32_t step[8] = {1, width + 1, width, width - 1, 0u - 1, 0u - width - 1,
                              0u - width, 1 - width};
    uint32_t cell = 0;

    for (uint32_t row = 0; row < height; row++) {
        const uint32_t row_edge = (row == 0 ? 32u | 64 | 128 : 0) |
                                  (row == height - 1 ? 2u | 4 | 8 : 0);
        for (uint32_t column = 0; column < width; column++, cell++) {
            const uint32_t code = cover[cell];
            const uint32_t entry = code > 255 ? 0 : index[code];
            const uint32_t g = group[cell] - 1;
            if (entry == 0 || g > 3 || water[cell] > 600)
                return REFUSE(4, cell);
            r->plot[cell] = (uint8_t)(4 * (entry - 1) + g);

            const uint32_t d = direction[cell];
            uint32_t next;
            if (covers[(entry - 1) * BALANCE_ENTRY + WATER] != 0) {
                next = OPEN_WATER;
            } else if (d == 0 || d > 128 || (d & (d - 1)) != 0) {
                next = CLOSED;
            } else {
                const uint32_t edge = row_edge | (column == 0 ? 8u | 16 | 32 : 0) |
                                      (column == width - 1 ? 1u | 2 | 128 : 0);
                next = (d & edge) != 0 ? OVER_EDGE : cell + step[__builtin_ctz(d)];
            }
            r->next[cell] = (uint16_t)next;
            waiting[next]++;
        }
    }
    return 0;
}

/* Test 5 and the order. Each cell waits for those pointing to it; one that waits for none is
 * taken, and its chain followed down while the next cell waits for no other. Only cells on
 * rings stay. */
static uint64_t order_cells(uint32_t cells, struct routes *r, uint16_t *waiting)
{
    const uint16_t taken = UINT16_MAX;
    uint32_t count = 0;

    for (int target = OVER_EDGE; target < TARGETS; target++)
        waiting[target]++; /* no cell: must never be taken */
    for (uint32_t start = 0; start < cells; start++) {
        uint32_t cell = start;
        while (waiting[cell] == 0) {
            waiting[cell] = taken;
            r->order[count++] = (uint16_t)cell;
            cell = r->next[cell];
            waiting[cell]--;
        }
    }
    if (count == cells)
        return 0;
    uint32_t lowest = 0;
    while (waiting[lowest] == taken)
        lowest++;
    return REFUSE(5, lowest);
}

/* Tests 3 to 6. */
static uint64_t check_setup(struct recharge_site site, const uint32_t *covers, size_t covers_len,
                            const uint32_t *direction, const uint32_t *cover,
                            const uint32_t *group, const uint32_t *water, struct routes *r)
{
    uint8_t index[256];
    uint16_t waiting[TARGETS];
    const uint32_t cells = site.width * site.height;
    uint64_t no;

    if ((no = index_covers(covers, covers_len, index)) != 0)
        return no;
    memset(waiting, 0, cells * sizeof waiting[0]);
    memset(waiting + OVER_EDGE, 0, (TARGETS - OVER_EDGE) * sizeof waiting[0]);
    no = read_cells(site.width, site.height, covers, index, direction, cover, group, water, r,
                    waiting);
    if (no != 0)
        return no;
    if ((no = order_cells(cells, r, waiting)) != 0)
        return no;
    const bool bad = site.first_growing == 0 || site.first_growing > site.last_growing ||
                     site.last_growing > 366 || site.first_setpoint > site.second_setpoint ||
                     site.second_setpoint > 2000000;
    return bad ? REFUSE(6, 0) : 0;
}

/* Test 1. */
static bool bad_size(struct recharge_site site)
{
    return site.width - 1 >= CELLS || site.height - 1 >= CELLS || site.width * site.height > CELLS;
}

#endif
