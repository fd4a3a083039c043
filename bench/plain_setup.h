/* The setup as the plain C holds it, with what a cell has of its cover and
 * where it points: static functions for the tests, the rules and the day. */
#ifndef PLAIN_SETUP_H
#define PLAIN_SETUP_H

#include "balance.h"
#include "plain.h"

#include <assert.h>

struct setup {
    struct recharge_site site;
    const uint32_t *covers;
    size_t covers_len;
    const uint32_t *direction;
    size_t direction_len;
    const uint32_t *cover;
    size_t cover_len;
    const uint32_t *group;
    size_t group_len;
    const uint32_t *water;
    size_t water_len;
};

/* Packs the parameters of a public function. */
#define GIVEN_SETUP                                                                          \
    {                                                                                        \
        site, covers, covers_len, direction, direction_len, cover, cover_len, group, group_len, \
            water, water_len                                                                 \
    }

/* Where the numbers of a cover entry stand. The four-fold ones are for groups A to D. */
enum { CODE = 0, OPEN_WATER = 1, CURVE = 2, RECHARGE = 6, GROWING = 10, DORMANT = 11, ROOTS = 12 };

/* How many cells; asked for after test 1 only. */
static inline uint32_t cell_count(const struct setup *s)
{
    return s->site.width * s->site.height;
}

/* The cover entry with a code, or none. */
static inline const uint32_t *entry_with_code(const struct setup *s, uint32_t code)
{
    for (size_t i = 0; i < s->covers_len; i += BALANCE_ENTRY)
        if (s->covers[i + CODE] == code)
            return s->covers + i;
    return NULL;
}

/* A cell's own cover entry. */
static inline const uint32_t *entry_of(const struct setup *s, uint32_t cell)
{
    const uint32_t *entry = entry_with_code(s, s->cover[cell]);
    assert(entry != NULL);
    return entry;
}

static inline bool is_open_water(const struct setup *s, uint32_t cell)
{
    return entry_of(s, cell)[OPEN_WATER] == 1;
}

/* The number of a four-fold row of the entry that belongs to the cell's group. */
static inline uint32_t of_group(const struct setup *s, uint32_t cell, int row)
{
    return entry_of(s, cell)[(uint32_t)row + s->group[cell] - 1];
}

static inline int64_t capacity_of(const struct setup *s, uint32_t cell)
{
    return plain_capacity(s->water[cell], of_group(s, cell, ROOTS));
}

/* Season: both ends count as growing. */
static inline bool is_growing(const struct setup *s, uint32_t day_of_year)
{
    return s->site.first_growing <= day_of_year && day_of_year <= s->site.last_growing;
}

/* ---------------------------------------------------------------- directions */

struct way {
    enum { NOWHERE, LEAVES, TO_CELL } goes; /* NOWHERE: closed depression or open water */
    uint32_t cell;                          /* the cell it goes to, when it goes to one */
};

/* Where a cell points (000, figure 3). */
static inline struct way way_of(const struct setup *s, uint32_t cell)
{
    struct way way = {NOWHERE, 0};
    int64_t right, down;

    if (is_open_water(s, cell))
        return way;
    switch (s->direction[cell]) {
    case 1: right = 1, down = 0; break;
    case 2: right = 1, down = 1; break;
    case 4: right = 0, down = 1; break;
    case 8: right = -1, down = 1; break;
    case 16: right = -1, down = 0; break;
    case 32: right = -1, down = -1; break;
    case 64: right = 0, down = -1; break;
    case 128: right = 1, down = -1; break;
    default: return way; /* a closed depression */
    }

    int64_t column = (int64_t)(cell % s->site.width) + right;
    int64_t row = (int64_t)(cell / s->site.width) + down;
    if (column < 0 || column >= s->site.width || row < 0 || row >= s->site.height) {
        way.goes = LEAVES;
    } else {
        way.goes = TO_CELL;
        way.cell = (uint32_t)(row * s->site.width + column);
    }
    return way;
}

static inline void find_ways(const struct setup *s, struct way *ways)
{
    for (uint32_t cell = 0; cell < cell_count(s); cell++)
        ways[cell] = way_of(s, cell);
}

/* A refusal as the calls return it. */
static inline uint64_t refusal(uint64_t number, uint64_t place)
{
    return number << 32 | place;
}

/* ---------------------------------------------------------------- parts in other files */

/* Tests 1 to 6, then 7 to 10 (plain_tests.c): 0, or the refusal. `others` are the lengths of the
 * slices that a call was lent besides the setup's four. A call may ask about a cell (M-105): one
 * outside the grid is found with the cells of test 4, after every cell of the grid. */
uint64_t plain_tests_1_to_6(const struct setup *s, const size_t *others, size_t others_count);
uint64_t plain_tests_1_to_6_about(const struct setup *s, const size_t *others, size_t others_count, uint32_t cell);
uint64_t plain_tests_7_to_10(const struct setup *s, const struct recharge_day_record *day, const uint32_t *soil,
                             const uint32_t *snow, const uint32_t *memory, uint32_t last_serial, uint32_t frost_index);

/* Rule 2 at a cell (plain_rules.c). */
int64_t plain_interception_of(const struct setup *s, const struct recharge_day_record *day, uint32_t cell);

/* One cell's water, stores and results of a day. */
struct cell_day {
    int64_t inflow;          /* the sum of the outflows of all cells pointing here */
    int64_t w, infiltration; /* rules 4 and 6; 0 on open water, which has no ground to reach */
    int64_t soil, snow;
    int64_t intercepted, outflow, evapotranspired, recharged, rejected;
};

/* Rules 1 to 8 (plain_rules.c). condition is the one that the day counts as. */
struct cell_day plain_cell_rules(const struct setup *s, const struct recharge_day_record *day,
                                 enum plain_condition condition, uint32_t cell, struct way way,
                                 int64_t inflow, int64_t soil, int64_t snow);

/* The same of every cell on a day that has passed the tests (plain.c): from the state before it. */
void plain_all_cells(const struct setup *s, const struct recharge_day_record *day, const uint32_t *soil,
                     const uint32_t *snow, const uint32_t *memory, uint32_t frost_index, struct cell_day *cells);

#endif
