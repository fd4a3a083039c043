/* The year's sheet by the plain C: what was worked out of a folder's files (plain_sheet.c), and what is laid out of
 * it for a person (plain_sheet_text.c, plain_map.c). */
#ifndef PLAIN_SHEET_H
#define PLAIN_SHEET_H

#include "balance.h"
#include "plain_text.h"

/* The five sums of a cell, in the order of a day's results, and the seven totals of a day. */
enum { SUM_INTERCEPTED, SUM_OUTFLOW, SUM_EVAPOTRANSPIRED, SUM_RECHARGED, SUM_REJECTED, SUMS };
enum { DAY_GROSS, DAY_INTERCEPTED, DAY_EVAPOTRANSPIRED, DAY_RECHARGED, DAY_REJECTED, DAY_GONE, DAY_STORED };

/* The seven numbers of a day. */
enum { SERIAL, DAY_OF_YEAR, GROSS, MINIMUM, MEAN, MAXIMUM, POTENTIAL, DAY_NUMBERS };

struct sheet {
    uint32_t width, height, cells;
    uint32_t first_growing, last_growing;
    uint32_t covers[BALANCE_MAX_COVERS * BALANCE_ENTRY];
    size_t covers_len; /* 16 an entry */
    uint32_t direction[BALANCE_MAX_CELLS], cover[BALANCE_MAX_CELLS];
    uint32_t group[BALANCE_MAX_CELLS], water[BALANCE_MAX_CELLS];
    size_t days;
    const int32_t *day;          /* DAY_NUMBERS for each */
    const uint64_t *totals;      /* BALANCE_TOTALS for each */
    uint64_t stored_at_start;    /* soil of the fresh state: all cells */
    uint64_t sum[SUMS][BALANCE_MAX_CELLS];
    uint32_t soil[BALANCE_MAX_CELLS], snow[BALANCE_MAX_CELLS]; /* at the end */
};

void plain_put_sheet(const struct sheet *s, struct output *o); /* sheet.txt */
void plain_put_map(const struct sheet *s, struct output *o);   /* recharge.svg */

#endif
