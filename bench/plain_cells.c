/* The figures behind a text's lines, cell by cell, by the plain C.
 *
 *     plain_cells FIRST SECOND < TEXT
 *
 * TEXT is one that the program `balance` accepts; FIRST and SECOND are the setpoints of the frost
 * index in place of the program's own. Prints for each day
 *
 *     day SERIAL INDEX GROSS INTERCEPTED EVAPOTRANSPIRED RECHARGED REJECTED GONE STORED
 *     cell CELL INTERCEPTED OUTFLOW EVAPOTRANSPIRED RECHARGED REJECTED SOIL SNOW
 *
 * the second line for each cell. */
#include "balance.h"

#include <inttypes.h>
#include <stdbool.h>
#include <stdio.h>
#include <stdlib.h>

enum { SLICES = 7, SOIL = 5, SNOW = 6 }; /* the five results in their order, then the stores */

static uint32_t covers[BALANCE_MAX_COVERS * BALANCE_ENTRY];
static uint32_t ground[4][BALANCE_MAX_CELLS]; /* direction, cover, group, water */
static uint32_t slice[SLICES][BALANCE_MAX_CELLS];
static uint32_t memory[BALANCE_MEMORY], last_serial, frost_index;
static uint64_t totals[BALANCE_TOTALS];
static struct recharge_site site;
static size_t covers_len, cells;

#define SETUP                                                                              \
    site, covers, covers_len, ground[0], cells, ground[1], cells, ground[2], cells, ground[3], cells
#define STATE slice[SOIL], cells, slice[SNOW], cells, memory, &last_serial, &frost_index
#define RESULTS \
    slice[0], cells, slice[1], cells, slice[2], cells, slice[3], cells, slice[4], cells, totals

static void accepted(uint64_t returned)
{
    if (returned != 0) {
        fprintf(stderr, "plain_cells: refused %" PRIu64 " at %" PRIu64 "\n", returned >> 32, returned & UINT32_MAX);
        exit(1);
    }
}

/* The next number of the text; false at its end. */
static bool next(int32_t *n)
{
    return scanf("%" SCNd32, n) == 1;
}

static uint32_t number(void)
{
    int32_t n;

    if (!next(&n))
        exit(1);
    return (uint32_t)n;
}

static void read_setup(void)
{
    site.width = number(), site.height = number();
    site.first_growing = number(), site.last_growing = number();
    covers_len = (size_t)number() * BALANCE_ENTRY;
    if (site.width * site.height > BALANCE_MAX_CELLS || covers_len > sizeof covers / sizeof covers[0])
        exit(1);
    cells = site.width * site.height;
    for (size_t i = 0; i < covers_len; i++)
        covers[i] = number();
    for (size_t i = 0; i < cells; i++)
        for (int k = 0; k < 4; k++)
            ground[k][i] = number();
}

static void print_day(void)
{
    printf("day %" PRIu32 " %" PRIu32, last_serial, frost_index);
    for (int i = 0; i < BALANCE_TOTALS; i++)
        printf(" %" PRIu64, totals[i]);
    for (size_t i = 0; i < cells; i++) {
        printf("\ncell %zu", i);
        for (int k = 0; k < SLICES; k++)
            printf(" %" PRIu32, slice[k][i]);
    }
    printf("\n");
}

int main(int argc, char **argv)
{
    int32_t d[7];

    if (argc != 3)
        return 2;
    site.first_setpoint = (uint32_t)strtoul(argv[1], NULL, 10);
    site.second_setpoint = (uint32_t)strtoul(argv[2], NULL, 10);
    read_setup();
    accepted(plain_fresh(SETUP, STATE));
    while (next(&d[0])) {
        for (int i = 1; i < 7; i++)
            d[i] = (int32_t)number();
        const struct recharge_day_record day = {(uint32_t)d[0], (uint32_t)d[1], (uint32_t)d[2], d[3], d[4], d[5], (uint32_t)d[6]};
        accepted(plain_day(SETUP, STATE, RESULTS, day));
        print_day();
    }
    return 0;
}
