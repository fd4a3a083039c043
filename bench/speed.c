/* How long one day takes: the proved library against fast.c, in one process.
 *
 *     speed [ROUNDS]
 *
 * Both work through the same days from the same state, a short run each, turn and turn about in
 * many rounds; after each round every number of the two must be the same. Printed for each grid:
 * the least time of a day of each, the ratio of the least times, and the median of the rounds'
 * ratios. A barrier in each repetition keeps the compiler from moving work out of the loop.
 * A year in one call follows (speed_year.c). Compiled with -DTHIRD=prefix, as table.c is; with -DTHIRD_TEXT=prefix
 * the heaviest texts too. */
#include "speed.h"

#include <inttypes.h>
#include <stdio.h>
#include <stdlib.h>
#include <string.h>
#include <time.h>

balance_fresh JOIN(THIRD, _fresh);
balance_day JOIN(THIRD, _day);
#ifdef THIRD_TEXT
balance_text JOIN(THIRD_TEXT, _text);
#endif

double microseconds(void)
{
    struct timespec now;

    clock_gettime(CLOCK_MONOTONIC, &now);
    return (double)now.tv_sec * 1e6 + (double)now.tv_nsec / 1e3;
}

/* ---------------------------------------------------------------- days */

/* Rain, drought, frost with snow, thaw: every rule has its turn. */
const struct recharge_day_record mixed[DAYS] = {
    {0, 100, 0, 500, 600, 700, 900},      {0, 101, 12000, 480, 560, 640, 700},
    {0, 102, 30000, 500, 560, 620, 500},  {0, 103, 2500, 500, 600, 700, 1100},
    {0, 104, 0, 520, 640, 760, 2000},     {0, 105, 0, 560, 680, 800, 2400},
    {0, 106, 0, 560, 700, 840, 2600},     {0, 300, 8000, 200, 260, 300, 200},
    {0, 301, 15000, 180, 250, 310, 100},  {0, 302, 0, 250, 320, 390, 300},
    {0, 303, 6000, 350, 420, 500, 400},   {0, 150, 45000, 600, 680, 760, 1200},
    {0, 151, 100, 600, 700, 800, 2200},   {0, 152, 0, 620, 740, 860, 2800},
    {0, 153, 0, 640, 760, 880, 3000},     {0, 154, 20000, 600, 680, 760, 1500},
};

/* No rain, no snow: on every day each cell with soil loses by rule 8. */
static const struct recharge_day_record drying[DAYS] = {
    {0, 150, 0, 500, 600, 700, 900},   {0, 151, 0, 520, 640, 760, 2000}, {0, 152, 0, 560, 680, 800, 2400},
    {0, 153, 0, 560, 700, 840, 2600},  {0, 154, 0, 500, 560, 620, 500},  {0, 155, 0, 500, 600, 700, 1100},
    {0, 156, 0, 620, 740, 860, 2800},  {0, 157, 0, 640, 760, 880, 3000}, {0, 158, 0, 600, 700, 800, 2200},
    {0, 159, 0, 600, 680, 760, 1200},  {0, 160, 0, 600, 680, 760, 1500}, {0, 161, 0, 700, 820, 940, 4100},
    {0, 162, 0, 720, 850, 980, 5000},  {0, 163, 0, 450, 520, 590, 400},  {0, 164, 0, 480, 560, 640, 700},
    {0, 165, 0, 690, 800, 910, 3600},
};

struct world {
    uint32_t soil[BALANCE_MAX_CELLS], snow[BALANCE_MAX_CELLS];
    uint32_t memory[BALANCE_MEMORY], last_serial, frost_index;
    uint32_t results[5][BALANCE_MAX_CELLS];
    uint64_t totals[BALANCE_TOTALS], returned;
};

static struct world start, worlds[2];

#define STATE(w) \
    (w)->soil, cells, (w)->snow, cells, (w)->memory, &(w)->last_serial, &(w)->frost_index

/* The days one after another, `repeats` times from the same state; the time of one day. */
static double run(const struct recharge_day_record days[DAYS], int which, uint32_t repeats)
{
    balance_day *const call = which == FAST ? fast_day : JOIN(THIRD, _day);
    struct world *const w = &worlds[which];
    double spent = 0;

    for (uint32_t k = 0; k < repeats; k++) {
        memcpy(w->soil, start.soil, cells * sizeof w->soil[0]);
        memcpy(w->snow, start.snow, cells * sizeof w->snow[0]);
        memcpy(w->memory, start.memory, sizeof w->memory);
        w->last_serial = BALANCE_NO_SERIAL;
        w->frost_index = start.frost_index;
        w->returned = 0;
        double before = microseconds();
        for (uint32_t n = 0; n < DAYS; n++) {
            struct recharge_day_record day = days[n];
            day.serial = n + 1;
            w->returned |= call(SETUP, STATE(w), w->results[0], cells, w->results[1], cells,
                                w->results[2], cells, w->results[3], cells, w->results[4], cells,
                                w->totals, day);
            barrier();
        }
        spent += microseconds() - before;
    }
    return spent / (double)(repeats * DAYS);
}

static void same_worlds(const char *name)
{
    if (memcmp(&worlds[FAST], &worlds[PROVED], sizeof worlds[0]) != 0 || worlds[FAST].returned != 0) {
        printf("%s, %" PRIu32 " cells: the results differ, or a day was refused\n", name, cells);
        exit(1);
    }
}

static int by_size(const void *a, const void *b)
{
    double x = *(const double *)a, y = *(const double *)b;

    return (x > y) - (x < y);
}

void print_line(const char *name, const double least[2], double *ratios, int rounds)
{
    qsort(ratios, (size_t)rounds, sizeof ratios[0], by_size);
    printf("%-22s %6" PRIu32 " %12.2f %12.2f %8.2f %8.2f\n", name, cells, least[FAST], least[PROVED],
           least[PROVED] / least[FAST], ratios[rounds / 2]);
}

/* Turn and turn about; who begins changes from round to round. */
static void measure(const char *name, const struct recharge_day_record days[DAYS], int rounds)
{
    static double ratios[MOST_ROUNDS];
    double least[2] = {1e30, 1e30};
    uint32_t repeats = 1 + 2048 / cells;

    memset(worlds, 0, sizeof worlds);
    if (fast_fresh(SETUP, STATE(&start)) != 0 || JOIN(THIRD, _fresh)(SETUP, STATE(&start)) != 0)
        printf("%s: the setup is refused\n", name);
    for (int n = -2; n < rounds; n++) { /* two rounds to warm up */
        double spent[2];
        for (int turn = 0; turn < 2; turn++) {
            int which = (n + turn) & 1;
            spent[which] = run(days, which, repeats);
        }
        same_worlds(name);
        if (n < 0)
            continue;
        ratios[n] = spent[PROVED] / spent[FAST];
        for (int which = 0; which < 2; which++)
            least[which] = spent[which] < least[which] ? spent[which] : least[which];
    }
    print_line(name, least, ratios, rounds);
}

/* ---------------------------------------------------------------- texts */

#ifdef THIRD_TEXT
static unsigned char text[TEXT_LONGEST + 100];
static unsigned char text_out[2][TEXT_ROOM];
static size_t text_length;

/* A text of w x h cells of one stream, and as many days as the 65,536 bytes hold. */
static void make_heavy(uint32_t w, uint32_t h)
{
    char *at = (char *)text, line[100];

    at += sprintf(at, "%" PRIu32 " %" PRIu32 " 90 280\n1\n3 0 75 75 75 75 6000 6000 6000 6000 900 0 250 250 250 250\n", w, h);
    make_serpentine(w, h);
    for (uint32_t i = 0; i < cells; i++)
        at += sprintf(at, "%" PRIu32 " 3 2 9\n", direction[i]);
    for (uint32_t n = 1;; n++) {
        const struct recharge_day_record *d = &mixed[n % DAYS];
        int more = sprintf(line, "%" PRIu32 " %" PRIu32 " %" PRIu32 " %d %d %d %" PRIu32 "\n", n,
                           d->day_of_year, d->gross, d->minimum, d->mean, d->maximum, d->potential);
        if (at + more > (char *)text + TEXT_LONGEST)
            break;
        memcpy(at, line, (size_t)more);
        at += more;
    }
    text_length = (size_t)(at - (char *)text);
}

static void measure_text(const char *name, int rounds)
{
    static double ratios[MOST_ROUNDS];
    balance_text *const calls[2] = {fast_text, JOIN(THIRD_TEXT, _text)};
    double least[2] = {1e30, 1e30};
    size_t used[2] = {0, 0};

    for (int n = 0; n < rounds; n++) {
        double spent[2];
        for (int turn = 0; turn < 2; turn++) {
            int which = (n + turn) & 1;
            double before = microseconds();
            used[which] = calls[which](text, text_length, text_out[which], TEXT_ROOM);
            barrier();
            spent[which] = microseconds() - before;
            least[which] = spent[which] < least[which] ? spent[which] : least[which];
        }
        if (used[0] != used[1] || memcmp(text_out[0], text_out[1], used[0]) != 0) {
            printf("%s: the texts differ\n", name);
            exit(1);
        }
        ratios[n] = spent[PROVED] / spent[FAST];
    }
    print_line(name, least, ratios, rounds);
}
#endif

int main(int argc, char **argv)
{
    static const uint32_t sizes[5][2] = {{2, 1}, {8, 8}, {16, 16}, {32, 32}, {64, 64}};
    int rounds = argc > 1 ? atoi(argv[1]) : 200;

    if (rounds < 1 || rounds > MOST_ROUNDS)
        return 2;
    make_covers();
    printf("%-22s %6s %12s %12s %8s %8s\n", "one day, in us", "cells", "fast C", "proved", "least", "median");
    make_closed(64, 64);
    measure("closed cells", mixed, rounds);
    measure("all cells drying", drying, rounds);
    make_rows(64, 64);
    measure("rows", mixed, rounds);
    make_serpentine(64, 64);
    measure("serpentine", mixed, rounds);
    for (int k = 4; k >= 0; k--) {
        make_landscape(sizes[k][0], sizes[k][1]);
        measure("landscape with lakes", mixed, rounds);
    }
    printf("%-22s %6s %12s %12s %8s %8s\n", "a year, in us", "cells", "fast C", "proved", "least", "median");
    make_closed(64, 64);
    measure_year("closed cells", rounds / 4 + 1);
    make_rows(64, 64);
    measure_year("rows", rounds / 4 + 1);
    make_serpentine(64, 64);
    measure_year("serpentine", rounds / 4 + 1);
    make_landscape(64, 64);
    measure_year("landscape with lakes", rounds / 4 + 1);
    if (argc > 2) {
        printf("%-22s %6s %12s %12s %8s %8s\n", "the command, in us", "cells", "fast C", "sheet", "least", "median");
        measure_sheet("landscape with lakes", argv[2], "build/speed.folder", "build/speed.printed", rounds / 4 + 1);
    }
#ifdef THIRD_TEXT
    printf("%-22s %6s %12s %12s %8s %8s\n", "a whole text, in us", "cells", "fast C", "proved", "least", "median");
    make_heavy(64, 64);
    measure_text("large grid", rounds / 10 + 1);
    make_heavy(16, 16);
    measure_text("middling grid", rounds / 10 + 1);
    make_heavy(1, 1);
    measure_text("one cell, most days", rounds / 10 + 1);
#endif
    return 0;
}
