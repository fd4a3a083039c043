/* What happened: the counts, and how a difference is told. */
#include "fuzz.h"

#include <inttypes.h>
#include <stdarg.h>
#include <stdio.h>
#include <stdlib.h>

struct tally tally;

/* How many different places each refusal had: bit sets. */
static uint8_t places[REFUSALS][ARC_CELLS];

static const char *current_kind;
static uint64_t current_seed;

void set_current(const char *kind, uint64_t seed)
{
    current_kind = kind;
    current_seed = seed;
}

void fail(const char *format, ...)
{
    va_list arguments;

    printf("DIFFERENCE, seed %" PRIu64 " (fuzz %s %" PRIu64 "): ", current_seed, current_kind,
           current_seed);
    va_start(arguments, format);
    vprintf(format, arguments);
    va_end(arguments);
    printf("\n");
    exit(1);
}

/* The calls on Arc grids have 12 alone, at a cell that may lie beyond the largest grid; an estimate from
 * radiation has 13 alone, every other call of the library 1 to 10. */
static bool exists(const uint64_t *counts, uint64_t number, uint64_t place)
{
    if (number == 0)
        return place == 0;
    if (counts == tally.grid_read || counts == tally.grid_write || counts == tally.grid_inches)
        return number == 12 && place < ARC_CELLS;
    if (counts == tally.turc || counts == tally.jensen_haise)
        return number == 13 && place == 0;
    return number <= 10 && place <= BALANCE_MAX_CELLS;
}

void count_refusal(uint64_t *counts, uint64_t returned)
{
    uint64_t number = returned >> 32, place = returned & UINT32_MAX;

    if (!exists(counts, number, place))
        fail("a refusal that does not exist: %" PRIu64 " at %" PRIu64, number, place);
    counts[number]++;
    places[number][place] = 1;
}

static void report_refusals(void)
{
    const struct {
        const char *name;
        const uint64_t *counts;
    } columns[] = {{"check", tally.check}, {"fresh", tally.fresh}, {"day", tally.day},   {"why", tally.why},
                   {"text", tally.text},   {"turc", tally.turc},   {"jensen", tally.jensen_haise},
                   {"read", tally.grid_read}, {"write", tally.grid_write}, {"inches", tally.grid_inches}};
    enum { COLUMNS = sizeof columns / sizeof columns[0] };

    printf("\n\n%-8s", "refusal");
    for (int c = 0; c < COLUMNS; c++)
        printf(" %10s", columns[c].name);
    printf(" %10s\n", "places");
    for (int i = 0; i < REFUSALS; i++) {
        printf("%-8d", i);
        for (int c = 0; c < COLUMNS; c++)
            printf(" %10" PRIu64, columns[c].counts[i]);
        uint64_t different = 0;
        for (int k = 0; k <= BALANCE_MAX_CELLS; k++)
            different += places[i][k];
        printf(" %10" PRIu64 "%s\n", different, i == 0 ? "  (0: accepted; places are the library's)" : "");
    }
}

void report(uint64_t cases, uint64_t text_cases, uint64_t seed, double case_time, double text_time)
{
    printf("%" PRIu64 " cases from seed %" PRIu64 " in %.1f s, implementations:", cases, seed,
           case_time);
    for (size_t x = 0; x < implementations_count; x++)
        printf(" %s", implementations[x].name);
    printf("\n%" PRIu64 " texts in %.1f s, text functions:", text_cases, text_time);
    for (size_t x = 0; x < texts_count; x++)
        printf(" %s", texts[x].name);
    report_refusals();
    printf("\nreturns that were foretold and so: %" PRIu64 "\n", tally.foretold);
    printf("cells of accepted days held against the account: %" PRIu64 "\n", tally.cell_days);
    printf("largest outflow seen: %" PRIu32 "\n", tally.most_outflow);
    printf("pairs of runs: %" PRIu64 ", of %" PRIu64 " days, %" PRIu64 " of them at or above the first setpoint, with %" PRIu64
           " larger figures, %" PRIu64 " of them rejected recharge that runs on\n",
           tally.pairs, tally.pair_days, tally.frosty_pair_days, tally.wetter_figures, tally.more_runs_on);
    report_period();
    report_rejected();
    report_melt();
    report_frost();
    report_reasons();
    report_radiation();
    report_grids();
    printf("texts of winters besides: %" PRIu64 ", with %" PRIu64 " days whose frost index is a setpoint or one beside it\n",
           tally.winters, tally.winter_hits);
    printf("day lines of texts: %" PRIu64 "\n", tally.text_days);
    printf("no difference\n");
}

/* A comparison says little of what it hardly reached. */
void enough(const char *what, uint64_t count, uint64_t cases)
{
    if (cases >= 1000 && count * 250 < cases) {
        printf("TOO FEW: %s only %" PRIu64 " times\n", what, count);
        exit(1);
    }
}

/* A text reaches neither 2 nor 9: it lends every slice at its length, and starts fresh. */
void reached_often(const char *call, const uint64_t *counts, int last, uint64_t cases)
{
    char what[60];

    for (int i = 1; i <= last; i++) {
        if (counts == tally.text && (i == 2 || i == 9))
            continue;
        snprintf(what, sizeof what, "%s reached refusal %d", call, i);
        enough(what, counts[i], cases);
    }
}
