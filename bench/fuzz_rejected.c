/* Where the rejected recharge of accepted days went (M-104), and how often. */
#include "fuzz.h"

#include <inttypes.h>
#include <stdio.h>

/* Cells of land on accepted days. */
static struct {
    uint64_t to_land, to_water, over_edge; /* whose rejected recharge ran on: to which end */
    uint64_t left;                         /* closed depressions in which it left the balance */
    uint64_t again;                        /* with water that was rejected above, and rejecting */
    uint64_t whole;                        /* that passed all of their water on, by runoff in part only */
} rejected;

static uint64_t rejected_by_rule_7(const struct grid_case *g, const struct recharge_day_record *d, uint32_t cell, uint64_t infiltration)
{
    const uint32_t largest = case_entry(g, cell)[E_RECHARGE + g->group[cell] - 1];
    const uint64_t filled = before.slice[SOIL][cell] + infiltration;
    const uint64_t most = (uint64_t)d->potential + case_capacity(g, cell) + largest;

    return infiltration >= d->potential && filled > most ? filled - most : 0;
}

/* Counts where it went. */
static void follow(const struct grid_case *g, uint32_t cell, bool *rejected_above)
{
    const int32_t next = case_next(g, cell);

    if (worlds[0].slice[REJECTED][cell] == 0)
        return;
    if (next >= 0)
        rejected_above[next] = true;
    rejected.to_land += next >= 0 && !case_is_water(g, (uint32_t)next);
    rejected.to_water += next >= 0 && case_is_water(g, (uint32_t)next);
    rejected.over_edge += next == CASE_LEAVES;
    rejected.left += next == CASE_STAYS;
}

void check_rejected(const struct grid_case *g, const struct recharge_day_record *d, const uint64_t *inflow)
{
    static bool rejected_above[CASE_ROOM];
    const struct world *w = &worlds[0];

    for (uint32_t i = 0; i < g->cells; i++)
        rejected_above[i] = false;
    for (uint32_t i = 0; i < g->cells; i++) {
        if (case_is_water(g, i))
            continue;
        const uint64_t out = w->slice[OUTFLOW][i], reject = w->slice[REJECTED][i];
        const uint64_t water = (uint64_t)before.slice[SNOW][i] + d->gross - w->slice[INTERCEPTED][i] - w->slice[SNOW][i] + inflow[i];
        const bool closed = case_next(g, i) == CASE_STAYS;
        if (closed ? out != 0 : out < reject)
            fail("cell %" PRIu32 " rejects %" PRIu64 ", and its outflow is %" PRIu64, i, reject, out);
        if (out > water)
            fail("the outflow of cell %" PRIu32 " passes its water: %" PRIu64 " of %" PRIu64, i, out, water);
        const uint64_t runoff = closed ? 0 : out - reject;
        if (reject != rejected_by_rule_7(g, d, i, water - runoff))
            fail("cell %" PRIu32 " rejects %" PRIu64 " of an infiltration of %" PRIu64, i, reject, water - runoff);
        rejected.whole += reject > 0 && out == water;
        follow(g, i, rejected_above);
    }
    for (uint32_t i = 0; i < g->cells; i++)
        rejected.again += rejected_above[i] && w->slice[REJECTED][i] > 0;
}

void report_rejected(void)
{
    printf("cells whose rejected recharge ran on to land: %" PRIu64 ", to open water: %" PRIu64 ", over the edge: %" PRIu64
           "; left in a closed depression: %" PRIu64 "\n",
           rejected.to_land, rejected.to_water, rejected.over_edge, rejected.left);
    printf("cells that rejected below one that did: %" PRIu64 ", that passed all of their water on: %" PRIu64 "\n", rejected.again,
           rejected.whole);
}

void rejected_often(uint64_t cases)
{
    enough("rejected recharge ran on to land", rejected.to_land, cases);
    enough("rejected recharge ran on to open water", rejected.to_water, cases);
    enough("rejected recharge ran over the edge", rejected.over_edge, cases);
    enough("rejected recharge left in a closed depression", rejected.left, cases);
    enough("a cell rejected below one that did", rejected.again, cases);
    enough("all water ran on", rejected.whole, cases);
}
