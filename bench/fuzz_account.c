/* The paper's account of an accepted day. */
#include "fuzz.h"

#include <inttypes.h>
#include <string.h>

void find_inflow(const struct grid_case *g, uint64_t *inflow)
{
    memset(inflow, 0, g->cells * sizeof inflow[0]);
    for (uint32_t i = 0; i < g->cells; i++) {
        int32_t next = case_next(g, i);
        if (next >= 0)
            inflow[next] += worlds[0].slice[OUTFLOW][i];
    }
}

void check_account(const struct grid_case *g, const struct recharge_day_record *d)
{
    static uint64_t inflow[CASE_ROOM];
    const struct world *w = &worlds[0];
    uint64_t sum[CASE_SLICES] = {0}, rejected = 0, gone = 0, stored_before = 0;

    find_inflow(g, inflow);
    for (uint32_t i = 0; i < g->cells; i++) {
        if (case_next(g, i) == CASE_LEAVES || case_is_water(g, i))
            gone += w->slice[OUTFLOW][i];
        if (w->slice[OUTFLOW][i] > tally.most_outflow)
            tally.most_outflow = w->slice[OUTFLOW][i];
    }
    for (uint32_t i = 0; i < g->cells; i++) {
        const uint32_t *entry = case_entry(g, i);
        uint64_t had = before.slice[SOIL][i] + (uint64_t)before.slice[SNOW][i], has = 0;
        for (int k = 0; k < CASE_SLICES; k++) {
            sum[k] += w->slice[k][i];
            has += w->slice[k][i];
        }
        /* what is rejected elsewhere is in the outflow */
        if (case_next(g, i) == CASE_STAYS)
            rejected += w->slice[REJECTED][i];
        else
            has -= w->slice[REJECTED][i];
        stored_before += had;
        if (had + d->gross + inflow[i] != has)
            fail("the account of cell %" PRIu32 " is off: %" PRIu64 " came, %" PRIu64 " is there",
                 i, had + d->gross + inflow[i], has);
        if (w->slice[SOIL][i] > case_capacity(g, i) || w->slice[SNOW][i] > 10000000 ||
            w->slice[EVAPOTRANSPIRED][i] > d->potential ||
            w->slice[RECHARGED][i] > entry[E_RECHARGE + g->group[i] - 1])
            fail("cell %" PRIu32 " is past a limit", i);
        if (case_is_water(g, i) && has != w->slice[OUTFLOW][i])
            fail("open water %" PRIu32 " has more than an outflow", i);
    }
    const uint64_t totals[BALANCE_TOTALS] = {
        (uint64_t)g->cells * d->gross, sum[INTERCEPTED], sum[EVAPOTRANSPIRED], sum[RECHARGED],
        rejected, gone, sum[SOIL] + sum[SNOW]};
    for (int i = 0; i < BALANCE_TOTALS; i++)
        if (w->totals[i] != totals[i])
            fail("total %d is %" PRIu64 ", the cells' sum %" PRIu64, i, w->totals[i], totals[i]);
    if (stored_before + totals[0] !=
        totals[1] + totals[2] + totals[3] + totals[4] + totals[5] + totals[6])
        fail("the account of the grid is off");
    for (int i = 0; i < BALANCE_MEMORY; i++)
        if (w->memory[i] != (i + 1 < BALANCE_MEMORY ? before.memory[i + 1] : d->gross))
            fail("memory %d is not the next", i);
    if (w->last_serial[0] != d->serial)
        fail("the last serial is not the day's");
    check_rejected(g, d, inflow);
    check_melt(g, d);
    check_frost(g, d);
    tally.cell_days += g->cells;
}

void take_state(const struct grid_case *g, struct state_case *s)
{
    memcpy(s->soil, worlds[0].slice[SOIL], g->cells * sizeof s->soil[0]);
    memcpy(s->snow, worlds[0].slice[SNOW], g->cells * sizeof s->snow[0]);
    memcpy(s->memory, worlds[0].memory, sizeof s->memory);
    s->last_serial = worlds[0].last_serial[0];
    s->frost_index = worlds[0].frost_index[0];
}
