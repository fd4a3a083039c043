/* Document 01, as document 02 amends it, for speed, with the same interface as plain.c.
 *
 * What it does differently:
 * - a 256-entry index from cover code to table entry;
 * - all that depends only on cover, group and day is worked out once a day, in `struct plot`;
 * - a linear-time flow order (Kahn's peeling, following each chain down as far as it goes),
 *   whose leftovers are exactly the cells on rings;
 * - water that goes to no cell goes to a number past the last cell, so that routing needs no
 *   branch and the water gone over the edge adds itself up;
 * - rule 6 in 64 bits: with K = 100,000(100 - c) and b = a + K, a^2 / b = b - 2K + K^2 / b;
 * - one pass over the cells in flow order does all the rules and sums the totals.
 *
 * The survey, tests 1 and 3 to 6, and the rules are headers, fast_survey.h and fast_rules.h: to the
 * compiler all of it is one file.
 */
#include "fast_rules.h"

uint64_t fast_check(BALANCE_SETUP_PARAMETERS)
{
    struct routes r;

    if (bad_size(site))
        return REFUSE(1, 0);
    const size_t cells = site.width * site.height;
    if (direction_len != cells || cover_len != cells || group_len != cells || water_len != cells)
        return REFUSE(2, 0);
    return check_setup(site, covers, covers_len, direction, cover, group, water, &r);
}

uint64_t fast_fresh(BALANCE_SETUP_PARAMETERS, BALANCE_STATE_PARAMETERS)
{
    struct routes r;

    memset(memory, 0, BALANCE_MEMORY * sizeof memory[0]);
    *last_serial = BALANCE_NO_SERIAL;
    *frost_index = 0;

    if (bad_size(site))
        return REFUSE(1, 0);
    const size_t cells = site.width * site.height;
    if (direction_len != cells || cover_len != cells || group_len != cells ||
        water_len != cells || soil_len != cells || snow_len != cells)
        return REFUSE(2, 0);
    const uint64_t no = check_setup(site, covers, covers_len, direction, cover, group, water, &r);
    if (no != 0)
        return no;

    for (size_t i = 0; i < cells; i++) {
        const uint32_t *e = covers + r.plot[i] / 4 * BALANCE_ENTRY;
        soil[i] = e[WATER] != 0 ? 0 : water[i] * e[ROOTS + r.plot[i] % 4];
    }
    memset(snow, 0, cells * sizeof snow[0]);
    return 0;
}

/* ---------------------------------------------------------------- the day */

/* Test 7. */
static bool bad_day(struct recharge_day_record d)
{
    return d.serial > MAX_SERIAL || d.day_of_year - 1 > 365 || d.gross > MAX_GROSS ||
           d.minimum < -1000 || d.minimum > d.mean || d.mean > d.maximum || d.maximum > 1500 ||
           d.potential > 20000;
}

uint64_t fast_day(BALANCE_SETUP_PARAMETERS, BALANCE_STATE_PARAMETERS,
                  BALANCE_RESULT_PARAMETERS, struct recharge_day_record day)
{
    struct routes r;
    struct plot plots[PLOTS];
    uint32_t capacity[CELLS], inflow[TARGETS];

    memset(totals, 0, BALANCE_TOTALS * sizeof totals[0]);

    if (bad_size(site))
        return REFUSE(1, 0);
    const uint32_t cells = site.width * site.height;
    if (direction_len != cells || cover_len != cells || group_len != cells ||
        water_len != cells || soil_len != cells || snow_len != cells ||
        intercepted_len != cells || outflow_len != cells || evapotranspired_len != cells ||
        recharged_len != cells || rejected_len != cells)
        return REFUSE(2, 0);
    const uint64_t no = check_setup(site, covers, covers_len, direction, cover, group, water, &r);
    if (no != 0)
        return no;
    if (bad_day(day))
        return REFUSE(7, 0);
    /* No serial that passed test 7 is 0 after a last serial of 2^32 - 1: that is none. */
    if (*last_serial != BALANCE_NO_SERIAL && day.serial != *last_serial + 1)
        return REFUSE(8, 0);

    const uint32_t gross = day.gross, potential = day.potential;
    const bool growing = site.first_growing <= day.day_of_year && day.day_of_year <= site.last_growing;
    const bool snows = 3 * day.mean - (day.maximum - day.minimum) <= 960;
    const uint32_t most_melt = day.maximum > 320 ? 12500 * (uint32_t)(day.maximum - 320) / 381 : 0;
    uint64_t sum = 0;
    bool bad_past = *frost_index > MAX_FROST;
    for (int i = 0; i < BALANCE_MEMORY; i++) {
        sum += memory[i];
        bad_past |= memory[i] > MAX_GROSS;
    }
    const uint32_t frost = frost_after(*frost_index, day.mean);
    const int condition = condition_of(sum, growing, frost, site);
    plan_plots(covers, covers_len, growing, condition, snows, gross, plots);

    /* Tests 9 and 10, before anything is written. Any 9 wins over a 10. The last serial has
     * passed with the serial. */
    uint32_t buried = cells; /* the lowest cell of test 10 */
    for (uint32_t i = 0; i < cells; i++) {
        const struct plot *p = &plots[r.plot[i]];
        capacity[i] = water[i] * p->root;
        if (soil[i] > capacity[i] || snow[i] > p->most_snow)
            return REFUSE(9, i);
        if (snow[i] + p->snowfall > MAX_SNOW && buried == cells)
            buried = i;
    }
    if (bad_past)
        return REFUSE(9, cells);
    if (buried != cells)
        return REFUSE(10, buried);

    /* Rules 1 to 8. The water of a whole grid, at most 4,096 x (400,000 + 38,713), fits 32
     * bits, so every inflow does. */
    uint64_t all_intercepted = 0, all_evapotranspired = 0, all_recharged = 0;
    uint64_t gone = 0, stored = 0;
    memset(inflow, 0, cells * sizeof inflow[0]);
    memset(inflow + OVER_EDGE, 0, (TARGETS - OVER_EDGE) * sizeof inflow[0]);
    for (uint32_t i = 0; i < cells; i++) {
        const uint32_t cell = r.order[i];
        const uint32_t next = r.next[cell];

        if (next == OPEN_WATER) {
            const uint32_t out = gross + inflow[cell];
            gone += out;
            intercepted[cell] = 0;
            outflow[cell] = out;
            evapotranspired[cell] = 0;
            recharged[cell] = 0;
            rejected[cell] = 0;
            continue;
        }

        const struct plot *p = &plots[r.plot[cell]];
        const uint32_t store = snow[cell] + p->snowfall;
        const uint32_t melt = store < most_melt ? store : most_melt;
        const uint32_t w = p->rain + melt + inflow[cell];
        const uint32_t off = next == CLOSED ? 0 : runoff(p, w);
        const uint32_t n = w - off;
        uint32_t kept = soil[cell], evaporated, recharge = 0, reject = 0;

        if (n >= potential) {
            evaporated = potential;
            kept += n - potential;
            if (kept > capacity[cell]) {
                const uint32_t excess = kept - capacity[cell];
                recharge = excess < p->largest ? excess : p->largest;
                reject = excess - recharge;
                kept = capacity[cell];
            }
        } else {
            const uint32_t loss = loss_of(kept, capacity[cell], potential - n);
            evaporated = n + loss;
            kept -= loss;
        }

        /* What is rejected runs on with the runoff. Past the cells stands what has gone over the
         * edge and, of closed depressions, what they have rejected: they have no runoff. */
        inflow[next] += off + reject;

        soil[cell] = kept;
        snow[cell] = store - melt;
        intercepted[cell] = p->intercepted;
        outflow[cell] = next == CLOSED ? 0 : off + reject;
        evapotranspired[cell] = evaporated;
        recharged[cell] = recharge;
        rejected[cell] = reject;
        all_intercepted += p->intercepted;
        all_evapotranspired += evaporated;
        all_recharged += recharge;
        stored += (uint64_t)kept + (store - melt);
    }

    totals[0] = (uint64_t)cells * gross;
    totals[1] = all_intercepted;
    totals[2] = all_evapotranspired;
    totals[3] = all_recharged;
    totals[4] = inflow[CLOSED];
    totals[5] = gone + inflow[OVER_EDGE];
    totals[6] = stored;
    memmove(memory, memory + 1, (BALANCE_MEMORY - 1) * sizeof memory[0]);
    memory[BALANCE_MEMORY - 1] = gross;
    *last_serial = day.serial;
    *frost_index = frost;
    return 0;
}
