/* Pairs of runs, of which one has more water: demand 3. */
#include "fuzz.h"

#include <inttypes.h>

void run_pair(struct grid_case *g, struct state_case *less, unsigned wetter)
{
    static struct state_case more;
    static struct world first;
    struct recharge_day_record day;
    int64_t extra = 0, came_out = 0;

    more = *less;
    for (uint32_t i = 0; i < g->cells; i++) {
        if (case_is_water(g, i) || !chance(wetter))
            continue;
        more.soil[i] = (uint32_t)edgy(less->soil[i], case_capacity(g, i));
        more.snow[i] = (uint32_t)edgy(less->snow[i],
                                      less->snow[i] > 5000000 ? less->snow[i] : 5000000);
        extra += (int64_t)more.soil[i] - less->soil[i] + more.snow[i] - less->snow[i];
    }
    tally.pairs++;
    uint64_t days = 1 + below(5);
    for (uint64_t n = 0; n < days; n++) {
        make_day(g, less, &day);
        if (n == 0 && chance(50))
            aim_setpoint(g, less, &day);
        all_day(g, less, &day, 0);
        take_state(g, less);
        copy_world(&first, &worlds[0], reach_of(g));
        all_day(g, &more, &day, 0);
        take_state(g, &more);
        tally.pair_days++;
        tally.frosty_pair_days += more.frost_index >= g->first_setpoint;

        if (worlds[0].frost_index[0] != first.frost_index[0])
            fail("demand 3: the frost indexes differ, though snow does not insulate");
        for (int k = 0; k < CASE_SLICES; k++)
            for (uint32_t i = 0; i < g->cells; i++) {
                if (worlds[0].slice[k][i] < first.slice[k][i])
                    fail("demand 3: %s of cell %" PRIu32 " is %" PRIu32 ", with more water %"
                         PRIu32, slice_names[k], i, first.slice[k][i], worlds[0].slice[k][i]);
                if (k == INTERCEPTED && worlds[0].slice[k][i] != first.slice[k][i])
                    fail("demand 3: the interception of cell %" PRIu32 " differs", i);
                tally.wetter_figures += worlds[0].slice[k][i] > first.slice[k][i];
                tally.more_runs_on += k == REJECTED && worlds[0].slice[k][i] > first.slice[k][i] &&
                                      case_next(g, i) != CASE_STAYS;
            }
        for (int i = 2; i <= 5; i++)
            came_out += (int64_t)(worlds[0].totals[i] - first.totals[i]);
        int64_t still_there = (int64_t)(worlds[0].totals[6] - first.totals[6]);
        if (extra != came_out + still_there)
            fail("demand 3: the extra water is off: %" PRId64 " is not %" PRId64 " + %" PRId64,
                 extra, came_out, still_there);
    }
}
