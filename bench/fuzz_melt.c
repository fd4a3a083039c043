/* The melt of accepted days (rule 3, M-100), and how often its rate had a say. */
#include "fuzz.h"

#include <inttypes.h>
#include <stdio.h>

/* Cells of land on accepted days. */
static struct {
    uint64_t bounded;             /* where more lay than the day's maximum melts */
    uint64_t printed;             /* of them, where 0.059 inch would have melted another depth than 1.5 mm */
    uint64_t just, one_left;      /* whose store melted to the last unit by the rate; that had one unit more */
    uint64_t at, above, hottest;  /* with snow, on a day of maximum 320; 321; 1,500 */
} melt;

void check_melt(const struct grid_case *g, const struct recharge_day_record *d)
{
    const bool snows = case_snows(d);
    const uint32_t most = case_melt(d->maximum);
    const uint32_t rounded = d->maximum > 320 ? 590 * (uint32_t)(d->maximum - 320) / 18 : 0;

    for (uint32_t i = 0; i < g->cells; i++) {
        if (case_is_water(g, i))
            continue;
        const uint32_t fell = snows ? d->gross - worlds[0].slice[INTERCEPTED][i] : 0;
        const uint32_t store = before.slice[SNOW][i] + fell, left = worlds[0].slice[SNOW][i];
        if (left != (store > most ? store - most : 0))
            fail("of a store of %" PRIu32 " cell %" PRIu32 " keeps %" PRIu32 " at a maximum of %" PRId32, store, i, left,
                 d->maximum);
        melt.bounded += most > 0 && store > most;
        melt.printed += store > most && rounded != most;
        melt.just += most > 0 && store == most;
        melt.one_left += most > 0 && store == most + 1;
        melt.at += store > 0 && d->maximum == 320;
        melt.above += store > 0 && d->maximum == 321;
        melt.hottest += store > 0 && d->maximum == 1500;
    }
}

void report_melt(void)
{
    printf("cells with more snow than melts: %" PRIu64 ", %" PRIu64 " of them otherwise by 0.059 inch; with just so much: %" PRIu64
           ", with one unit more: %" PRIu64 "\n",
           melt.bounded, melt.printed, melt.just, melt.one_left);
    printf("cells with snow at a maximum of 320: %" PRIu64 ", 321: %" PRIu64 ", 1,500: %" PRIu64 "\n", melt.at, melt.above,
           melt.hottest);
}

void melt_often(uint64_t cases)
{
    enough("more snow lay than melts", melt.bounded, cases);
    enough("1.5 mm melted otherwise than 0.059 inch", melt.printed, cases);
    enough("a store was just what melts", melt.just, cases);
    enough("a store was one unit more than melts", melt.one_left, cases);
    enough("snow met a maximum of 320", melt.at, cases);
    enough("snow met a maximum of 321", melt.above, cases);
    enough("snow met a maximum of 1,500", melt.hottest, cases);
}
