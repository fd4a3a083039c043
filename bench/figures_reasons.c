/* M-105, by hand: why the cells of the worked example got their figures, and every reason and edge at
 * one closed cell. */
#include "figures.h"

/* Holds an answer to a reason and its two depths. */
static void reason(const char *who, const char *what, struct explained why, uint32_t number, uint64_t first,
                   uint64_t second)
{
    figure(who, what, why.returned == 0 ? (int64_t)why.reason : -1, number);
    figure(who, "  first depth", (int64_t)why.first, (int64_t)first);
    figure(who, "  second depth", (int64_t)why.second, (int64_t)second);
}

/* The worked example: of the 30,000 units of cell 0 2,461 run off and 27,539 sink in; 22,000 flow out of
 * it, so that 52,000 sink in at cell 1, a closed depression. Both soils are full. */
static void example_reasons(const struct implementation *x)
{
    static const uint32_t covers[] = {3, 0, 75, 75, 75, 75, 6000, 6000, 6000, 6000, 900, 0, 250, 250, 250, 250};
    static const uint32_t direction[] = {1, 0}, cover[] = {3, 3}, group[] = {2, 2}, water[] = {200, 200};
    static const uint32_t full[] = {50000, 50000}, bare[] = {0, 0}, memory[5] = {0};
    const struct recharge_site site = {2, 1, 120, 270, TEXT_FIRST_SETPOINT, TEXT_SECOND_SETPOINT};
    const struct recharge_day_record day = {1, 150, 30900, 600, 700, 800, 2000};

    uint64_t told[BALANCE_REASON];
    struct explained why[3];

    for (uint32_t i = 0; i < 3; i++)
        why[i] = explained(x->why(site, covers, 16, direction, 2, cover, 2, group, 2, water, 2, full, 2, bare, 2, memory,
                                  BALANCE_NO_SERIAL, 0, day, i, told), told);
    reason(x->name, "why, cell 0 of the worked day", why[0], 6, 25539, 6000);
    reason(x->name, "why, cell 1 of the worked day", why[1], 6, 50000, 6000);
    figure(x->name, "why, cell 2: refusal 4", (int64_t)(why[2].returned >> 32), 4);
    figure(x->name, "  at 2", (int64_t)(why[2].returned & UINT32_MAX), 2);
}

/* A closed cell without interception, whose soil of 50,000 holds 40,000 and whose cover lets 6,000
 * recharge; the potential is 2,000. */
static struct explained one_why(const struct implementation *x, uint32_t open_water, uint32_t snow, uint32_t gross,
                                      int32_t maximum)
{
    const uint32_t covers[] = {3, open_water, 75, 75, 75, 75, 6000, 6000, 6000, 6000, 0, 0, 250, 250, 250, 250};
    const uint32_t direction[] = {0}, cover[] = {3}, group[] = {2}, water[] = {200}, memory[5] = {0};
    const uint32_t soil[] = {open_water ? 0 : 40000}, lies[] = {snow};
    const struct recharge_site site = {1, 1, 100, 200, TEXT_FIRST_SETPOINT, TEXT_SECOND_SETPOINT};
    const struct recharge_day_record day = {1, 150, gross, maximum, maximum, maximum, 2000};

    uint64_t told[BALANCE_REASON];

    return explained(x->why(site, covers, 16, direction, 1, cover, 1, group, 1, water, 1, soil, 1, lies, 1, memory,
                            BALANCE_NO_SERIAL, 0, day, 0, told), told);
}

void reason_days(const struct implementation *x)
{
    if (x->why == NULL)
        return;
    example_reasons(x);
    reason(x->name, "why, open water", one_why(x, 1, 0, 12000, 700), 1, 12000, 0);
    reason(x->name, "why, snow that does not melt", one_why(x, 0, 5000, 0, 320), 2, 0, 5000);
    reason(x->name, "why, snow that falls", one_why(x, 0, 0, 5000, 320), 2, 0, 5000);
    reason(x->name, "why, nothing fell", one_why(x, 0, 0, 0, 700), 3, 0, 0);
    reason(x->name, "why, 32 of the snow melt", one_why(x, 0, 5000, 0, 321), 4, 32, 2000);
    reason(x->name, "why, one less than the potential", one_why(x, 0, 0, 1999, 700), 4, 1999, 2000);
    reason(x->name, "why, just the potential", one_why(x, 0, 0, 2000, 700), 5, 0, 10000);
    reason(x->name, "why, just the room", one_why(x, 0, 0, 12000, 700), 5, 10000, 10000);
    reason(x->name, "why, one more than the room", one_why(x, 0, 0, 12001, 700), 7, 1, 6000);
    reason(x->name, "why, just the largest", one_why(x, 0, 0, 18000, 700), 7, 6000, 6000);
    reason(x->name, "why, one more than the largest", one_why(x, 0, 0, 18001, 700), 6, 6001, 6000);
}
