/* Frozen ground: the frost index that a day sets, setpoints, and indexes about them. */
#include "cases_parts.h"

/* Not as the implementations have it: a whole number of hundredths is lost; then what frost adds is
 * rounded up, what a thaw takes is rounded down. */
uint32_t case_frost(uint32_t index, int32_t mean)
{
    uint32_t kept = index - (3 * index + 99) / 100;

    if (mean < 320)
        return kept + (1000 * (uint32_t)(320 - mean) + 17) / 18;
    uint32_t thaw = 1000 * (uint32_t)(mean - 320) / 18;
    return thaw < kept ? kept - thaw : 0;
}

static uint32_t some_setpoint(void)
{
    static const uint32_t known[] = {0, 1, 55999, 56000, 56001, 82999, 83000, 83001, 1999999, MOST_SETPOINT};

    if (chance(50))
        return ONE_OF(known);
    return chance(50) ? (uint32_t)between(0, 200000) : edgy32(0, MOST_SETPOINT);
}

void make_setpoints(struct grid_case *g)
{
    if (chance(30))
        return; /* the program's own */
    uint32_t a = some_setpoint(), b = chance(20) ? a : some_setpoint();
    g->first_setpoint = a < b ? a : b;
    g->second_setpoint = a < b ? b : a;
}

uint32_t make_frost_index(const struct grid_case *g)
{
    switch (below(6)) {
    case 0: return 0;
    case 1: return edgy32(0, MOST_FROST_INDEX);
    case 2: return g->first_setpoint + (uint32_t)between(0, 20000); /* a day may take it below */
    case 3: return g->second_setpoint + (uint32_t)between(0, 20000);
    default: return (uint32_t)between(0, 200000);
    }
}

void aim_setpoint(struct grid_case *g, const struct state_case *s, const struct recharge_day_record *d)
{
    uint32_t aim = case_frost(s->frost_index, d->mean) + (uint32_t)below(3);

    aim -= aim > 0; /* one below the index to one above it */
    if (aim > MOST_SETPOINT)
        return;
    if (chance(50)) {
        g->first_setpoint = aim;
        if (g->second_setpoint < aim)
            g->second_setpoint = edgy32(aim, MOST_SETPOINT);
    } else {
        g->second_setpoint = aim;
        if (g->first_setpoint > aim)
            g->first_setpoint = edgy32(0, aim);
    }
}
