/* Damage to the state and the day of a call: tests 2 and 7 to 10. */
#include "cases_parts.h"

static uint64_t damage_day(struct recharge_day_record *d)
{
    static const uint32_t serials[] = {10000000, 10000001, 1u << 31, ~0u};
    static const uint32_t days[] = {0, 367, 368, 366 + 65536, 1u << 31, ~0u};
    static const uint32_t grosses[] = {400001, 400002, 1u << 31, ~0u};
    static const uint32_t potentials[] = {20001, 20002, 65536 + 10000, 1u << 31, ~0u};
    static const int32_t lows[] = {-1001, -1002, -66536, INT32_MIN};
    static const int32_t highs[] = {1501, 1502, 67036, INT32_MAX};

    switch (below(9)) {
    case 0: d->serial = ONE_OF(serials); break;
    case 1: d->day_of_year = ONE_OF(days); break;
    case 2: d->gross = ONE_OF(grosses); break;
    case 3: d->potential = ONE_OF(potentials); break;
    case 4: d->minimum = ONE_OF(lows); break;
    case 5: d->maximum = ONE_OF(highs); break;
    case 6: /* all below or above */
        if (chance(50))
            d->minimum = d->mean = d->maximum = ONE_OF(lows);
        else
            d->minimum = d->mean = d->maximum = ONE_OF(highs);
        break;
    case 7:
        if (d->mean == 1500)
            d->minimum = d->mean = 1499;
        d->minimum = d->mean + 1;
        if (d->maximum < d->minimum)
            d->maximum = d->minimum;
        break;
    default:
        if (d->mean == -1000)
            d->mean = -999;
        d->maximum = d->mean - 1;
        if (d->minimum > d->maximum)
            d->minimum = d->maximum;
        break;
    }
    return refusal(7, 0);
}

static uint64_t damage_serial(struct state_case *s, struct recharge_day_record *d)
{
    static const uint32_t strange[] = {9999999, 10000000, 10000001, 1u << 31, ~0u - 1, ~0u - 2};

    if (chance(30)) { /* a last serial that no day can follow */
        s->last_serial = ONE_OF(strange);
        if (chance(30)) {
            d->serial = s->last_serial + 1;
            return refusal(7, 0);
        }
        return refusal(8, 0);
    }
    if (s->last_serial == BALANCE_NO_SERIAL)
        s->last_serial = edgy32(0, 9999990);
    const uint32_t last = s->last_serial;
    const uint32_t serials[] = {last, last + 2, last == 0 ? 7 : last - 1, last + 257};
    d->serial = ONE_OF(serials);
    if (d->serial > 9999999)
        d->serial = last;
    return refusal(8, 0);
}

/* The rain memory, the frost index or both. */
static void damage_past(struct state_case *s)
{
    static const uint32_t memories[] = {400001, 400002, 1u << 31, ~0u};
    static const uint32_t indexes[] = {2500001, 2500002, 1u << 31, ~0u};
    uint64_t which = below(3);

    if (which != 0)
        s->frost_index = ONE_OF(indexes);
    if (which != 1) {
        uint64_t day = below(BALANCE_MEMORY);
        s->memory[day] = ONE_OF(memories);
    }
}

static uint64_t damage_state(const struct grid_case *g, struct state_case *s)
{
    uint32_t lowest = g->cells;

    if (chance(40)) {
        damage_past(s);
        if (chance(60))
            return refusal(9, g->cells);
    }
    for (uint32_t times = chance(70) ? 1 : 2; times > 0; times--) {
        uint32_t cell = chance(20) ? g->cells - 1 : (uint32_t)below(g->cells);
        uint32_t most = case_is_water(g, cell) ? 0 : 10000000;
        if (chance(50))
            s->soil[cell] = chance(60) ? case_capacity(g, cell) + 1 : ~0u - (uint32_t)below(9);
        else
            s->snow[cell] = chance(60) ? most + 1 : ~0u - (uint32_t)below(500000);
        if (cell < lowest)
            lowest = cell;
    }
    return refusal(9, lowest);
}

/* A store at the limit: snowfall takes it there or one past it. */
static uint64_t damage_snow(const struct grid_case *g, struct state_case *s, struct recharge_day_record *d)
{
    uint32_t lowest = g->cells;
    bool growing = g->first <= d->day_of_year && d->day_of_year <= g->last;

    if (chance(50))
        d->gross = edgy32(1, 400000);
    d->mean = (int32_t)between_signed(-1000, 320); /* 3 x mean <= 960 */
    d->minimum = (int32_t)between_signed(-1000, d->mean);
    d->maximum = (int32_t)between_signed(d->mean, 1500); /* it may melt all the same */
    for (uint32_t times = chance(50) ? 1 : 3; times > 0; times--) {
        uint32_t cell = (uint32_t)below(g->cells);
        if (case_is_water(g, cell))
            continue;
        uint32_t figure = case_entry(g, cell)[growing ? E_GROWING : E_DORMANT];
        uint32_t net = d->gross < figure ? 0 : d->gross - figure;
        if (net == 0 || chance(30)) {
            if (cell != lowest) /* not over one that was spoilt before */
                s->snow[cell] = s->snow[cell] > 5000000 ? s->snow[cell] : 10000000 - net;
        } else {
            s->snow[cell] = 10000000 - net + 1 + (uint32_t)below(chance(50) ? 1 : net);
            if (cell < lowest)
                lowest = cell;
        }
    }
    return lowest == g->cells ? 0 : refusal(10, lowest);
}

uint64_t damage_length_of(struct state_case *s, uint32_t cells, unsigned slices)
{
    uint64_t which = below(slices);

    s->len[which] = wrong_length(cells);
    return refusal(2, 0);
}

uint64_t damage_call(const struct grid_case *g, struct state_case *s, struct recharge_day_record *d)
{
    switch (below(10)) {
    case 0: return damage_length_of(s, g->cells, CASE_SLICES);
    case 1:
    case 2: return damage_day(d);
    case 3: return damage_serial(s, d);
    case 4:
    case 5:
    case 6: return damage_state(g, s);
    default: return damage_snow(g, s, d);
    }
}
