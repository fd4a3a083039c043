/* Valid states and days. */
#include "cases_parts.h"

/* Five figures whose sum is often at a limit of rule 5. */
static void make_memory(uint32_t *memory)
{
    static const uint32_t sums[] = {0,     4999,  5000,  5001,  10999, 11000, 11001,
                                    13999, 14000, 14001, 20999, 21000, 21001};
    uint32_t left = chance(75) ? ONE_OF(sums) : edgy32(0, 400000);

    for (int i = 0; i < BALANCE_MEMORY; i++) {
        memory[i] = i + 1 < BALANCE_MEMORY ? (uint32_t)between(0, left) : left;
        left -= memory[i];
    }
    if (chance(10))
        for (int i = 0; i < BALANCE_MEMORY; i++)
            memory[i] = edgy32(0, 400000);
    uint32_t a = (uint32_t)below(BALANCE_MEMORY), b = (uint32_t)below(BALANCE_MEMORY);
    uint32_t swap = memory[a];
    memory[a] = memory[b];
    memory[b] = swap;
}

void make_state(const struct grid_case *g, struct state_case *s)
{
    unsigned full = (unsigned)below(100), bare = (unsigned)below(100);

    for (uint32_t i = 0; i < g->cells; i++) {
        uint32_t capacity = case_capacity(g, i);
        s->soil[i] = chance(full) ? capacity : edgy32(0, capacity);
        /* Far enough from the limit for all days of a run; damage_call goes to the limit. */
        s->snow[i] = case_is_water(g, i) || chance(bare) ? 0 : edgy32(0, 5000000);
    }
    make_memory(s->memory);
    s->last_serial = chance(20) ? BALANCE_NO_SERIAL : edgy32(0, 9999980);
    s->frost_index = make_frost_index(g);
    for (int i = 0; i < CASE_SLICES; i++)
        s->len[i] = g->cells;
}

static void make_temperatures(struct recharge_day_record *d)
{
    int64_t low, high, mean;

    switch (below(6)) {
    case 0: /* anything */
        low = between_signed(-1000, 1500);
        high = between_signed(low, 1500);
        mean = between_signed(low, high);
        break;
    case 1: /* frost */
        high = between_signed(-1000, 320);
        low = between_signed(-1000, high);
        mean = between_signed(low, high);
        break;
    case 2: /* at the limit of snow */
        low = between_signed(100, 340);
        high = between_signed(low, 700);
        mean = (960 + high - low) / 3 + between_signed(-2, 2);
        break;
    case 3: /* about the melting point */
        high = 320 + between_signed(-1, 30);
        low = high - between_signed(0, 200);
        mean = between_signed(low, high);
        break;
    case 4: /* the ends */
        low = chance(50) ? -1000 : 1500;
        high = chance(50) ? 1500 : low;
        mean = chance(50) ? low : high;
        break;
    default: /* warm */
        low = between_signed(350, 700);
        high = low + between_signed(0, 400);
        mean = between_signed(low, high);
        break;
    }
    d->minimum = (int32_t)low;
    d->maximum = (int32_t)high;
    d->mean = (int32_t)(mean < low ? low : mean > high ? high : mean);
}

void make_day(const struct grid_case *g, const struct state_case *s, struct recharge_day_record *d)
{
    d->serial = s->last_serial == BALANCE_NO_SERIAL ? edgy32(0, 9999980) : s->last_serial + 1;
    switch (below(5)) { /* often at an end of the season */
    case 0: d->day_of_year = g->first - (g->first > 1 && chance(50)); break;
    case 1: d->day_of_year = g->last + (g->last < 366 && chance(50)); break;
    default: d->day_of_year = edgy32(1, 366); break;
    }
    switch (below(6)) {
    case 0: d->gross = 0; break;
    case 1: d->gross = edgy32(0, 400000); break;
    case 2: d->gross = 400000; break;
    default: d->gross = (uint32_t)between(0, chance(50) ? 5000 : 40000); break;
    }
    make_temperatures(d);
    d->potential = chance(50) ? edgy32(0, 20000) : (uint32_t)between(0, 3000);
}

bool case_snows(const struct recharge_day_record *d)
{
    return 3 * d->mean - (d->maximum - d->minimum) <= 960;
}

/* Not as the implementations have it: 1.5 mm are 150,000 hundred-thousandths of a millimetre, 254 of
 * them a unit, and a degree Celsius is 18 tenths of a degree Fahrenheit. */
uint32_t case_melt(int32_t maximum)
{
    return maximum > 320 ? 150000 * (uint32_t)(maximum - 320) / (18 * 254) : 0;
}

void aim_melt(const struct grid_case *g, struct state_case *s, const struct recharge_day_record *d)
{
    uint32_t cell = (uint32_t)below(g->cells), most = case_melt(d->maximum);

    if (most > 0 && !(case_snows(d) && d->gross > 0) && !case_is_water(g, cell))
        s->snow[cell] = most - 1 + (uint32_t)below(3);
}

void make_dry(struct grid_case *g, struct state_case *s, struct recharge_day_record *d)
{
    do
        make_grid(g);
    while (g->covers[E_WATER] == 1);
    g->width = g->height = g->cells = 1;
    g->direction_len = g->cover_len = g->group_len = g->water_len = 1;
    g->direction[0] = closed_number();
    g->cover[0] = g->covers[0];
    uint32_t *root = g->covers + E_ROOTS + g->group[0] - 1;
    bool end = chance(50);
    *root = end ? 10 : (uint32_t)between(1, 1000);
    g->water[0] = end ? (uint32_t)between(218, 250) : (uint32_t)between(1, 600);
    make_state(g, s);
    make_day(g, s, d);
    uint32_t capacity = case_capacity(g, 0);
    uint64_t k = end ? 2048 : between(1, 2048);
    uint64_t aim = k * capacity / 256 + 1, less = below(end ? 12 : 3);
    aim -= less < aim ? less : aim;
    d->potential = aim > 20000 ? 20000 : (uint32_t)aim;
    d->gross = 0;
    s->snow[0] = 0;
    if (end) {
        uint32_t soil = (uint32_t)between(2170, 2190);
        s->soil[0] = soil < capacity ? soil : capacity;
    }
}
