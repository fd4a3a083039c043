/* Frozen ground: the index of an accepted day, and how often the frost had a say. */
#include "fuzz.h"

#include <inttypes.h>
#include <stdio.h>

enum { FIRST, SECOND, SETPOINTS };

/* Accepted days, and two refusals. */
static struct {
    uint64_t made_three, made_two;   /* that frost made III; of condition I, that it made II */
    uint64_t three_flows, two_flows; /* those of them with some runoff, which tells the condition */
    uint64_t stayed;                 /* at or above the first setpoint, whose condition stayed */
    uint64_t below[SETPOINTS], at[SETPOINTS], above[SETPOINTS]; /* whose index is one below a setpoint, at it, one above */
    uint64_t most_index, most_setpoint, equal; /* of an index of 2,500,000 before; a setpoint of 2,000,000; equal ones */
    uint64_t setpoints_refused, index_refused;
} frost;

/* Rule 5's condition, 1 to 3, before the frost has its say. */
static int antecedent(const struct grid_case *g, const struct recharge_day_record *d)
{
    bool growing = g->first <= d->day_of_year && d->day_of_year <= g->last;
    uint64_t sum = 0;

    for (int i = 0; i < BALANCE_MEMORY; i++)
        sum += before.memory[i];
    if (sum < (growing ? 14000 : 5000))
        return 1;
    return sum > (growing ? 21000 : 11000) ? 3 : 2;
}

/* Does some land of the grid run off? */
static bool runs_off(const struct grid_case *g)
{
    for (uint32_t i = 0; i < g->cells; i++)
        if (worlds[0].slice[OUTFLOW][i] > worlds[0].slice[REJECTED][i] && !case_is_water(g, i))
            return true;
    return false;
}

void check_frost(const struct grid_case *g, const struct recharge_day_record *d)
{
    const uint32_t index = worlds[0].frost_index[0], wanted = case_frost(before.frost_index[0], d->mean);
    const uint32_t setpoints[SETPOINTS] = {g->first_setpoint, g->second_setpoint};
    const int condition = antecedent(g, d);

    if (index != wanted)
        fail("the frost index is %" PRIu32 ", by M-106 %" PRIu32, index, wanted);
    for (int i = 0; i < SETPOINTS; i++) {
        frost.below[i] += index + 1 == setpoints[i];
        frost.at[i] += index == setpoints[i];
        frost.above[i] += index == setpoints[i] + 1;
    }
    frost.most_index += before.frost_index[0] == 2500000;
    frost.most_setpoint += g->second_setpoint == 2000000;
    frost.equal += g->first_setpoint == g->second_setpoint;
    if (index >= g->second_setpoint && condition != 3) {
        frost.made_three++;
        frost.three_flows += runs_off(g);
    } else if (index >= g->first_setpoint && index < g->second_setpoint && condition == 1) {
        frost.made_two++;
        frost.two_flows += runs_off(g);
    } else if (index >= g->first_setpoint) {
        frost.stayed++;
    }
}

void count_setpoints(const struct grid_case *g, uint64_t returned)
{
    bool season = g->first >= 1 && g->first <= g->last && g->last <= 366;

    frost.setpoints_refused += returned >> 32 == 6 && season;
}

void count_index(const struct grid_case *g, const struct state_case *s, uint64_t returned)
{
    bool memory = true;

    for (int i = 0; i < BALANCE_MEMORY; i++)
        memory = memory && s->memory[i] <= 400000;
    frost.index_refused += returned == ((uint64_t)9 << 32 | g->cells) && memory;
}

void report_frost(void)
{
    printf("days that frost made condition III: %" PRIu64 ", %" PRIu64 " of them with runoff; I that it made II: %" PRIu64
           ", %" PRIu64 " with runoff; left as it was: %" PRIu64 "\n",
           frost.made_three, frost.three_flows, frost.made_two, frost.two_flows, frost.stayed);
    for (int i = 0; i < SETPOINTS; i++)
        printf("days whose frost index is one below the %s setpoint: %" PRIu64 ", at it: %" PRIu64 ", one above: %" PRIu64 "\n",
               i == FIRST ? "first" : "second", frost.below[i], frost.at[i], frost.above[i]);
    printf("days after a frost index of 2,500,000: %" PRIu64 ", with a setpoint of 2,000,000: %" PRIu64
           ", with equal setpoints: %" PRIu64 "\n",
           frost.most_index, frost.most_setpoint, frost.equal);
    printf("refused by the setpoints alone: %" PRIu64 ", by the frost index alone: %" PRIu64 "\n", frost.setpoints_refused,
           frost.index_refused);
}

void frost_often(uint64_t cases)
{
    enough("frost made a day with runoff condition III", frost.three_flows, cases);
    enough("frost made a day with runoff II out of I", frost.two_flows, cases);
    enough("frost left a condition as it was", frost.stayed, cases);
    for (int i = 0; i < SETPOINTS; i++) {
        enough("the frost index was one below a setpoint", frost.below[i], cases);
        enough("the frost index was a setpoint", frost.at[i], cases);
        enough("the frost index was one above a setpoint", frost.above[i], cases);
    }
    enough("the largest frost index was accepted", frost.most_index, cases);
    enough("the largest setpoint was accepted", frost.most_setpoint, cases);
    enough("equal setpoints were accepted", frost.equal, cases);
    enough("setpoints were refused", frost.setpoints_refused, cases);
    enough("a frost index was refused", frost.index_refused, cases);
}
