/* Document 01, as document 02 amends it, as plainly as it can be said in C: one function a rule
 * (plain_rules.c) and one a test (plain_tests.c); here the check, the fresh state and the day made
 * of them. Nothing here is meant to be fast. */
#include "plain_setup.h"

#include <string.h>

uint64_t plain_check(BALANCE_SETUP_PARAMETERS)
{
    struct setup s = GIVEN_SETUP;

    return plain_tests_1_to_6(&s, NULL, 0);
}

uint64_t plain_fresh(BALANCE_SETUP_PARAMETERS, BALANCE_STATE_PARAMETERS)
{
    struct setup s = GIVEN_SETUP;
    const size_t others[] = {soil_len, snow_len};

    memset(memory, 0, BALANCE_MEMORY * sizeof memory[0]); /* refused or not */
    *last_serial = BALANCE_NO_SERIAL;
    *frost_index = 0;

    uint64_t no = plain_tests_1_to_6(&s, others, 2);
    if (no != 0)
        return no;
    for (uint32_t cell = 0; cell < cell_count(&s); cell++) {
        soil[cell] = is_open_water(&s, cell) ? 0 : (uint32_t)capacity_of(&s, cell);
        snow[cell] = 0;
    }
    return 0;
}

/* How many cells a cell's water still has to pass through. Without rings this ends, and a
 * cell pointing to another has one step more: so, most steps first is upslope first. */
static uint32_t steps_to_the_end(const struct way *ways, uint32_t cell)
{
    uint32_t steps = 0;

    for (; ways[cell].goes == TO_CELL; cell = ways[cell].cell)
        steps++;
    return steps;
}

/* Rule 5's condition as M-106 amends it: what the day counts as. The frost index comes first: the
 * one that today sets decides. */
static enum plain_condition condition_today(const struct setup *s, const struct recharge_day_record *day,
                                            const uint32_t *memory, uint32_t frost_index)
{
    int64_t five_day_sum = 0; /* the five previous days: today is not yet among them */

    for (int i = 0; i < BALANCE_MEMORY; i++)
        five_day_sum += memory[i];
    return plain_counts_as(plain_antecedent(five_day_sum, is_growing(s, day->day_of_year)),
                           plain_frost(frost_index, day->mean), s->site.first_setpoint,
                           s->site.second_setpoint);
}

void plain_all_cells(const struct setup *s, const struct recharge_day_record *day, const uint32_t *soil,
                     const uint32_t *snow, const uint32_t *memory, uint32_t frost_index, struct cell_day *cells)
{
    enum plain_condition condition = condition_today(s, day, memory, frost_index);
    struct way ways[BALANCE_MAX_CELLS];
    uint32_t steps[BALANCE_MAX_CELLS];
    int64_t inflow[BALANCE_MAX_CELLS] = {0};
    uint32_t most_steps = 0;

    find_ways(s, ways);
    for (uint32_t cell = 0; cell < cell_count(s); cell++) {
        steps[cell] = steps_to_the_end(ways, cell);
        if (steps[cell] > most_steps)
            most_steps = steps[cell];
    }
    for (uint32_t left = most_steps + 1; left-- > 0;) {
        for (uint32_t cell = 0; cell < cell_count(s); cell++) {
            if (steps[cell] != left)
                continue;
            cells[cell] = plain_cell_rules(s, day, condition, cell, ways[cell], inflow[cell],
                                           soil[cell], snow[cell]);
            if (ways[cell].goes == TO_CELL)
                inflow[ways[cell].cell] += cells[cell].outflow;
        }
    }
}

/* Totals: sums over the cells; of what is rejected, closed depressions alone (M-104). */
static void sum_up(const struct setup *s, const struct recharge_day_record *day,
                   const struct cell_day *cells, uint64_t *totals)
{
    for (uint32_t cell = 0; cell < cell_count(s); cell++) {
        const struct cell_day *c = &cells[cell];
        struct way way = way_of(s, cell);
        totals[0] += day->gross;
        totals[1] += (uint64_t)c->intercepted;
        totals[2] += (uint64_t)c->evapotranspired;
        totals[3] += (uint64_t)c->recharged;
        if (way.goes == NOWHERE)
            totals[4] += (uint64_t)c->rejected;
        if (is_open_water(s, cell) || way.goes == LEAVES)
            totals[5] += (uint64_t)c->outflow;
        totals[6] += (uint64_t)(c->soil + c->snow);
    }
}

uint64_t plain_day(BALANCE_SETUP_PARAMETERS, BALANCE_STATE_PARAMETERS,
                   BALANCE_RESULT_PARAMETERS, struct recharge_day_record day)
{
    struct setup s = GIVEN_SETUP;
    const size_t others[] = {soil_len, snow_len, intercepted_len, outflow_len,
                             evapotranspired_len, recharged_len, rejected_len};
    struct cell_day cells[BALANCE_MAX_CELLS];
    uint64_t no;

    memset(totals, 0, BALANCE_TOTALS * sizeof totals[0]);
    if ((no = plain_tests_1_to_6(&s, others, 7)) != 0) return no;
    if ((no = plain_tests_7_to_10(&s, &day, soil, snow, memory, *last_serial, *frost_index)) != 0) return no;

    plain_all_cells(&s, &day, soil, snow, memory, *frost_index, cells);
    for (uint32_t cell = 0; cell < cell_count(&s); cell++) {
        soil[cell] = (uint32_t)cells[cell].soil;
        snow[cell] = (uint32_t)cells[cell].snow;
        intercepted[cell] = (uint32_t)cells[cell].intercepted;
        outflow[cell] = (uint32_t)cells[cell].outflow;
        evapotranspired[cell] = (uint32_t)cells[cell].evapotranspired;
        recharged[cell] = (uint32_t)cells[cell].recharged;
        rejected[cell] = (uint32_t)cells[cell].rejected;
    }
    sum_up(&s, &day, cells, totals);

    /* The next memory: the oldest figure dropped, today's added. */
    for (int i = 0; i + 1 < BALANCE_MEMORY; i++)
        memory[i] = memory[i + 1];
    memory[BALANCE_MEMORY - 1] = day.gross;
    *last_serial = day.serial;
    *frost_index = (uint32_t)plain_frost(*frost_index, day.mean);
    return 0;
}
