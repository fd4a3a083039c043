/* Why this cell got that figure (M-105), in document 02's words: the first true reason of seven, and
 * two depths. */
#include "plain_setup.h"

static struct explained because(uint32_t reason, int64_t first, int64_t second)
{
    return (struct explained){.reason = reason, .first = (uint64_t)first, .second = (uint64_t)second};
}

/* The first true one. soil is the cell's before the day. */
static struct explained reason_of(const struct setup *s, const struct recharge_day_record *day,
                                        uint32_t cell, const struct cell_day *c, int64_t soil)
{
    if (is_open_water(s, cell)) /* open water */
        return because(1, day->gross, c->inflow);
    if (c->w == 0 && c->snow > 0) /* no water reached the ground and snow lies at the day's end */
        return because(2, c->w, c->snow);
    if (c->w == 0) /* no water reached the ground */
        return because(3, c->w, c->snow);
    if (c->infiltration < day->potential) /* infiltration below potential evapotranspiration */
        return because(4, c->infiltration, day->potential);

    int64_t capacity = capacity_of(s, cell);
    int64_t surplus = c->infiltration - day->potential, room = capacity - soil;
    if (surplus <= room) /* the soil had room for all of it */
        return because(5, surplus, room);

    int64_t excess = soil + c->infiltration - day->potential - capacity;
    int64_t largest = of_group(s, cell, RECHARGE);
    if (excess > largest) /* excess above the cover's largest */
        return because(6, excess, largest);
    return because(7, excess, largest); /* all the excess recharged */
}

uint64_t plain_why(BALANCE_SETUP_PARAMETERS, BALANCE_BEFORE_PARAMETERS, struct recharge_day_record day,
                   uint32_t cell, uint64_t reason[BALANCE_REASON])
{
    struct setup s = GIVEN_SETUP;
    const size_t others[] = {soil_len, snow_len};
    struct cell_day cells[BALANCE_MAX_CELLS];
    uint64_t no;

    reason[0] = reason[1] = reason[2] = 0; /* a refused day is explained by its refusal */
    if ((no = plain_tests_1_to_6_about(&s, others, 2, cell)) != 0)
        return no;
    if ((no = plain_tests_7_to_10(&s, &day, soil, snow, memory, last_serial, frost_index)) != 0)
        return no;
    plain_all_cells(&s, &day, soil, snow, memory, frost_index, cells);
    const struct explained why = reason_of(&s, &day, cell, &cells[cell], soil[cell]);
    reason[0] = why.reason, reason[1] = why.first, reason[2] = why.second;
    return 0;
}

uint64_t plain_check_about(BALANCE_SETUP_PARAMETERS, uint32_t cell)
{
    struct setup s = GIVEN_SETUP;

    return plain_tests_1_to_6_about(&s, NULL, 0, cell);
}
