/* Document 01's ten tests, as document 02 amends them, one function a test. */
#include "plain_setup.h"

/* The limits. */
enum {
    LARGEST_GROSS = 400000,
    LARGEST_SNOW = 10000000,
    LARGEST_SERIAL = 9999999,
    LARGEST_POTENTIAL = 20000,
    LOWEST_TEMPERATURE = -1000,
    HIGHEST_TEMPERATURE = 1500,
    DAYS_IN_YEAR = 366,
    LARGEST_SETPOINT = 2000000,
    LARGEST_FROST_INDEX = 2500000
};

/* 1: width or height 0, or more than 4,096 cells. */
static uint64_t test_1(const struct setup *s)
{
    if (s->site.width == 0 || s->site.height == 0 ||
        (uint64_t)s->site.width * s->site.height > BALANCE_MAX_CELLS)
        return refusal(1, 0);
    return 0;
}

/* 2: a lent slice is not exactly one entry per cell. The setup's four, and the others that
 * this call was lent. */
static uint64_t test_2(const struct setup *s, const size_t *others, size_t others_count)
{
    size_t cells = cell_count(s);

    if (s->direction_len != cells || s->cover_len != cells || s->group_len != cells ||
        s->water_len != cells)
        return refusal(2, 0);
    for (size_t i = 0; i < others_count; i++)
        if (others[i] != cells)
            return refusal(2, 0);
    return 0;
}

/* Is one of four numbers outside lowest to highest? */
static bool four_outside(const uint32_t *four, uint32_t lowest, uint32_t highest)
{
    for (int i = 0; i < 4; i++)
        if (four[i] < lowest || four[i] > highest)
            return true;
    return false;
}

static bool entry_values_outside(const uint32_t *entry)
{
    return entry[CODE] < 1 || entry[CODE] > 255 ||
           entry[OPEN_WATER] > 1 ||
           four_outside(entry + CURVE, 30, 100) ||
           four_outside(entry + RECHARGE, 0, 100000) ||
           entry[GROWING] > 10000 || entry[DORMANT] > 10000 ||
           four_outside(entry + ROOTS, 0, 1000);
}

/* 3: cover table size, order or a value outside its limits. */
static uint64_t test_3(const struct setup *s)
{
    size_t entries = s->covers_len / BALANCE_ENTRY;

    if (s->covers_len % BALANCE_ENTRY != 0 || entries < 1 || entries > BALANCE_MAX_COVERS)
        return refusal(3, 0);
    for (size_t i = 0; i < entries; i++) {
        const uint32_t *entry = s->covers + i * BALANCE_ENTRY;
        if (entry_values_outside(entry))
            return refusal(3, i);
        if (i > 0 && entry[CODE] <= entry[CODE - BALANCE_ENTRY]) /* the later one for order */
            return refusal(3, i);
    }
    return 0;
}

/* 4: a cell's code not in the table, group or water outside. */
static uint64_t test_4(const struct setup *s)
{
    for (uint32_t cell = 0; cell < cell_count(s); cell++)
        if (entry_with_code(s, s->cover[cell]) == NULL ||
            s->group[cell] < 1 || s->group[cell] > 4 ||
            s->water[cell] > 600)
            return refusal(4, cell);
    return 0;
}

/* 5: some cell's directions lead back to it; the lowest cell on a ring. A ring has no more
 * cells than the grid. */
static uint64_t test_5(const struct setup *s)
{
    struct way ways[BALANCE_MAX_CELLS];

    find_ways(s, ways);
    for (uint32_t cell = 0; cell < cell_count(s); cell++) {
        uint32_t at = cell;
        for (uint32_t steps = 0; steps < cell_count(s) && ways[at].goes == TO_CELL; steps++) {
            at = ways[at].cell;
            if (at == cell)
                return refusal(5, cell);
        }
    }
    return 0;
}

/* 6: season outside its limits, or setpoints (M-106). */
static uint64_t test_6(const struct setup *s)
{
    if (s->site.first_growing < 1 || s->site.first_growing > DAYS_IN_YEAR || s->site.last_growing < 1 || s->site.last_growing > DAYS_IN_YEAR ||
        s->site.first_growing > s->site.last_growing)
        return refusal(6, 0);
    if (s->site.first_setpoint > LARGEST_SETPOINT || s->site.second_setpoint > LARGEST_SETPOINT ||
        s->site.first_setpoint > s->site.second_setpoint)
        return refusal(6, 0);
    return 0;
}

static uint64_t tests_1_to_4(const struct setup *s, const size_t *others, size_t others_count)
{
    uint64_t no;

    if ((no = test_1(s)) != 0) return no;
    if ((no = test_2(s, others, others_count)) != 0) return no;
    if ((no = test_3(s)) != 0) return no;
    return test_4(s);
}

static uint64_t tests_5_and_6(const struct setup *s)
{
    uint64_t no = test_5(s);

    return no != 0 ? no : test_6(s);
}

uint64_t plain_tests_1_to_6(const struct setup *s, const size_t *others, size_t others_count)
{
    uint64_t no = tests_1_to_4(s, others, others_count);

    return no != 0 ? no : tests_5_and_6(s);
}

uint64_t plain_tests_1_to_6_about(const struct setup *s, const size_t *others, size_t others_count, uint32_t cell)
{
    uint64_t no = tests_1_to_4(s, others, others_count);

    if (no != 0)
        return no;
    if (cell >= cell_count(s)) /* a cell outside the grid is 4 at its number */
        return refusal(4, cell);
    return tests_5_and_6(s);
}

static bool temperature_outside(int32_t t)
{
    return t < LOWEST_TEMPERATURE || t > HIGHEST_TEMPERATURE;
}

/* 7: a day value outside its limits. */
static uint64_t test_7(const struct recharge_day_record *day)
{
    if (day->serial > LARGEST_SERIAL ||
        day->day_of_year < 1 || day->day_of_year > DAYS_IN_YEAR ||
        day->gross > LARGEST_GROSS ||
        temperature_outside(day->minimum) || temperature_outside(day->mean) ||
        temperature_outside(day->maximum) ||
        day->minimum > day->mean || day->mean > day->maximum ||
        day->potential > LARGEST_POTENTIAL)
        return refusal(7, 0);
    return 0;
}

/* 8: serial does not follow. */
static uint64_t test_8(const struct recharge_day_record *day, uint32_t last_serial)
{
    if (last_serial != BALANCE_NO_SERIAL && (uint64_t)day->serial != (uint64_t)last_serial + 1)
        return refusal(8, 0);
    return 0;
}

/* 9: state outside its limits: the cell, or the cell count for memory, serial or frost index. (In a
 * day the last serial cannot fail here, since tests 7 and 8 come first.) */
static uint64_t test_9(const struct setup *s, const uint32_t *soil, const uint32_t *snow,
                       const uint32_t *memory, uint32_t last_serial, uint32_t frost_index)
{
    uint32_t cells = cell_count(s);

    for (uint32_t cell = 0; cell < cells; cell++) {
        int64_t most_soil = is_open_water(s, cell) ? 0 : capacity_of(s, cell);
        int64_t most_snow = is_open_water(s, cell) ? 0 : LARGEST_SNOW;
        if (soil[cell] > most_soil || snow[cell] > most_snow)
            return refusal(9, cell);
    }
    for (int i = 0; i < BALANCE_MEMORY; i++)
        if (memory[i] > LARGEST_GROSS)
            return refusal(9, cells);
    if (last_serial != BALANCE_NO_SERIAL && last_serial > LARGEST_SERIAL)
        return refusal(9, cells);
    if (frost_index > LARGEST_FROST_INDEX)
        return refusal(9, cells);
    return 0;
}

/* 10: snowfall would take some store past 10,000,000, before the day's melt. */
static uint64_t test_10(const struct setup *s, const struct recharge_day_record *day, const uint32_t *snow)
{
    if (!plain_falls_as_snow(day->minimum, day->mean, day->maximum))
        return 0;
    for (uint32_t cell = 0; cell < cell_count(s); cell++)
        if (!is_open_water(s, cell) &&
            snow[cell] + (day->gross - plain_interception_of(s, day, cell)) > LARGEST_SNOW)
            return refusal(10, cell);
    return 0;
}

uint64_t plain_tests_7_to_10(const struct setup *s, const struct recharge_day_record *day, const uint32_t *soil,
                             const uint32_t *snow, const uint32_t *memory, uint32_t last_serial, uint32_t frost_index)
{
    uint64_t no;

    if ((no = test_7(day)) != 0) return no;
    if ((no = test_8(day, last_serial)) != 0) return no;
    if ((no = test_9(s, soil, snow, memory, last_serial, frost_index)) != 0) return no;
    return test_10(s, day, snow);
}
