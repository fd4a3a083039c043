/* A period as plainly as it can be said in C: the fresh state, and then one plain day after another. */
#include "balance.h"

#include <stdbool.h>

/* Where a number may have no sign, one below zero is past every limit. */
static uint32_t without_sign(int32_t number)
{
    return number < 0 ? UINT32_MAX : (uint32_t)number;
}

static struct recharge_day_record day_of(const int32_t numbers[BALANCE_DAY])
{
    return (struct recharge_day_record){.serial = without_sign(numbers[0]), .day_of_year = without_sign(numbers[1]),
                                        .gross = without_sign(numbers[2]), .minimum = numbers[3], .mean = numbers[4],
                                        .maximum = numbers[5], .potential = without_sign(numbers[6])};
}

/* Test 2 of what comes with the days. */
static bool lists_fit(uint64_t cells, size_t days_len, size_t sums_len, size_t totals_len)
{
    return days_len % BALANCE_DAY == 0 && sums_len == BALANCE_SUMS * cells && totals_len == days_len;
}

#define SETUP                                                                                             \
    site, covers, covers_len, direction, direction_len, cover, cover_len, group, group_len, water, water_len
#define STATE soil, soil_len, snow, snow_len, memory, &last_serial, &frost_index

uint64_t plain_period(BALANCE_SETUP_PARAMETERS, const int32_t *days, size_t days_len,
                      uint32_t *soil, size_t soil_len, uint32_t *snow, size_t snow_len,
                      uint64_t *sums, size_t sums_len, uint64_t *totals, size_t totals_len, uint64_t *accepted)
{
    const uint64_t cells = (uint64_t)site.width * site.height;
    uint32_t results[BALANCE_SUMS][BALANCE_MAX_CELLS], memory[BALANCE_MEMORY], last_serial, frost_index;

    *accepted = 0;
    /* test 1 comes before test 2, and test 2 before all others */
    if (plain_check(SETUP) >> 32 != 1 && !lists_fit(cells, days_len, sums_len, totals_len))
        return (uint64_t)2 << 32;
    uint64_t no = plain_fresh(SETUP, STATE);
    if (no != 0)
        return no;
    for (size_t i = 0; i < sums_len; i++)
        sums[i] = 0;
    for (size_t n = 0; n < days_len / BALANCE_DAY; n++) {
        uint64_t of_day[BALANCE_TOTALS];
        no = plain_day(SETUP, STATE, results[0], cells, results[1], cells, results[2], cells, results[3], cells,
                       results[4], cells, of_day, day_of(days + n * BALANCE_DAY));
        if (no != 0)
            return no;
        for (size_t k = 0; k < BALANCE_SUMS; k++)
            for (size_t i = 0; i < cells; i++)
                sums[k * cells + i] += results[k][i];
        for (size_t k = 0; k < BALANCE_TOTALS; k++)
            totals[n * BALANCE_TOTALS + k] = of_day[k];
        (*accepted)++;
    }
    return 0;
}
