/* What crates/figures must print, from the plain rules: curve numbers in the three conditions, soil after dry spells,
 * the worked capacity, the winter days of document 003's table 3, the melt by the maximum, a winter's frost index, and the
 * two refusals that no text reaches. */
#include "balance.h"
#include "plain.h"
#include "text.h"

#include <inttypes.h>
#include <stdio.h>

static void curve_numbers(void)
{
    for (int64_t n = 30; n <= 100; n++)
        printf("curve %" PRId64 " %" PRId64 " %" PRId64 " %" PRId64 "\n", n,
               plain_curve_number(n, plain_antecedent(13999, true)),
               plain_curve_number(n, plain_antecedent(14000, true)),
               plain_curve_number(n, plain_antecedent(21001, true)));
}

/* Dry days of a tenth of the capacity each, to half of it, all of it and twice as much. */
static void retention(void)
{
    for (int64_t tenths = 5; tenths <= 172; tenths++) {
        int64_t capacity = plain_capacity(200, 5 * tenths), soil = capacity;
        printf("soil %" PRId64, tenths);
        for (int day = 1; day <= 20; day++) {
            soil -= plain_loss(soil, capacity, capacity / 10);
            if (day == 5 || day == 10 || day == 20)
                printf(" %" PRId64, soil);
        }
        printf("\n");
    }
}

static void winter_days(void)
{
    /* gross; minimum, mean and maximum */
    static const int64_t days[][4] = {{900, 100, 215, 330}, {1000, 330, 370, 410},
        {1700, 240, 315, 390}, {30, 190, 235, 280}, {30, 150, 205, 260}, {30, 100, 160, 220},
        {30, 60, 140, 220}, {30, 160, 185, 210}};
    int64_t store = 0;

    for (int64_t i = 0; i < 8; i++) {
        const int64_t *d = days[i];
        int snows = plain_falls_as_snow(d[1], d[2], d[3]);
        int64_t snowfall = snows ? d[0] : 0;
        store += snowfall;
        int64_t melt = plain_melt(store, d[3]);
        store -= melt;
        printf("snow %" PRId64 " %d %" PRId64 " %" PRId64 "\n", i + 2, snows, store,
               d[0] - snowfall + melt);
    }
}

static void melts(void)
{
    static const int64_t maxima[] = {320, 321, 325, 330, 410, 500, 701, 1000, 1500};

    for (int i = 0; i < 9; i++)
        printf("melt %" PRId64 " %" PRId64 "\n", maxima[i] - 320, plain_melt(1000000, maxima[i]));
}

/* The frost index of thirty days of mean 140, from no frost on, and of 26 days of mean 410 after them. */
static void frost_days(void)
{
    int64_t index = 0;

    for (int day = 1; day <= 56; day++) {
        index = plain_frost(index, day <= 30 ? 140 : 410);
        printf("frost %d %" PRId64 "\n", day, index);
    }
}

/* Refusals 2 and 9 of a dry day of two cells: the lengths of three lent slices; soil, snow, yesterday's rain,
 * frost index. */
static void refused(const size_t *len, const uint32_t *state)
{
    static const uint32_t covers[16] = {3, 0, 75, 75, 75, 75, 0, 0, 0, 0, 0, 0, 250, 250, 250, 250};
    static const uint32_t direction[3] = {1, 0, 0}, cover[2] = {3, 3}, group[2] = {2, 2}, water[2] = {200, 200};
    uint32_t soil[3] = {state[0], state[1], 0}, snow[2] = {0, state[2]};
    uint32_t memory[5] = {0, 0, 0, 0, state[3]}, last = BALANCE_NO_SERIAL, frost_index = state[4];
    uint32_t intercepted[2], outflow[2], evapotranspired[2], recharged[2], rejected[3];
    uint64_t totals[7];
    const struct recharge_site site = {2, 1, 100, 200, TEXT_FIRST_SETPOINT, TEXT_SECOND_SETPOINT};
    const struct recharge_day_record day = {1, 150, 0, 600, 700, 800, 0};
    uint64_t no = plain_day(site, covers, 16, direction, len[0], cover, 2, group, 2, water, 2, soil, len[1], snow, 2,
                            memory, &last, &frost_index, intercepted, 2, outflow, 2, evapotranspired, 2, recharged, 2,
                            rejected, len[2], totals, day);

    printf("refused %" PRIu64 " %" PRIu64 "\n", no >> 32, no & UINT32_MAX);
}

static void refusals(void)
{
    static const size_t lengths[][3] = {{1, 2, 2}, {3, 2, 2}, {2, 1, 2}, {2, 3, 2}, {2, 2, 1}, {2, 2, 3}, {0, 0, 0}};
    static const uint32_t states[][5] = {{50001, 0, 0, 0, 0}, {0, 50001, 0, 0, 0}, {50000, 50000, 10000001, 0, 0},
        {50000, 50000, 10000000, 400001, 0}, {50000, 50000, 10000000, 400000, 2500001},
        {UINT32_MAX, UINT32_MAX, UINT32_MAX, UINT32_MAX, UINT32_MAX}};
    static const size_t whole[3] = {2, 2, 2};
    static const uint32_t dry[5] = {0, 0, 0, 0, 0};

    for (int i = 0; i < 7; i++)
        refused(lengths[i], dry);
    for (int i = 0; i < 6; i++)
        refused(whole, states[i]);
}

int main(void)
{
    curve_numbers();
    retention();
    printf("capacity 200 250 %" PRId64 "\n", plain_capacity(200, 250));
    winter_days();
    melts();
    frost_days();
    refusals();
    return 0;
}
