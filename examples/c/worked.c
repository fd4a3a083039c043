/* Document 01's worked example through the library for C: a fresh state and two days, printed as the program prints them; then a
 * day that is refused, since its serial does not follow. `run.sh` builds and runs it. */
#include "recharge.h"

#include <inttypes.h>
#include <stdio.h>

enum { CELLS = 2 };

/* One cover, and two cells in a row: the left one drains to the right one, a closed depression. */
static const struct recharge_cover grass = {
    .code = 3,
    .open_water = 0,
    .curve_number = {75, 75, 75, 75},
    .largest_recharge = {6000, 6000, 6000, 6000},
    .growing_interception = 900,
    .dormant_interception = 0,
    .root_depth = {250, 250, 250, 250},
};
static const uint32_t direction[CELLS] = {1, 0}, cover[CELLS] = {3, 3}, group[CELLS] = {2, 2}, water[CELLS] = {200, 200};
static const struct recharge_setup setup = {
    .site = {.width = 2, .height = 1, .first_growing = 120, .last_growing = 270,
             .first_setpoint = RECHARGE_FIRST_SETPOINT, .second_setpoint = RECHARGE_SECOND_SETPOINT},
    .covers = &grass, .covers_count = 1,
    .direction = direction, .cover = cover, .group = group, .water = water, .cells = CELLS,
};

static uint32_t soil[CELLS], snow[CELLS];
static uint32_t intercepted[CELLS], outflow[CELLS], evapotranspired[CELLS], recharged[CELLS], rejected[CELLS];
static struct recharge_state state = {.soil = soil, .snow = snow, .cells = CELLS};
static const struct recharge_results results = {.intercepted = intercepted, .outflow = outflow,
                                                .evapotranspired = evapotranspired, .recharged = recharged,
                                                .rejected = rejected, .cells = CELLS};

/* Is it accepted? A refusal is printed as the program prints it. */
static int accepted(uint64_t returned)
{
    if (returned != 0)
        printf("refused %" PRIu32 " at %" PRIu32 "\n", RECHARGE_NUMBER(returned), RECHARGE_PLACE(returned));
    return returned == 0;
}

static int run_day(struct recharge_day_record day)
{
    uint64_t totals[RECHARGE_TOTALS];

    if (!accepted(recharge_one_day(&setup, &state, &results, totals, day)))
        return 0;
    printf("%" PRIu32, day.serial);
    for (int i = 0; i < RECHARGE_TOTALS; i++)
        printf(" %" PRIu64, totals[i]);
    printf("\n");
    return 1;
}

int main(void)
{
    struct recharge_day_record day = {.serial = 1, .day_of_year = 150, .gross = 30900,
                                      .minimum = 600, .mean = 700, .maximum = 800, .potential = 2000};

    if (!accepted(recharge_check_setup(&setup)) || !accepted(recharge_fresh_state(&setup, &state)))
        return 1;
    if (!run_day(day))
        return 1;
    printf("outflow %" PRIu32 " %" PRIu32 ", rejected %" PRIu32 " %" PRIu32 "\n", outflow[0], outflow[1], rejected[0], rejected[1]);
    day.serial = 2, day.day_of_year = 151, day.gross = 0;
    if (!run_day(day))
        return 1;
    printf("soil %" PRIu32 " %" PRIu32 "\n", soil[0], soil[1]);
    day.day_of_year = 152; /* its serial is 2 once more: that is refused, and nothing changes */
    if (run_day(day))
        return 1;
    if (fflush(stdout) != 0) {
        perror("worked: standard output");
        return 2;
    }
    return 0;
}
