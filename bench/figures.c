/* Document 01's worked example and its "Figures to check against", of melt those of M-100, M-106's
 * (figures_frost.c), M-105's, worked by hand (figures_reasons.c), M-103's (figures_radiation.c), and
 * M-101's, worked by hand (figures_grids.c).
 *
 * Every figure is checked of the plain C's single rules, and again of every implementation in the
 * table through whole days of a one-cell grid. Prints each figure; fails if any differs. */
#include "figures.h"

#include <inttypes.h>
#include <stdio.h>
#include <string.h>

static int failures;

void figure(const char *who, const char *what, int64_t found, int64_t wanted)
{
    printf("%-5s %-6s %-48s %9" PRId64, found == wanted ? "ok" : "WRONG", who, what, found);
    if (found != wanted) {
        printf("  (the paper says %" PRId64 ")", wanted);
        failures++;
    }
    printf("\n");
}

/* ---------------------------------------------------------------- the plain C's single rules */

static void rules(void)
{
    static const struct {
        const char *what;
        int n;
        enum plain_condition condition;
        int wanted;
    } curve[] = {
        {"condition I of 75", 75, CONDITION_I, 57},
        {"condition III of 75", 75, CONDITION_III, 88},
        {"condition I of 30", 30, CONDITION_I, 16},
        {"condition III of 30", 30, CONDITION_III, 50},
        {"condition I of 100", 100, CONDITION_I, 100},
        {"condition II of 100", 100, CONDITION_II, 100},
        {"condition III of 100", 100, CONDITION_III, 100},
    };
    for (size_t i = 0; i < sizeof curve / sizeof curve[0]; i++)
        figure("rule 5", curve[i].what, plain_curve_number(curve[i].n, curve[i].condition),
               curve[i].wanted);

    figure("rule 6", "runoff of c 100, w 1,234", plain_runoff(100, 1234), 1234);
    figure("rule 6", "runoff of c 80, w 50,000", plain_runoff(80, 50000), 28928);
    figure("rule 6", "runoff of c 75, w 6,667", plain_runoff(75, 6667), 0);
    figure("rule 6", "  its a", 75 * (6667 + 20000) - 2000000, 25);
    figure("rule 6", "runoff of c 57, w 30,000", plain_runoff(57, 30000), 2461);

    figure("rule 5", "growing sum 13,999 (0 is I)", plain_antecedent(13999, true), CONDITION_I);
    figure("rule 5", "growing sum 14,000 (1 is II)", plain_antecedent(14000, true), CONDITION_II);
    figure("rule 5", "growing sum 21,000", plain_antecedent(21000, true), CONDITION_II);
    figure("rule 5", "growing sum 21,001 (2 is III)", plain_antecedent(21001, true),
           CONDITION_III);
    figure("rule 5", "dormant sum 4,999", plain_antecedent(4999, false), CONDITION_I);
    figure("rule 5", "dormant sum 5,000", plain_antecedent(5000, false), CONDITION_II);
    figure("rule 5", "dormant sum 11,000", plain_antecedent(11000, false), CONDITION_II);
    figure("rule 5", "dormant sum 11,001", plain_antecedent(11001, false), CONDITION_III);

    figure("rule 3", "mean 360, span 280 to 400: snow", plain_falls_as_snow(280, 360, 400), 1);
    figure("rule 3", "mean 361, span 280 to 400: rain", plain_falls_as_snow(280, 361, 400), 0);
    figure("rule 3", "melt at a maximum of 320", plain_melt(10000000, 320), 0);
    figure("rule 3", "melt at a maximum of 321", plain_melt(10000000, 321), 32);
    figure("rule 3", "melt at a maximum of 500", plain_melt(10000000, 500), 5905);
    figure("rule 3", "melt at a maximum of 1,500", plain_melt(10000000, 1500), 38713);

    figure("rule 8", "F(0)", plain_retention(0), 1048576);
    figure("rule 8", "F(10)", plain_retention(10), 1008332);
    figure("rule 8", "F(11)", plain_retention(11), 1004394);
    figure("rule 8", "loss of C and soil 50,000, d 2,000", plain_loss(50000, 50000, 2000), 1964);
    figure("setup", "capacity of 2.0 in/ft and 2.5 ft", plain_capacity(200, 250), 50000);
}

/* ---------------------------------------------------------------- days of one cell */

uint64_t run(const struct implementation *x, struct one_cell *c)
{
    const uint32_t n = c->curve, r = c->root;
    const uint32_t covers[16] = {3, 0, n, n, n, n, 100000, 100000, 100000, 100000, 0, 0, r, r, r, r};
    const uint32_t direction[1] = {1}, cover[1] = {3}, group[1] = {2}, water[1] = {c->water};
    const struct recharge_site site = {1, 1, 100, 200, TEXT_FIRST_SETPOINT, TEXT_SECOND_SETPOINT};
    const struct recharge_day_record day = {1, 150, c->gross, c->minimum, c->mean, c->maximum, c->potential};
    uint32_t memory[5] = {c->five_day_sum, 0, 0, 0, 0}, last = BALANCE_NO_SERIAL;
    uint32_t intercepted[1], recharged[1], rejected[1];
    uint64_t totals[7];

    return x->day(site, covers, 16, direction, 1, cover, 1, group, 1, water, 1, &c->soil, 1, &c->snow, 1,
                  memory, &last, &c->frost_index, intercepted, 1, &c->outflow, 1,
                  &c->evapotranspired, 1, recharged, 1, rejected, 1, totals, day);
}

/* The runoff of so much rain on a warm growing day: the outflow of a cell whose soil has room for
 * all that sinks in, so that nothing is rejected. 14,000 to 21,000 is condition II. */
static uint32_t rain_runoff(const struct implementation *x, uint32_t curve, uint32_t sum,
                            uint32_t rain)
{
    struct one_cell c = {.curve = curve, .root = 1000, .water = 600, .five_day_sum = sum,
                         .gross = rain, .minimum = 600, .mean = 700, .maximum = 800};

    return run(x, &c) == 0 ? c.outflow : UINT32_MAX;
}

/* The snow left of so much, after a day of no precipitation: before less after is the melt. */
static uint32_t melt(const struct implementation *x, int32_t maximum)
{
    struct one_cell c = {.curve = 75, .snow = 1000000, .minimum = 300, .mean = 310,
                         .maximum = maximum};

    return run(x, &c) == 0 ? 1000000 - c.snow : UINT32_MAX;
}

/* 1 if a day's net falls as snow. */
static uint32_t snows(const struct implementation *x, int32_t minimum, int32_t mean,
                      int32_t maximum)
{
    struct one_cell c = {.curve = 100, .gross = 100000, .minimum = minimum, .mean = mean,
                         .maximum = maximum};

    return run(x, &c) == 0 ? c.snow > 0 : UINT32_MAX;
}

static void days(const struct implementation *x)
{
    const uint32_t most = 400000; /* tells all curve numbers apart */

    figure(x->name, "condition I of 75 flows as 57", rain_runoff(x, 75, 0, most),
           rain_runoff(x, 57, 14000, most));
    figure(x->name, "condition III of 75 flows as 88", rain_runoff(x, 75, 30000, most),
           rain_runoff(x, 88, 14000, most));
    figure(x->name, "condition I of 30 flows as 16", rain_runoff(x, 30, 0, most),
           plain_runoff(16, most));
    figure(x->name, "condition III of 30 flows as 50", rain_runoff(x, 30, 30000, most),
           rain_runoff(x, 50, 14000, most));
    figure(x->name, "condition I of 100 flows as 100", rain_runoff(x, 100, 0, most), most);
    figure(x->name, "condition III of 100 flows as 100", rain_runoff(x, 100, 30000, most), most);

    figure(x->name, "runoff of c 100, w 1,234", rain_runoff(x, 100, 14000, 1234), 1234);
    figure(x->name, "runoff of c 80, w 50,000", rain_runoff(x, 80, 14000, 50000), 28928);
    figure(x->name, "runoff of c 75, w 6,667", rain_runoff(x, 75, 14000, 6667), 0);
    figure(x->name, "runoff of c 57, w 30,000", rain_runoff(x, 57, 14000, 30000), 2461);
    figure(x->name, "the same from 75 in condition I", rain_runoff(x, 75, 0, 30000), 2461);

    figure(x->name, "growing sum 13,999 is I", rain_runoff(x, 75, 13999, 30000), 2461);
    figure(x->name, "growing sum 14,000 is II", rain_runoff(x, 75, 14000, 30000),
           plain_runoff(75, 30000));
    figure(x->name, "growing sum 21,000 is II", rain_runoff(x, 75, 21000, 30000),
           plain_runoff(75, 30000));
    figure(x->name, "growing sum 21,001 is III", rain_runoff(x, 75, 21001, 30000),
           plain_runoff(88, 30000));

    figure(x->name, "mean 360, span 280 to 400: snow", snows(x, 280, 360, 400), 1);
    figure(x->name, "mean 361, span 280 to 400: rain", snows(x, 280, 361, 400), 0);
    figure(x->name, "melt at a maximum of 320", melt(x, 320), 0);
    figure(x->name, "melt at a maximum of 321", melt(x, 321), 32);
    figure(x->name, "melt at a maximum of 500", melt(x, 500), 5905);
    figure(x->name, "melt at a maximum of 1,500", melt(x, 1500), 38713);

    struct one_cell dry = {.curve = 75, .root = 250, .water = 200, .soil = 50000,
                           .minimum = 600, .mean = 700, .maximum = 800, .potential = 2000};
    run(x, &dry);
    figure(x->name, "loss of C and soil 50,000, d 2,000", dry.evapotranspired, 1964);
    figure(x->name, "  soil left", dry.soil, 50000 - 1964);
}

/* ---------------------------------------------------------------- the worked example */

static void example(const struct text_implementation *x)
{
    static const char in[] =
        "2 1 120 270\n"
        "1\n"
        "3 0 75 75 75 75 6000 6000 6000 6000 900 0 250 250 250 250\n"
        "1 3 2 200\n"
        "0 3 2 200\n"
        "1 150 30900 600 700 800 2000\n"
        "2 151 0 600 700 800 2000\n";
    static const char wanted[] =
        "1 61800 1800 4000 12000 44000 0 100000\n"
        "2 0 0 3928 0 0 0 96072\n"
        "end 2\n";
    static unsigned char out[TEXT_ROOM];
    size_t used = x->run((const unsigned char *)in, sizeof in - 1, out, sizeof out);

    figure(x->name, "the worked example, byte for byte",
           used == sizeof wanted - 1 && memcmp(out, wanted, used) == 0, 1);
}

int main(void)
{
    rules();
    frost_rules();
    radiation_rules();
    for (size_t i = 0; i < implementations_count; i++) {
        days(&implementations[i]);
        frost_days(&implementations[i]);
        reason_days(&implementations[i]);
        radiation_days(&implementations[i]);
        grid_texts(&implementations[i]);
    }
    grid_structs();
    for (size_t i = 0; i < texts_count; i++)
        example(&texts[i]);
    printf("%s\n", failures == 0 ? "every figure is the paper's" : "FIGURES DIFFER");
    return failures == 0 ? 0 : 1;
}
