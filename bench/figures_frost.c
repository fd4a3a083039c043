/* M-106's figures: the frost index from day to day, and what condition a day counts as. */
#include "figures.h"
#include "text.h"

#include <inttypes.h>
#include <stdio.h>

#define COUNT(array) (sizeof(array) / sizeof(array)[0])

/* The index before a day, the day's mean temperature, and the index that it sets. */
static const struct {
    uint32_t index;
    int32_t mean;
    uint32_t wanted;
} steps[] = {
    {0, 320, 0},          {0, -1000, 73334},          {73334, 320, 71133},
    {0, 319, 56},         {0, 321, 0},                {1000, 321, 915},
    {85000, 400, 78006},  {2500000, -1000, 2498334},  {2500000, 1500, 2359445},
};

/* A winter: thirty days of mean 140 from no frost, then 26 of mean 410. */
enum { FROSTY = 30 };
static const uint32_t winter[] = {
    10000,  19700,  29109,  38235,  47087,  55674,  64003,  72082,  79919,  87521,
    94895,  102048, 108986, 115716, 122244, 128576, 134718, 140676, 146455, 152061,
    157499, 162774, 167890, 172853, 177667, 182336, 186865, 191259, 195521, 199655,
    188665, 178005, 167664, 157634, 147904, 138466, 129312, 120432, 111819, 103464,
    95360,  87499,  79874,  72477,  65302,  58342,  51591,  45043,  38691,  32530,
    26554,  20757,  15134,  9679,   4388,   0,
};

static int32_t winter_mean(size_t day)
{
    return day < FROSTY ? 140 : 410;
}

/* A day's condition without frost and the index that it sets; the condition that it counts as. For
 * days of a cell: the five-day sum of that condition, the index before a day of mean 400, and what
 * runs off of 30,000 units of rain at curve number 75, which tells the conditions apart. */
static const struct {
    const char *what;
    enum plain_condition antecedent;
    uint32_t index;
    enum plain_condition wanted;
    uint32_t five_day_sum, before, outflow;
} counted[] = {
    {"I at 55,999 is I", CONDITION_I, 55999, CONDITION_I, 13999, 62313, 2461},
    {"I at 56,000 is II", CONDITION_I, 56000, CONDITION_II, 13999, 62314, 9607},
    {"I at 82,999 is II", CONDITION_I, 82999, CONDITION_II, 13999, 90148, 9607},
    {"I at 83,000 is III", CONDITION_I, 83000, CONDITION_III, 13999, 90149, 18181},
    {"I at 78,006, from 85,000, is II", CONDITION_I, 78006, CONDITION_II, 13999, 85000, 9607},
    {"II at 55,999 is II", CONDITION_II, 55999, CONDITION_II, 14000, 62313, 9607},
    {"II at 56,000 is II", CONDITION_II, 56000, CONDITION_II, 14000, 62314, 9607},
    {"II at 82,999 is II", CONDITION_II, 82999, CONDITION_II, 14000, 90148, 9607},
    {"II at 83,000 is III", CONDITION_II, 83000, CONDITION_III, 14000, 90149, 18181},
    {"III without frost is III", CONDITION_III, 0, CONDITION_III, 21001, 0, 18181},
    {"III at 56,000 is III", CONDITION_III, 56000, CONDITION_III, 21001, 62314, 18181},
    {"III at 83,000 is III", CONDITION_III, 83000, CONDITION_III, 21001, 90149, 18181},
};

static void step_figure(const char *who, uint32_t index, int32_t mean, uint32_t found, uint32_t wanted)
{
    char what[60];

    snprintf(what, sizeof what, "frost index %" PRIu32 ", mean %" PRId32, index, mean);
    figure(who, what, found, wanted);
}

static void winter_figure(const char *who, size_t day, int64_t found)
{
    char what[60];

    snprintf(what, sizeof what, "frost index of the winter's day %zu", day + 1);
    figure(who, what, found, winter[day]);
}

void frost_rules(void)
{
    int64_t index = 0;

    for (size_t i = 0; i < COUNT(steps); i++)
        step_figure("M-106", steps[i].index, steps[i].mean,
                    (uint32_t)plain_frost(steps[i].index, steps[i].mean), steps[i].wanted);
    for (size_t day = 0; day < COUNT(winter); day++) {
        index = plain_frost(index, winter_mean(day));
        winter_figure("M-106", day, index);
    }
    for (size_t i = 0; i < COUNT(counted); i++)
        figure("M-106", counted[i].what,
               plain_counts_as(counted[i].antecedent, counted[i].index, TEXT_FIRST_SETPOINT,
                               TEXT_SECOND_SETPOINT),
               counted[i].wanted);
    figure("M-106", "I one below equal setpoints is I",
           plain_counts_as(CONDITION_I, 55999, 56000, 56000), CONDITION_I);
    figure("M-106", "I at equal setpoints is III",
           plain_counts_as(CONDITION_I, 56000, 56000, 56000), CONDITION_III);
    figure("M-106", "I at 0, setpoints 0, is III", plain_counts_as(CONDITION_I, 0, 0, 0),
           CONDITION_III);
}

/* The index that a dry day of this mean temperature sets. */
static uint32_t index_after(const struct implementation *x, uint32_t index, int32_t mean)
{
    struct one_cell c = {.curve = 75, .frost_index = index, .minimum = mean, .mean = mean,
                         .maximum = mean};

    return run(x, &c) == 0 ? c.frost_index : UINT32_MAX;
}

void frost_days(const struct implementation *x)
{
    uint32_t index = 0;

    for (size_t i = 0; i < COUNT(steps); i++)
        step_figure(x->name, steps[i].index, steps[i].mean,
                    index_after(x, steps[i].index, steps[i].mean), steps[i].wanted);
    for (size_t day = 0; day < COUNT(winter); day++) {
        index = index_after(x, index, winter_mean(day));
        winter_figure(x->name, day, index);
    }
    for (size_t i = 0; i < COUNT(counted); i++) {
        struct one_cell c = {.curve = 75, .five_day_sum = counted[i].five_day_sum,
                             .frost_index = counted[i].before, .gross = 30000,
                             .minimum = 400, .mean = 400, .maximum = 400};
        figure(x->name, counted[i].what, run(x, &c) == 0 ? c.outflow : UINT32_MAX,
               counted[i].outflow);
        figure(x->name, "  the index that the day sets", c.frost_index, counted[i].index);
    }
}
