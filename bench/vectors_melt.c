/* The vectors on melt in millimetres (M-100). Ground of curve number 100 passes all its water on, so
 * that what is gone on a day without precipitation is the melt. */
#include "vectors.h"
#include "vectors_foretold.h"

#include <stddef.h>

/* A day of this maximum on which nothing falls. */
static void put_thaw(int serial, int maximum)
{
    put("%d %d 0 100 200 %d 0\n", serial, DORMANT, maximum);
}

/* A frosty day on which so much snow falls on the bare cell, where none lies. */
static void snowfall(int serial, int gross)
{
    put_day(serial, DORMANT, gross, -200);
    foretell_day(serial, gross, 0, 0, gross);
}

/* A day on which the bare cell loses so much of its snow. */
static void thaw(int serial, int maximum, int melt, int left)
{
    put_thaw(serial, maximum);
    foretell_day(serial, 0, melt, melt, left);
}

/* The first tenths of a degree; the first figures that 0.059 inch would have made smaller (325 and 330); 1.25 inches and twice and
 * three times that, which need no rounding (701, 1,082 and 1,463), from both sides of the first; the highest. */
static void by_the_maximum(void)
{
    static const struct {
        int maximum, melt;
    } days[] = {{320, 0},      {321, 32},     {322, 65},      {323, 98},      {324, 131},     {325, 164},    {330, 328},
                {500, 5905},   {700, 12467},  {701, 12500},   {702, 12532},   {1082, 25000},  {1463, 37500}, {1500, 38713}};
    int left = 400000, serial = 1;

    put_bare(100), snowfall(serial, left);
    for (size_t i = 0; i < sizeof days / sizeof days[0]; i++)
        left -= days[i].melt, thaw(++serial, days[i].maximum, days[i].melt, left);
    foretold_vector("melt by the maximum", serial, "1.5 mm for each degree Celsius above freezing, rounded down to a unit");
}

/* A store one unit short of the most that a day melts, that store, and one unit more. */
static void at_the_most(void)
{
    put_bare(100);
    for (int i = 0; i < 3; i++) {
        int store = 38712 + i, melt = i == 0 ? store : 38713;
        snowfall(2 * i + 1, store);
        thaw(2 * i + 2, 1500, melt, store - melt);
    }
    foretold_vector("snow about the most that a day melts", 6, "38,713 at a maximum of 1,500: of 38,714 a unit is left");
}

static void ten_days(void)
{
    put_bare(100), snowfall(1, 59050);
    for (int i = 1; i <= 10; i++)
        thaw(i + 1, 500, 5905, 59050 - 5905 * i);
    foretold_vector("ten days of 50 degrees", 11, "59,050 units, to the last; by 0.059 inch 50 would be left");
}

static void snow_and_thaw(void)
{
    put_bare(100);
    for (int i = 1; i <= 2; i++) {
        put("%d %d 20000 200 300 500 0\n", i, DORMANT);
        foretell_day(i, 20000, 5905, 5905, i * (20000 - 5905));
    }
    foretold_vector("snow and thaw at 50 degrees", 2, "what falls as snow melts with what lay, 5,905 of all of it");
}

/* A ridge that passes its melt on to a closed depression of the largest recharge there is. */
static void ridge(void)
{
    put("2 1 120 270\n2\n"), put_cover(3, 0, 100, 6000, 0, 0, 0), put_cover(4, 0, 100, 100000, 0, 0, 0);
    put("1 3 2 200\n0 4 2 200\n"), put_day(1, DORMANT, 10000, -200), put_thaw(2, 500), put_thaw(3, 500);
    foretell("1 20000 0 0 0 0 0 20000\n2 0 0 0 11810 0 0 8190\n3 0 0 0 8190 0 0 0\n");
    foretold_vector("melt of a ridge in a valley", 3, "twice 5,905 units recharge in the valley, the day after what is left");
}

void melt_cases(void)
{
    by_the_maximum();
    at_the_most();
    ten_days();
    snow_and_thaw();
    ridge();
}
