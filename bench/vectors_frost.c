/* The vectors on frozen ground (M-106). A text starts without frost and prints no index, so each brings the index to a day
 * whose runoff tells the condition that the day counts as, and foretells the lines of such days. */
#include "vectors.h"
#include "vectors_foretold.h"

#include <stdio.h>

/* ---------------------------------------------------------------- to the setpoints and one below */

/* Two frosty days bring the index, from none, to where rain at a mean of 400, which takes 4,444 from it, makes it this one. */
static const struct {
    int index, means[2];
} brought[] = {{55999, {-626, 116}}, {56000, {-625, 115}}, {82999, {-625, -386}}, {83000, {-624, -387}}};

/* The three days, from a serial on. */
static void put_brought(int serial, int day, int which)
{
    for (int i = 0; i < 2; i++)
        put_day(serial + i, day, 0, brought[which].means[i]);
    put_day(serial + 2, day, 30000, 400);
}

static const char *const names[] = {"", "I", "II", "III"};
static const int off_75[] = {0, 2461, 9607, 18181}; /* gone of 30,000 at curve number 75, by condition */

/* Rain that makes the condition, then these three days. */
static void setpoint(int antecedent, int day, int sum, int which, int counts_as)
{
    char name[80], reason[80];

    put_bare(75), put_day(1, day, sum, 700), put_brought(2, day, which);
    foretell_day(4, 30000, 30000, off_75[counts_as], 0);
    snprintf(name, sizeof name, "%s, condition %s, frost index %d,%03d", day == GROWING ? "growing" : "dormant",
             names[antecedent], brought[which].index / 1000, brought[which].index % 1000);
    snprintf(reason, sizeof reason, "counts as %s", names[counts_as]);
    foretold_vector(name, 4, reason);
}

static void setpoints(void)
{
    static const int growing[] = {0, 13999, 14000, 21001}, dormant[] = {0, 4999, 5000, 11001};
    static const int counts_as[][4] = {{0}, {1, 2, 2, 3}, {2, 2, 2, 3}, {3, 3, 3, 3}};

    for (int condition = 1; condition <= 3; condition++)
        for (int which = 0; which < 4; which++) {
            setpoint(condition, GROWING, growing[condition], which, counts_as[condition][which]);
            setpoint(condition, DORMANT, dormant[condition], which, counts_as[condition][which]);
        }
}

/* ---------------------------------------------------------------- melt about freezing */

/* Snow, dry days at freezing, two frosty ones, then a day whose maximum of 500 melts 5,905 of it and whose mean brings the
 * index to this one. By then five days were dry: condition I. At curve number 95 so much of the melt is gone. */
struct melt {
    int index, means[2], gone;
};

static void melt_day(int mean, const struct melt *m, const char *reason)
{
    char name[80];

    put_bare(95), put_day(1, DORMANT, 60000, 320);
    for (int i = 2; i <= 4; i++)
        put_day(i, DORMANT, 0, 320);
    for (int i = 0; i < 2; i++)
        put_day(5 + i, DORMANT, 0, m->means[i]);
    put("7 %d 0 100 %d 500 0\n", DORMANT, mean);
    foretell_day(7, 0, 5905, m->gone, 54095);
    snprintf(name, sizeof name, "melt at a mean of %d, frost index %d,%03d", mean, m->index / 1000, m->index % 1000);
    foretold_vector(name, 7, reason);
}

static void melt_days(void)
{
    static const struct melt below[] = {{55999, {-276, -140}, 746}, {56000, {-75, -335}, 2327},
                                        {82999, {-375, -545}, 2327}, {83000, {-741, -190}, 4008}};
    static const struct melt at[] = {{55999, {-375, -45}, 746}, {56000, {192, -595}, 2327},
                                     {82999, {-340, -580}, 2327}, {83000, {-639, -290}, 4008}};
    static const struct melt above[] = {{55999, {-41, -370}, 746}, {56000, {-340, -80}, 2327},
                                        {82999, {-140, -775}, 2327}, {83000, {-506, -420}, 4008}};

    for (int i = 0; i < 4; i++) {
        melt_day(319, &below[i], "a tenth of a degree of frost adds 56, rounded up");
        melt_day(320, &at[i], "97 hundredths of the index stay, rounded down");
        melt_day(321, &above[i], "a tenth of a degree of thaw takes 55, rounded down");
    }
}

/* ---------------------------------------------------------------- winters */

/* So many days of one condition. */
struct spell {
    int days, condition;
};

/* The lines from a serial on, by the spells up to one of no days: each day brings so much water, and this much of it is gone by
 * condition. */
static void foretell_spells(int serial, const struct spell *spells, int water, const int *gone)
{
    for (; spells->days > 0; spells++)
        for (int i = 0; i < spells->days; i++, serial++)
            foretell_day(serial, water, water, gone[spells->condition], 0);
}

/* Thirty days of mean 140, on which snow falls and melts, and 26 of mean 410 with as much rain. Without frost the sum of five
 * days would make it one condition from the sixth day on. */
static const struct {
    const char *name, *reason;
    int day, curve, water, gone[4];
    struct spell spells[6];
} winters[] = {
    {"a winter in condition I, growing", "II on days 7 to 9 and 43 to 46, III between", GROWING, 95, 2700, {0, 4, 392, 1212},
     {{6, 1}, {3, 2}, {33, 3}, {4, 2}, {10, 1}}},
    {"a winter in condition II, growing", "II stays II, III on days 10 to 42", GROWING, 95, 3000, {0, 21, 525, 1450},
     {{5, 1}, {4, 2}, {33, 3}, {14, 2}}},
    {"a winter in condition III, growing", "III stays III", GROWING, 95, 5000, {0, 429, 1691, 3178}, {{3, 1}, {2, 2}, {51, 3}}},
    {"a winter in condition I, dormant", "II on days 7 to 9 and 43 to 46, III between", DORMANT, 98, 999, {0, 6, 132, 351},
     {{6, 1}, {3, 2}, {33, 3}, {4, 2}, {10, 1}}},
    {"a winter in condition II, dormant", "II stays II, III on days 10 to 42", DORMANT, 98, 1500, {0, 91, 380, 729},
     {{4, 1}, {5, 2}, {33, 3}, {14, 2}}},
    {"a winter in condition III, dormant", "III stays III", DORMANT, 98, 3000, {0, 741, 1450, 2055}, {{2, 1}, {2, 2}, {52, 3}}},
};

static void frosty_winters(void)
{
    for (size_t k = 0; k < sizeof winters / sizeof winters[0]; k++) {
        put_bare(winters[k].curve);
        for (int i = 1; i <= 56; i++)
            put("%d %d %d %s 0\n", i, winters[k].day, winters[k].water, i <= 30 ? "0 140 500" : "300 410 500");
        foretell_spells(1, winters[k].spells, winters[k].water, winters[k].gone);
        foretold_vector(winters[k].name, 56, winters[k].reason);
    }
}

/* ---------------------------------------------------------------- the coldest days */

static void coldest(void)
{
    static const int gone[] = {0, 4, 392, 1212}; /* of 2,700 at curve number 95 */
    static const struct spell hot[] = {{23, 3}, {37, 1}, {0, 0}}, fading[] = {{18, 3}, {13, 2}, {29, 1}, {0, 0}};

    put_bare(75), put("1 %d 30000 -1000 -1000 1500 0\n", DORMANT);
    foretell_day(1, 30000, 30000, off_75[2], 0);
    foretold_vector("frost on the first day", 1, "the index just set, 73,334, decides, not yesterday's: I counts as II");

    put_bare(95);
    for (int i = 1; i <= 360; i++)
        put_day(i, GROWING, i <= 300 ? 0 : 2700, i <= 300 ? -1000 : 1500);
    foretell_spells(301, hot, 2700, gone);
    foretold_vector("300 of the coldest days, then the hottest", 360, "the index reaches 2,444,186, and 23 hot days are III");

    put_bare(95), put_day(1, GROWING, 0, -1000), put_day(2, GROWING, 0, -1000);
    for (int i = 3; i <= 62; i++)
        put("%d %d 2700 320 320 500 0\n", i, GROWING);
    foretell_spells(3, fading, 2700, gone);
    foretold_vector("frost that fades at freezing", 62, "from 144,467 by 3 hundredths a day, rounded up: 18 days of III, 13 of II");
}

/* ---------------------------------------------------------------- grids */

enum { AT_SECOND = 3 }; /* of `brought`: to 83,000, so that 18,181 units run off each open cell of curve number 75 */

static void frozen_grids(void)
{
    put("2 1 120 270\n2\n"), put_cover(3, 0, 75, 100000, 0, 0, 0), put_cover(4, 0, 75, 6000, 0, 0, 0);
    put("1 3 2 200\n0 4 2 200\n"), put_brought(1, DORMANT, AT_SECOND);
    foretell("3 60000 0 0 17819 42181 0 0\n");
    foretold_vector("a frozen ridge over a valley", 3, "18,181 units run off the ridge, and the valley can't take them");

    put("2 1 120 270\n2\n"), put_cover(3, 0, 75, 100000, 0, 0, 0), put_cover(4, 1, 75, 6000, 0, 0, 0);
    put("1 3 2 200\n0 4 2 200\n"), put_brought(1, DORMANT, AT_SECOND);
    foretell("3 60000 0 0 11819 0 48181 0\n");
    foretold_vector("a frozen ridge over a lake", 3, "what falls on the lake and what runs off the ridge is gone");

    put("1 1 120 270\n1\n"), put_cover(3, 0, 75, 6000, 0, 0, 0), put("0 3 2 200\n"), put_brought(1, DORMANT, AT_SECOND);
    foretell("3 30000 0 0 6000 24000 0 0\n");
    foretold_vector("a closed depression in frost", 3, "its outflow is 0, frozen or not");
}

void frost_cases(void)
{
    setpoints();
    melt_days();
    frosty_winters();
    coldest();
    frozen_grids();
}
