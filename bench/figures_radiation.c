/* M-103's figures: the two estimates from radiation, by the plain C's single rules to the last bit, then by
 * every implementation that has them. Those that crates/paper proves of its own definitions
 * (proofs/RadiationFigures.antt) are among them. */
#include "figures.h"

#include <math.h>

#define COUNT(array) (sizeof(array) / sizeof(array)[0])

/* How a refusal 13 at 0 with an estimate of 0 stands among the figures; OTHERWISE is any other refusal. */
enum { REFUSED = -13, OTHERWISE = -1 };

/* The doubles next to the limits, outside. */
#define PAST_60 0x1.e000000000001p5
#define PAST_1000 0x1.f400000000001p9
#define PAST_100 0x1.9000000000001p6
#define BELOW_0 (-0x1p-1074)

/* ---------------------------------------------------------------- the plain C's single rules */

/* A double is said as a whole number over a power of 2. */
static void bits(const char *what, double found, double wanted)
{
    figure("M-103", what, found == wanted, 1);
}

void radiation_rules(void)
{
    bits("Turc of 2.3, 540 and 50 or more, mm", plain_turc_millimetres(2.3, 540, 50), 4592370001528491 / 0x1p52);
    bits("Turc of 2.3, 540 and 49, mm", plain_turc_millimetres(2.3, 540, 49), 1164493821816153 / 0x1p50);
    bits("Turc of 2.3, 540 and 30, mm", plain_turc_millimetres(2.3, 540, 30), 1476118929062729 / 0x1p50);
    bits("Turc of 2.3, 540 and 0, mm", plain_turc_millimetres(2.3, 540, 0), 7872634288334557 / 0x1p52);
    bits("Turc of 0, 540 and 30, mm", plain_turc_millimetres(0, 540, 30), 0);
    bits("Jensen-Haise of -3 and 170, mm", plain_jensen_haise_millimetres(-3, 170), 8304943041659475 / 0x1p59);
    bits("Jensen-Haise of 0 and 59, mm", plain_jensen_haise_millimetres(0, 59), 5764607523034235 / 0x1p56);
    bits("Jensen-Haise of -4 and 59, below 0", plain_jensen_haise_line(-4, 59), -1441151880758559 / 0x1p56);
    bits("  mm", plain_jensen_haise_millimetres(-4, 59), 0);
    bits("Jensen-Haise of -4 and 0, -0.0", plain_jensen_haise_millimetres(-4, 0), -0.0);
    figure("M-103", "  with its sign", signbit(plain_jensen_haise_millimetres(-4, 0)) != 0, 1);
    bits("units of 0.69 mm", plain_units(0.69), 4778979673483087 / 0x1p44);
    bits("units of 0.05334 mm, multiplied first", plain_units(0.05334), 21);
}

/* ---------------------------------------------------------------- the estimates */

/* 20 degrees and 500 by hand: Turc 0.26 / 35 x 550 = 4.0857 mm, 1,608.5 units, and at a humidity of 30 9/7 of
 * it; Jensen-Haise 500 / 59 x 0.58 = 4.9152 mm, 1,935.1 units. */
static const struct {
    const char *what;
    double mean, radiation, humidity;
    int64_t wanted;
} turc[] = {
    {"Turc of 20, 500 and 60", 20, 500, 60, 1608},
    {"Turc of 20, 500 and 100", 20, 500, 100, 1608},
    {"Turc of 20, 500 and 50", 20, 500, 50, 1608},
    {"Turc of 20, 500 and just below 50", 20, 500, 0x1.8ffffffffffffp5, 1608},
    {"Turc of 20, 500 and 49", 20, 500, 49, 1631},
    {"Turc of 20, 500 and 30", 20, 500, 30, 2068},
    {"Turc of 20, 500 and 0", 20, 500, 0, 2757},
    {"Turc of 20, 500 and -0.0", 20, 500, -0.0, 2757},
    {"Turc of 60, 1,000 and 0, the largest", 60, 1000, 0, 7370},
    {"Turc of 0.6, 77 and 60, 24 in another order", 0.6, 77, 60, 25},
    {"Turc of 4.5, 77 and 60, 150 in exact numbers", 4.5, 77, 60, 149},
    {"Turc of 60, 0 and 100", 60, 0, 100, 204},
    {"Turc of 60, -0.0 and 100", 60, -0.0, 100, 204},
    {"Turc of 0.1, 500 and 30", 0.1, 500, 30, 23},
    {"Turc of the smallest mean above 0", 0x1p-1074, 500, 30, 0},
    {"Turc of 0, 500 and 30", 0, 500, 30, 0},
    {"Turc of -0.0, 500 and 30", -0.0, 500, 30, 0},
    {"Turc of -15, 500 and 30", -15, 500, 30, 0},
    {"Turc of -60, 1,000 and 0", -60, 1000, 0, 0},
    {"Turc, a mean above 60", PAST_60, 1000, 0, REFUSED},
    {"Turc, a mean below -60", -PAST_60, 1000, 0, REFUSED},
    {"Turc, a mean that is not a number", NAN, 1000, 0, REFUSED},
    {"Turc, an infinite mean", -INFINITY, 1000, 0, REFUSED},
    {"Turc, a radiation above 1,000", 60, PAST_1000, 0, REFUSED},
    {"Turc, a radiation below 0", 60, BELOW_0, 0, REFUSED},
    {"Turc, a radiation that is not a number", 60, NAN, 0, REFUSED},
    {"Turc, an infinite radiation", 60, INFINITY, 0, REFUSED},
    {"Turc, a humidity above 100", 60, 1000, PAST_100, REFUSED},
    {"Turc, a humidity below 0", 60, 1000, BELOW_0, REFUSED},
    {"Turc, a humidity that is not a number", 60, 1000, NAN, REFUSED},
    {"Turc, an infinite humidity", 60, 1000, INFINITY, REFUSED},
    {"Turc, a bad humidity where it is too cold", -10, 1000, PAST_100, REFUSED},
};

static const struct {
    const char *what;
    double mean, radiation;
    int64_t wanted;
} jensen_haise[] = {
    {"Jensen-Haise of 20 and 500", 20, 500, 1935},
    {"Jensen-Haise of 60 and 1,000, the largest", 60, 1000, 10543},
    {"Jensen-Haise of 8.6 and 381, exactly 750", 8.6, 381, 749},
    {"Jensen-Haise of 20 and 0", 20, 0, 0},
    {"Jensen-Haise of 20 and -0.0", 20, -0.0, 0},
    {"Jensen-Haise of 0 and 1,000", 0, 1000, 533},
    {"Jensen-Haise of -0.0 and 1,000", -0.0, 1000, 533},
    {"Jensen-Haise of -3.1 and 1,000", -3.1, 1000, 16},
    {"Jensen-Haise of -3.2 and 1,000", -3.2, 1000, 0},
    {"Jensen-Haise of -4 and 59, below 0", -4, 59, 0},
    {"Jensen-Haise of -4 and 0, -0.0", -4, 0, 0},
    {"Jensen-Haise of -60 and 1,000", -60, 1000, 0},
    {"Jensen-Haise, a mean above 60", PAST_60, 1000, REFUSED},
    {"Jensen-Haise, a mean below -60", -PAST_60, 1000, REFUSED},
    {"Jensen-Haise, a mean that is not a number", NAN, 1000, REFUSED},
    {"Jensen-Haise, an infinite mean", INFINITY, 1000, REFUSED},
    {"Jensen-Haise, a radiation above 1,000", 60, PAST_1000, REFUSED},
    {"Jensen-Haise, a radiation below 0", 60, BELOW_0, REFUSED},
    {"Jensen-Haise, a radiation that is not a number", 60, NAN, REFUSED},
    {"Jensen-Haise, an infinite radiation", 60, -INFINITY, REFUSED},
};

static int64_t told(uint64_t returned, uint64_t potential)
{
    if (returned == 0)
        return (int64_t)potential;
    return returned == (uint64_t)13 << 32 && potential == 0 ? REFUSED : OTHERWISE;
}

void radiation_days(const struct implementation *x)
{
    uint64_t potential;

    if (x->turc == NULL)
        return;
    for (size_t i = 0; i < COUNT(turc); i++) {
        potential = UINT64_MAX; /* to be written, refused or not */
        const uint64_t returned = x->turc(turc[i].mean, turc[i].radiation, turc[i].humidity, &potential);
        figure(x->name, turc[i].what, told(returned, potential), turc[i].wanted);
    }
    for (size_t i = 0; i < COUNT(jensen_haise); i++) {
        potential = UINT64_MAX;
        const uint64_t returned = x->jensen_haise(jensen_haise[i].mean, jensen_haise[i].radiation, &potential);
        figure(x->name, jensen_haise[i].what, told(returned, potential), jensen_haise[i].wanted);
    }
}
