/* Potential evapotranspiration from radiation (M-103), in document 02's words: in f64, each operation
 * rounded once in the order written. So the answers of implementations can be compared to the last
 * unit, but only where the compiler rounds as the words do: a multiplication and an addition made one
 * (every script here compiles with -ffp-contract=off) or a longer number between two operations would
 * be rounded otherwise. */
#include "plain_setup.h"

#include <float.h>

#if FLT_EVAL_METHOD != 0
#error "doubles are worked out longer than they are: an operation would be rounded twice, or not at all"
#endif

/* What lies inside is asked for, and all else is refused: what is not a number lies nowhere. */
static bool inside(double reading, double lowest, double highest)
{
    return lowest <= reading && reading <= highest;
}

/* The mean in degrees Celsius, and the radiation in cal/cm2 a day. */
static bool mean_and_radiation_inside(double t, double r)
{
    return inside(t, -60, 60) && inside(r, 0, 1000);
}

double plain_turc_millimetres(double t, double r, double h)
{
    if (t <= 0)
        return 0;

    double humid = ((0.013 * t) / (t + 15)) * (r + 50);
    if (h < 50)
        return humid * (1 + (50 - h) / 70);
    return humid;
}

double plain_jensen_haise_line(double t, double r)
{
    return (r / 59) * (0.025 * t + 0.08);
}

double plain_jensen_haise_millimetres(double t, double r)
{
    double line = plain_jensen_haise_line(t, r);

    return line < 0 ? 0 : line;
}

double plain_units(double millimetres)
{
    return millimetres * 100000 / 254;
}

/* The greatest whole number not above it. No units are below 0, where C's conversion, which drops the
 * fraction, would be the other way. */
static uint64_t whole_units(double millimetres)
{
    return (uint64_t)plain_units(millimetres);
}

uint64_t plain_turc(double mean, double radiation, double humidity, uint64_t *potential)
{
    *potential = 0;
    if (!mean_and_radiation_inside(mean, radiation) || !inside(humidity, 0, 100))
        return refusal(13, 0);
    *potential = whole_units(plain_turc_millimetres(mean, radiation, humidity));
    return 0;
}

uint64_t plain_jensen_haise(double mean, double radiation, uint64_t *potential)
{
    *potential = 0;
    if (!mean_and_radiation_inside(mean, radiation))
        return refusal(13, 0);
    *potential = whole_units(plain_jensen_haise_millimetres(mean, radiation));
    return 0;
}
