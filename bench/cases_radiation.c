/* Readings for the estimates from radiation (M-103), and what their estimates must be. */
#include "cases_parts.h"

static const struct {
    int32_t lowest, highest;
} limits[READINGS] = {{-60, 60}, {0, 1000}, {0, 100}};

/* ---------------------------------------------------------------- readings */

/* Gives a station a mean and a radiation whose units are whole in exact numbers, or are by another humidity.
 * By Turc, from a humidity of 50 on, they are 650 t (R + 50) / (127 (t + 150)), t in tenths: whole where R + 50
 * has the 127 and t + 150 divides 650 x 150. By Jensen-Haise they are 125 R (t + 32) / (59 x 127). */
static void aim_at_whole(int32_t *number)
{
    static const int32_t divides[] = {6, 45, 100, 110, 150, 175, 225, 240, 350, 475, 500, 600};

    switch (below(4)) {
    case 0:
        number[MEAN] = 59 * (int32_t)below(11) - 32;
        number[RADIATION] = 127 * (int32_t)below(8);
        break;
    case 1:
        number[MEAN] = 127 * (int32_t)below(5) - 32;
        number[RADIATION] = 59 * (int32_t)below(17);
        break;
    default:
        number[MEAN] = ONE_OF(divides);
        number[RADIATION] = 127 * (int32_t)between(1, 8) - 50;
    }
}

/* A station's, mostly within the limits. */
static void make_station(struct readings_case *c)
{
    const int32_t out = chance(10) ? 20 : 0;

    c->by_station = true;
    c->number[MEAN] = (int32_t)between_signed(-600 - out, 600 + out);
    c->number[RADIATION] = (int32_t)between_signed(-out, 1000 + out);
    c->number[HUMIDITY] = (int32_t)between_signed(-out, 100 + out);
    if (chance(20))
        aim_at_whole(c->number);
    c->reading[MEAN] = (double)c->number[MEAN] / 10;
    c->reading[RADIATION] = c->number[RADIATION];
    c->reading[HUMIDITY] = c->number[HUMIDITY];
}

/* Any alike, or any size of a number above 0 alike. */
static double inside(int which)
{
    const double lowest = limits[which].lowest, highest = limits[which].highest;
    const double part = (double)(random_bits() >> 11) / 0x1p53; /* 0 to below 1 */

    if (chance(20))
        return of_rank(between_signed(rank_of(0x1p-20), rank_of(highest)));
    return lowest + part * (highest - lowest);
}

/* The limits of all readings, and where an estimate turns or might: any reading may be beside any of them,
 * since the limits of another reading are the likeliest mistake. */
static double beside_turn(void)
{
    static const double turns[] = {-60, -15, -3.2, 0, 30, 50, 60, 100, 1000};

    return of_rank(rank_of(ONE_OF(turns)) + between_signed(-1, 1));
}

static double strange(void)
{
    const uint64_t sign = chance(50) ? BINARY64_SIGN : 0;

    switch (below(7)) {
    case 0: return double_of(sign | BINARY64_INFINITY | BINARY64_QUIET | below(BINARY64_QUIET));
    case 1: return double_of(sign | BINARY64_INFINITY | edgy(1, BINARY64_QUIET - 1));
    case 2: return double_of(sign | BINARY64_INFINITY);
    case 3: return double_of(sign);
    case 4: return double_of(sign | edgy(1, BINARY64_NORMAL - 1));
    case 5: return double_of(sign | BINARY64_NORMAL);
    default: return double_of(random_bits());
    }
}

/* At one end of its limits, or the double inside. */
static double at_end(int which)
{
    const double end = chance(50) ? limits[which].lowest : limits[which].highest;
    const int64_t inwards = end == limits[which].lowest ? 1 : -1;

    return chance(70) ? end : of_rank(rank_of(end) + inwards);
}

void make_readings(struct readings_case *c)
{
    const bool ends = chance(20);
    const unsigned odd = chance(15) ? 60 : 0; /* of each; else of one reading alone */
    const uint64_t one = below(READINGS);

    if (chance(50)) {
        make_station(c);
        return;
    }
    c->by_station = false;
    for (int k = 0; k < READINGS; k++) {
        c->reading[k] = ends ? at_end(k) : inside(k);
        if (odd > 0 ? chance(odd) : !ends && one == (uint64_t)k)
            c->reading[k] = chance(50) ? strange() : beside_turn();
    }
}

/* ---------------------------------------------------------------- what their estimates must be */

/* Without the sign, the bits of a larger number, of infinity and of what is not a number are all larger than
 * those of the highest. The mean's two limits lie as far from 0; the others' lower one is 0, with a sign or not. */
bool case_fits(int which, double reading)
{
    static const uint64_t highest[READINGS] = {
        (uint64_t)0x404e << 48, /* 1.875 x 2^5 */
        (uint64_t)0x408f4 << 44, /* 1.953125 x 2^9 */
        (uint64_t)0x4059 << 48, /* 1.5625 x 2^6 */
    };
    const uint64_t bits = bits_of(reading), size = bits & ~BINARY64_SIGN;

    return size <= highest[which] && (which == MEAN || bits == size || size == 0);
}

/* The millimetres times 100,000, divided by 254. */
static struct binary64 in_units(struct binary64 millimetres)
{
    return binary64_over(binary64_times(millimetres, binary64_whole(100000)), binary64_whole(254));
}

struct binary64 case_turc(const double *reading)
{
    const struct binary64 t = binary64_of(reading[MEAN]), r = binary64_of(reading[RADIATION]);
    const struct binary64 dry = binary64_less(binary64_whole(50), binary64_of(reading[HUMIDITY]));

    if (!binary64_above_zero(t))
        return binary64_whole(0);
    const struct binary64 warmth =
        binary64_over(binary64_times(binary64_decimal(13, 1000), t), binary64_add(t, binary64_whole(15)));
    const struct binary64 humid = binary64_times(warmth, binary64_add(r, binary64_whole(50)));

    if (!binary64_above_zero(dry))
        return in_units(humid);
    return in_units(binary64_times(humid, binary64_add(binary64_whole(1), binary64_over(dry, binary64_whole(70)))));
}

struct binary64 case_jensen_haise(const double *reading)
{
    const struct binary64 t = binary64_of(reading[MEAN]), r = binary64_of(reading[RADIATION]);
    const struct binary64 warmth = binary64_add(binary64_times(binary64_decimal(25, 1000), t), binary64_decimal(8, 100));
    const struct binary64 line = binary64_times(binary64_over(r, binary64_whole(59)), warmth);

    return binary64_above_zero(line) ? in_units(line) : binary64_whole(0);
}

/* 0.013 x T / (T + 15) is 13 t / (1,000 (t + 150)), t in tenths, and 1 + (50 - H) / 70 is (120 - H) / 70. */
struct exact case_exact_turc(const int32_t *number)
{
    const int64_t t = number[MEAN], r = number[RADIATION], h = number[HUMIDITY];

    if (t <= 0)
        return (struct exact){0, 1};
    return (struct exact){1300 * t * (r + 50) * (h < 50 ? 120 - h : 70), (t + 150) * 70 * 254};
}

/* 0.025 x T + 0.08 is (t + 32) / 400. */
struct exact case_exact_jensen_haise(const int32_t *number)
{
    const int64_t warmth = number[MEAN] + 32, r = number[RADIATION];

    return (struct exact){warmth > 0 ? r * warmth * 100000 : 0, 59 * 400 * 254};
}
