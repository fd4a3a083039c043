/* Document 01's rules for one cell's day, as document 02 amends them, one function a rule. */
#include "plain_setup.h"

__extension__ typedef unsigned __int128 wide; /* a squared, in rule 6, can pass 64 bits */

/* Capacity = available water x root depth, exact in units:
 * (inch/foot / 100) x (foot / 100) is 1/10,000 inch. */
int64_t plain_capacity(int64_t available_water, int64_t root_depth)
{
    return available_water * root_depth;
}

static int64_t smaller(int64_t a, int64_t b)
{
    return a < b ? a : b;
}

/* Rule 2: the smaller of gross precipitation and the cover's figure for the season. */
int64_t plain_interception(int64_t gross, int64_t figure)
{
    return smaller(gross, figure);
}

int64_t plain_interception_of(const struct setup *s, const struct recharge_day_record *day, uint32_t cell)
{
    int row = is_growing(s, day->day_of_year) ? GROWING : DORMANT;
    return plain_interception(day->gross, entry_of(s, cell)[row]);
}

/* Rule 3: net falls as snow if ... else rain. */
bool plain_falls_as_snow(int64_t minimum, int64_t mean, int64_t maximum)
{
    return 3 * mean - (maximum - minimum) <= 960;
}

/* Rule 3 with M-100's rate: the melt of a store that today's snowfall has already joined. The
 * division is of a positive number, so C's division is the floor. */
int64_t plain_melt(int64_t store, int64_t maximum)
{
    if (maximum <= 320)
        return 0;
    return smaller(store, 12500 * (maximum - 320) / 381);
}

/* Rule 5: the condition from the five previous days, today not counted. */
enum plain_condition plain_antecedent(int64_t five_day_sum, bool growing)
{
    int64_t dry_below = growing ? 14000 : 5000;
    int64_t wet_above = growing ? 21000 : 11000;

    if (five_day_sum < dry_below)
        return CONDITION_I;
    if (five_day_sum > wet_above)
        return CONDITION_III;
    return CONDITION_II;
}

/* The greatest whole number not above over / under, for a positive `under`. C's own division drops
 * the fraction, which below zero is the other way. */
static int64_t floor_of(int64_t over, int64_t under)
{
    int64_t quotient = over / under;

    return over % under < 0 ? quotient - 1 : quotient;
}

/* M-106: the frost index that an accepted day sets. 97 hundredths of it last through the day; the
 * mean's distance from freezing, as thousandths of a Celsius degree, takes from it above and adds
 * to it below. */
int64_t plain_frost(int64_t index, int64_t mean)
{
    int64_t set = floor_of(97 * index, 100) - floor_of(1000 * (mean - 320), 18);

    return set < 0 ? 0 : set;
}

/* M-106: at the second setpoint or more the day counts as III; from the first, I counts as II. */
enum plain_condition plain_counts_as(enum plain_condition antecedent, int64_t index,
                                     int64_t first_setpoint, int64_t second_setpoint)
{
    if (index >= second_setpoint)
        return CONDITION_III;
    if (index >= first_setpoint && antecedent == CONDITION_I)
        return CONDITION_II;
    return antecedent;
}

/* Rounded to nearest, halves up: floor(over / under + 1/2), for positive numbers. */
static int64_t nearest(int64_t over, int64_t under)
{
    return (2 * over + under) / (2 * under);
}

/* Rule 5: the curve number from the table's N. */
int64_t plain_curve_number(int64_t n, enum plain_condition condition)
{
    switch (condition) {
    case CONDITION_I: return nearest(100000 * n, 228100 - 1281 * n);
    case CONDITION_III: return nearest(100000 * n, 42700 + 573 * n);
    default: return n;
    }
}

/* Rule 6, the runoff, but for closed depressions. Where a is positive, b is not below a. */
int64_t plain_runoff(int64_t c, int64_t w)
{
    int64_t a = c * (w + 20000) - 2000000;
    int64_t b = c * (w - 80000) + 8000000;

    if (a <= 0)
        return 0;
    assert(b > 0);
    return (int64_t)((wide)a * (wide)a / ((wide)c * (wide)b));
}

/* Rule 8's table: F(0) = 1,048,576, each next entry is the one before less its 256th part
 * rounded down. */
int64_t plain_retention(int64_t k)
{
    static int64_t f[2049];

    assert(0 <= k && k <= 2048);
    if (f[0] == 0) {
        f[0] = 1048576;
        for (int i = 0; i < 2048; i++)
            f[i + 1] = f[i] - f[i] / 256;
    }
    return f[k];
}

/* Rule 8: what the soil loses when d = E - n is asked of it. Only the end is rounded. */
int64_t plain_loss(int64_t soil, int64_t capacity, int64_t d)
{
    const int64_t one = 1048576;
    int64_t l;

    if (capacity == 0)
        return 0;

    int64_t k = 256 * d / capacity;
    int64_t f = 256 * d - k * capacity;
    if (k < 2048)
        l = (one - plain_retention(k)) * capacity +
            (plain_retention(k) - plain_retention(k + 1)) * f;
    else
        l = (one - plain_retention(2048)) * capacity;
    return (int64_t)((wide)soil * (wide)l / ((wide)one * (wide)capacity));
}

/* Rules 7 and 8: infiltration n against potential evapotranspiration E. */
static void soil_rules(struct cell_day *c, int64_t n, int64_t e, int64_t capacity,
                       int64_t largest_recharge)
{
    if (n >= e) { /* rule 7 */
        int64_t filled = c->soil + n - e;
        int64_t excess = filled > capacity ? filled - capacity : 0;
        c->evapotranspired = e;
        c->soil = filled - excess;
        c->recharged = smaller(excess, largest_recharge);
        c->rejected = excess - c->recharged;
    } else { /* rule 8 */
        int64_t loss = plain_loss(c->soil, capacity, e - n);
        c->evapotranspired = n + loss;
        c->soil -= loss;
        c->recharged = 0;
        c->rejected = 0;
    }
}

/* Rules 1 to 8. */
struct cell_day plain_cell_rules(const struct setup *s, const struct recharge_day_record *day,
                                 enum plain_condition condition, uint32_t cell, struct way way,
                                 int64_t inflow, int64_t soil, int64_t snow)
{
    struct cell_day c = {.inflow = inflow, .soil = soil, .snow = snow};

    if (is_open_water(s, cell)) { /* rule 1: all else is 0 */
        c.outflow = day->gross + inflow;
        return c;
    }

    c.intercepted = plain_interception_of(s, day, cell); /* rule 2 */
    int64_t net = day->gross - c.intercepted;

    int64_t rain = 0; /* rule 3 */
    if (plain_falls_as_snow(day->minimum, day->mean, day->maximum))
        c.snow += net;
    else
        rain = net;
    int64_t melt = plain_melt(c.snow, day->maximum);
    c.snow -= melt;

    c.w = rain + melt + inflow; /* rule 4 */

    int64_t number = plain_curve_number(of_group(s, cell, CURVE), condition); /* rule 5 */

    int64_t runoff = way.goes == NOWHERE ? 0 : plain_runoff(number, c.w); /* rule 6 */
    c.infiltration = c.w - runoff;

    soil_rules(&c, c.infiltration, day->potential, capacity_of(s, cell), /* rules 7 and 8 */
               of_group(s, cell, RECHARGE));

    /* M-104: rejected recharge joins the outflow. Only in a closed depression does it leave the
     * balance. */
    c.outflow = way.goes == NOWHERE ? 0 : runoff + c.rejected;
    return c;
}
