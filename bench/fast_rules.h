/* fast.c's rules: the day's condition, what cells of one cover and group share on a day, and the
 * arithmetic of one cell. Static functions, for fast.c alone. */
#ifndef FAST_RULES_H
#define FAST_RULES_H

#include "fast_survey.h"
#include "retention.h"

/* Limits of a day and of the state. */
enum { MAX_GROSS = 400000, MAX_SNOW = 10000000, MAX_SERIAL = 9999999, MAX_FROST = 2500000 };

/* M-106's frost index after a day: all in unsigned numbers, since the quotient is shifted up by
 * 73,334 (18 times that is 1,320,012), the most that a day's frost can add. */
static uint32_t frost_after(uint32_t index, int32_t mean)
{
    const uint32_t most = 97 * index / 100 + 73334;
    const uint32_t thaw = (uint32_t)(1000 * (mean + 1000) + 12) / 18;

    return most > thaw ? most - thaw : 0;
}

/* Rule 5's condition with M-106's: what the day counts as, 1 to 3. */
static int condition_of(uint64_t sum, bool growing, uint32_t frost, struct recharge_site site)
{
    if (frost >= site.second_setpoint || sum > (growing ? 21000 : 11000))
        return 3;
    return frost < site.first_setpoint && sum < (growing ? 14000 : 5000) ? 1 : 2;
}

/* All that cells of one cover and group share on a day. Open water has zeros here, so that
 * it passes tests 9 and 10 exactly when its stores are 0. */
struct plot {
    uint32_t intercepted, rain, snowfall;
    uint32_t root, most_snow; /* limits of the stores: root x available water, and this */
    uint32_t largest;         /* daily recharge */
    uint32_t c;               /* curve number */
    uint32_t none_to;         /* no runoff up to this w: a > 0 exactly when w is above it */
    uint32_t b0;              /* b = c w + b0 */
    uint32_t k;               /* K = 100,000(100 - c) */
    uint64_t kk;              /* K squared */
};

/* Rule 5. */
static uint32_t curve_number(uint32_t n, int condition)
{
    if (condition == 1) {
        const uint32_t under = 228100 - 1281 * n;
        return (200000 * n + under) / (2 * under);
    }
    if (condition == 3) {
        const uint32_t under = 42700 + 573 * n;
        return (200000 * n + under) / (2 * under);
    }
    return n;
}

static void plan_plots(const uint32_t *covers, size_t covers_len, bool growing, int condition,
                       bool snows, uint32_t gross, struct plot *plot)
{
    for (const uint32_t *e = covers; e != covers + covers_len; e += BALANCE_ENTRY, plot += 4) {
        if (e[WATER] != 0) {
            memset(plot, 0, 4 * sizeof *plot);
            continue;
        }
        const uint32_t figure = growing ? e[GROWING] : e[DORMANT];
        const uint32_t intercepted = gross < figure ? gross : figure;
        const uint32_t net = gross - intercepted;
        for (int g = 0; g < 4; g++) {
            const uint32_t c = curve_number(e[CURVE + g], condition);
            const uint32_t k = 100000 * (100 - c);
            plot[g] = (struct plot){
                .intercepted = intercepted,
                .rain = snows ? 0 : net,
                .snowfall = snows ? net : 0,
                .root = e[ROOTS + g],
                .most_snow = MAX_SNOW,
                .largest = e[RECHARGE + g],
                .c = c,
                .none_to = 2000000 / c - 20000,
                .b0 = 80000 * (100 - c),
                .k = k,
                .kk = (uint64_t)k * k,
            };
        }
    }
}

/* Rule 6. */
static inline uint32_t runoff(const struct plot *p, uint32_t w)
{
    if (w <= p->none_to)
        return 0;
    const uint64_t b = (uint64_t)p->c * w + p->b0;
    return (uint32_t)((b + p->kk / b - 2 * (uint64_t)p->k) / p->c);
}

/* Rule 8. soil x L stays below 600,000^2 x 2^20 < 2^60. */
static inline uint32_t loss_of(uint32_t soil, uint32_t capacity, uint32_t d)
{
    const uint64_t one = 1u << 20;

    if (soil == 0)
        return 0; /* also where the capacity is 0 */
    const uint32_t k = 256 * d / capacity;
    uint64_t l;
    if (k < 2048) {
        const uint32_t f = 256 * d - k * capacity;
        l = (one - retention[k]) * capacity + (uint64_t)(retention[k] - retention[k + 1]) * f;
    } else {
        l = (one - retention[2048]) * capacity;
    }
    return (uint32_t)(soil * l / (one * capacity));
}

#endif
