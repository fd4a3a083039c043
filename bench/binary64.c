/* The operations of binary64 in integers. */
#include "binary64.h"

enum {
    DIGITS = 53,      /* of m */
    LEAST_E = -1074,  /* the smallest double is 2^-1074 */
    LIFTED = 120,     /* room above the digits of both sides of a division, and for a carry */
    NEARLY_WHOLE = 40 /* one part in 2^40 */
};

/* To the nearest double. m may have lost a part below its last bit, and there is `more`; where it has,
 * m is long enough to lose bits here too. Nothing that M-103 works out comes near the largest double. */
static struct binary64 rounded(bool negative, wide m, int e, bool more)
{
    bool half = false; /* the bit just below m; `more` is then what is below that */

    while (m >> DIGITS != 0 || e < LEAST_E) {
        more = more || half;
        half = m & 1;
        m >>= 1;
        e++;
    }
    if (half && (more || (m & 1) == 1))
        m++;
    return (struct binary64){negative, m, e};
}

/* The same number, other than 0, with the longest m: of two that are lifted, the larger has the larger e,
 * or the larger m with the same. */
static struct binary64 lifted(struct binary64 a)
{
    while (a.m >> LIFTED == 0) {
        a.m <<= 1;
        a.e--;
    }
    return a;
}

struct binary64 binary64_of(double value)
{
    const uint64_t bits = bits_of(value), size = bits & ~BINARY64_SIGN, fraction = bits & (BINARY64_NORMAL - 1);
    const bool normal = size >= BINARY64_NORMAL;

    return (struct binary64){bits != size, normal ? BINARY64_NORMAL | fraction : fraction,
                             LEAST_E + (normal ? (int)(size >> 52) - 1 : 0)};
}

struct binary64 binary64_whole(uint32_t n)
{
    return (struct binary64){false, n, 0};
}

struct binary64 binary64_decimal(uint32_t n, uint32_t d)
{
    return binary64_over(binary64_whole(n), binary64_whole(d));
}

struct binary64 binary64_add(struct binary64 a, struct binary64 b)
{
    if (a.m == 0 || b.m == 0)
        return a.m == 0 ? b : a;
    a = lifted(a);
    b = lifted(b);
    if (a.e < b.e || (a.e == b.e && a.m < b.m)) {
        const struct binary64 smaller = a;
        a = b;
        b = smaller;
    }
    const int apart = a.e - b.e;
    const wide part = apart > LIFTED ? 0 : b.m >> apart;
    const bool more = apart > LIFTED || part << apart != b.m;

    if (a.negative == b.negative)
        return rounded(a.negative, a.m + part, a.e, more);
    return rounded(a.negative, a.m - part - more, a.e, more);
}

struct binary64 binary64_less(struct binary64 a, struct binary64 b)
{
    b.negative = !b.negative;
    return binary64_add(a, b);
}

struct binary64 binary64_times(struct binary64 a, struct binary64 b)
{
    return rounded(a.negative != b.negative, a.m * b.m, a.e + b.e, false);
}

struct binary64 binary64_over(struct binary64 a, struct binary64 b)
{
    const bool negative = a.negative != b.negative;

    if (a.m == 0)
        return (struct binary64){negative, 0, 0};
    a = lifted(a);
    return rounded(negative, a.m / b.m, a.e - b.e, a.m % b.m != 0);
}

bool binary64_same(struct binary64 a, struct binary64 b)
{
    if (a.m == 0 || b.m == 0)
        return a.m == b.m;
    a = lifted(a);
    b = lifted(b);
    return a.negative == b.negative && a.m == b.m && a.e == b.e;
}

bool binary64_above_zero(struct binary64 a)
{
    return a.m > 0 && !a.negative;
}

uint64_t binary64_floor(struct binary64 a)
{
    if (a.m == 0 || a.e < -LIFTED)
        return 0;
    return (uint64_t)(a.e < 0 ? a.m >> -a.e : a.m << a.e);
}

enum beside_whole binary64_beside_whole(struct binary64 a)
{
    a = lifted(a);
    if (a.e < -LIFTED - 1) /* below a half */
        return BESIDE_NONE;
    const wide one = (wide)1 << -a.e, above = a.m & (one - 1), close = a.m >> NEARLY_WHOLE;

    if (above == 0)
        return AT_WHOLE;
    if (above <= close)
        return ABOVE_WHOLE;
    return one - above <= close ? BELOW_WHOLE : BESIDE_NONE;
}
