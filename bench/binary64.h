/* Doubles as whole numbers: their bits, and the operations of binary64 worked out in integers, each
 * rounded once to the nearest, of two that are as near to the even one. Neither the processor's
 * arithmetic on doubles nor what a compiler makes of it has a part in them. */
#ifndef BINARY64_H
#define BINARY64_H

#include <stdbool.h>
#include <stdint.h>
#include <string.h>

__extension__ typedef unsigned __int128 wide;

#define BINARY64_SIGN ((uint64_t)1 << 63)
#define BINARY64_INFINITY ((uint64_t)0x7ff << 52) /* the bits above, but for the sign, are not a number */
#define BINARY64_QUIET ((uint64_t)1 << 51)        /* of what is not a number: without it, it signals */
#define BINARY64_NORMAL ((uint64_t)1 << 52)       /* the smallest normal number; below it, but for 0, are subnormal ones */

static inline uint64_t bits_of(double value)
{
    uint64_t bits;

    memcpy(&bits, &value, sizeof bits);
    return bits;
}

static inline double double_of(uint64_t bits)
{
    double value;

    memcpy(&value, &bits, sizeof value);
    return value;
}

/* How many doubles a number is away from 0, below it negative. Of one more it is the double just above,
 * of one less the double just below. Both zeros are 0. */
static inline int64_t rank_of(double value)
{
    const int64_t size = (int64_t)(bits_of(value) & ~BINARY64_SIGN);

    return bits_of(value) & BINARY64_SIGN ? -size : size;
}

static inline double of_rank(int64_t rank)
{
    return double_of(rank < 0 ? BINARY64_SIGN | (uint64_t)-rank : (uint64_t)rank);
}

/* The number m x 2^e, or its opposite. What an operation gives is a double's, with m at most 2^53. */
struct binary64 {
    bool negative;
    wide m;
    int e;
};

struct binary64 binary64_of(double value); /* a number, and no infinity */
struct binary64 binary64_whole(uint32_t n);
struct binary64 binary64_decimal(uint32_t n, uint32_t d); /* n / d, as a compiler rounds a decimal */

struct binary64 binary64_add(struct binary64 a, struct binary64 b);
struct binary64 binary64_less(struct binary64 a, struct binary64 b); /* a - b */
struct binary64 binary64_times(struct binary64 a, struct binary64 b);
struct binary64 binary64_over(struct binary64 a, struct binary64 b); /* b is not 0 */

bool binary64_same(struct binary64 a, struct binary64 b); /* the two zeros are */
bool binary64_above_zero(struct binary64 a);

/* The greatest whole number not above one that is not negative and below 2^64. */
uint64_t binary64_floor(struct binary64 a);

/* Where a number above 0 lies: at a whole number above 0, within one part in 2^40 below or above one, or elsewhere. */
enum beside_whole { BESIDE_NONE, AT_WHOLE, BELOW_WHOLE, ABOVE_WHOLE, BESIDES };
enum beside_whole binary64_beside_whole(struct binary64 a);

#endif
