/* The random numbers of the cases. */
#include "cases_parts.h"

static uint64_t random_state;

uint64_t random_bits(void) /* splitmix64 */
{
    uint64_t z = random_state += 0x9e3779b97f4a7c15;
    z = (z ^ z >> 30) * 0xbf58476d1ce4e5b9;
    z = (z ^ z >> 27) * 0x94d049bb133111eb;
    return z ^ z >> 31;
}

void start_random(uint64_t seed)
{
    random_state = seed;
    random_bits();
}

uint64_t below(uint64_t n)
{
    return random_bits() % n;
}

bool chance(unsigned percent)
{
    return below(100) < percent;
}

uint64_t between(uint64_t lowest, uint64_t highest)
{
    return lowest + below(highest - lowest + 1);
}

int64_t between_signed(int64_t lowest, int64_t highest)
{
    return lowest + (int64_t)below((uint64_t)(highest - lowest) + 1);
}

uint64_t edgy(uint64_t lowest, uint64_t highest)
{
    uint64_t span = highest - lowest;

    switch (below(8)) {
    case 0: return lowest;
    case 1: return highest;
    case 2: return lowest + (span > 0);
    case 3: return highest - (span > 0);
    case 4: { /* small: of every number of bits alike */
        uint64_t bits = between(1, 40), small = random_bits() >> (64 - bits);
        return lowest + (small < span ? small : span);
    }
    default: return between(lowest, highest);
    }
}

uint32_t edgy32(uint32_t lowest, uint32_t highest)
{
    return (uint32_t)edgy(lowest, highest);
}
