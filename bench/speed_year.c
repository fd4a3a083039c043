/* How long a year takes: the proved library's one call for it, with the sums of every cell, against as many day calls of fast.c, which
 * adds nothing up. What the sums must be is found apart, outside the time, by adding the fast C's results up. */
#include "speed.h"

#include <inttypes.h>
#include <stdio.h>
#include <stdlib.h>
#include <string.h>

balance_period JOIN(THIRD, _period);

/* What a year leaves. */
struct books {
    uint32_t soil[BALANCE_MAX_CELLS], snow[BALANCE_MAX_CELLS];
    uint64_t totals[YEAR * BALANCE_TOTALS], returned;
};

static struct books start, books[2];
static uint32_t results[BALANCE_SUMS][BALANCE_MAX_CELLS];
static uint64_t sums[BALANCE_SUMS * BALANCE_MAX_CELLS], wanted[BALANCE_SUMS * BALANCE_MAX_CELLS];
static uint32_t memory[BALANCE_MEMORY], last_serial, frost_index;

/* The same days over and over, with serials from 1 on: as a list, and one by one. */
static int32_t list[YEAR * BALANCE_DAY];

struct recharge_day_record day_of(uint32_t n)
{
    struct recharge_day_record day = mixed[n % DAYS];

    day.serial = n + 1;
    return day;
}

static void make_list(void)
{
    for (uint32_t n = 0; n < YEAR; n++) {
        const struct recharge_day_record d = day_of(n);
        const int32_t numbers[BALANCE_DAY] = {(int32_t)d.serial, (int32_t)d.day_of_year, (int32_t)d.gross, d.minimum,
                                              d.mean, d.maximum, (int32_t)d.potential};
        memcpy(list + n * BALANCE_DAY, numbers, sizeof numbers);
    }
}

static void from_start(struct books *b)
{
    *b = start;
    memset(memory, 0, sizeof memory);
    last_serial = BALANCE_NO_SERIAL;
    frost_index = 0;
}

static void fast_one(struct books *b, uint32_t n)
{
    b->returned |= fast_day(SETUP, b->soil, cells, b->snow, cells, memory, &last_serial, &frost_index, results[0], cells,
                            results[1], cells, results[2], cells, results[3], cells, results[4], cells,
                            b->totals + n * BALANCE_TOTALS, day_of(n));
}

/* The sums, by the fast C's days. */
static void find_wanted(void)
{
    from_start(&books[FAST]);
    memset(wanted, 0, sizeof wanted);
    for (uint32_t n = 0; n < YEAR; n++) {
        fast_one(&books[FAST], n);
        for (uint32_t k = 0; k < BALANCE_SUMS; k++)
            for (uint32_t i = 0; i < cells; i++)
                wanted[k * cells + i] += results[k][i];
    }
}

double fast_year(void)
{
    struct books *b = &books[FAST];

    from_start(b);
    double before = microseconds();
    for (uint32_t n = 0; n < YEAR; n++) {
        fast_one(b, n);
        barrier();
    }
    return microseconds() - before;
}

static double run_proved(void)
{
    struct books *b = &books[PROVED];
    uint64_t accepted = 0;

    *b = start;
    double before = microseconds();
    b->returned = JOIN(THIRD, _period)(SETUP, list, YEAR * BALANCE_DAY, b->soil, cells, b->snow, cells, sums,
                                       BALANCE_SUMS * (size_t)cells, b->totals, YEAR * BALANCE_TOTALS, &accepted);
    barrier();
    double spent = microseconds() - before;
    if (accepted != YEAR)
        b->returned = UINT64_MAX;
    return spent;
}

static void same_books(const char *name)
{
    if (books[FAST].returned != 0 || memcmp(&books[FAST], &books[PROVED], sizeof books[0]) != 0 ||
        memcmp(sums, wanted, BALANCE_SUMS * cells * sizeof sums[0]) != 0) {
        printf("%s, %" PRIu32 " cells: the years differ, or a day was refused\n", name, cells);
        exit(1);
    }
}

/* The fresh state from which a year starts. */
static void find_start(const char *name)
{
    memset(&start, 0, sizeof start);
    if (fast_fresh(SETUP, start.soil, cells, start.snow, cells, memory, &last_serial, &frost_index) != 0)
        printf("%s: the setup is refused\n", name);
}

/* Turn and turn about; who begins changes from round to round. */
void measure_year(const char *name, int rounds)
{
    static double ratios[MOST_ROUNDS];
    double least[2] = {1e30, 1e30};

    make_list();
    find_start(name);
    find_wanted();
    for (int n = -1; n < rounds; n++) { /* one round to warm up */
        double spent[2];
        memset(sums, 0xff, sizeof sums);
        for (int turn = 0; turn < 2; turn++) {
            int which = (n + turn) & 1;
            spent[which] = which == FAST ? fast_year() : run_proved();
        }
        same_books(name);
        if (n < 0)
            continue;
        ratios[n] = spent[PROVED] / spent[FAST];
        for (int which = 0; which < 2; which++)
            least[which] = spent[which] < least[which] ? spent[which] : least[which];
    }
    print_line(name, least, ratios, rounds);
}
