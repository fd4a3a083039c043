/* A list of days in one call: all that take one are held to the plain C, which works the days through one call after another. */
#include "cases_parts.h"
#include "fuzz.h"

#include <inttypes.h>
#include <stdio.h>
#include <string.h>

enum { MOST_DAYS = 40, LIST_ROOM = 8, /* so that lengths may be a little off */
       SUMS_ROOM = BALANCE_SUMS * BALANCE_MAX_CELLS + LIST_ROOM, DAYS_ROOM = MOST_DAYS * BALANCE_DAY + LIST_ROOM };

/* Everything lent for writing. Each array goes on past what may be written. */
struct books {
    uint32_t soil[CASE_ROOM], snow[CASE_ROOM];
    uint64_t sums[SUMS_ROOM], totals[DAYS_ROOM], accepted[1 + GUARD];
    uint64_t returned;
};

struct period_case {
    int32_t days[DAYS_ROOM];
    size_t days_len, soil_len, snow_len, sums_len, totals_len;
};

static struct {
    uint64_t returned[REFUSALS], empty, none_accepted, in_between, days;
} met;

static struct books found, wanted;

/* ---------------------------------------------------------------- lists of days */

static void put_day(struct period_case *p, size_t n, const struct recharge_day_record *d)
{
    const int32_t numbers[BALANCE_DAY] = {(int32_t)d->serial, (int32_t)d->day_of_year, (int32_t)d->gross, d->minimum, d->mean,
                                          d->maximum, (int32_t)d->potential};

    memcpy(p->days + n * BALANCE_DAY, numbers, sizeof numbers);
}

/* Days that follow each other, all within their limits. Where it only snows, a store is full before the last. */
static void make_list(const struct grid_case *g, struct state_case *s, struct period_case *p, size_t days, bool snows)
{
    struct recharge_day_record day;

    s->last_serial = BALANCE_NO_SERIAL;
    for (size_t n = 0; n < days; n++) {
        make_day(g, s, &day);
        if (snows) {
            day.minimum = day.mean = day.maximum = (int32_t)between_signed(-1000, 300);
            day.gross = (uint32_t)between(390000, 400000);
        }
        put_day(p, n, &day);
        s->last_serial = day.serial;
    }
    p->days_len = p->totals_len = days * BALANCE_DAY;
    p->soil_len = p->snow_len = g->cells;
    p->sums_len = BALANCE_SUMS * (size_t)g->cells;
}

/* At most 20: no snow fills a store in so few, and the first serial that make_day gives leaves room for them. Fewer on a large
 * grid, since the plain C takes its time. */
static size_t draw_days(const struct grid_case *g)
{
    if (chance(10))
        return 0;
    return 1 + (size_t)below(g->cells > 500 ? 8 : 20);
}

/* ---------------------------------------------------------------- damage */

/* A number of a day past its limit, at either end: test 7. */
static uint64_t damage_number(int32_t *day)
{
    static const int32_t past[BALANCE_DAY][4] = {
        {-1, INT32_MIN, 10000000, INT32_MAX}, {-1, 0, 367, INT32_MAX},          {-1, INT32_MIN, 400001, INT32_MAX},
        {-1001, INT32_MIN, 1501, INT32_MAX},  {-1001, INT32_MIN, 1501, INT32_MAX}, {-1001, INT32_MIN, 1501, INT32_MAX},
        {-1, INT32_MIN, 20001, INT32_MAX}};
    uint64_t which = below(BALANCE_DAY);

    day[which] = ONE_OF(past[which]);
    return refusal(7, 0);
}

/* A serial within its limits that does not follow: test 8. */
static uint64_t damage_following(int32_t *day)
{
    static const int32_t off[] = {-1, 1, 2, 256};
    int32_t serial = day[0] + ONE_OF(off);

    day[0] = serial < 0 || serial > 9999999 ? day[0] - 1 : serial;
    return refusal(8, 0);
}

/* Spoils a day of the list; the first has nothing to follow. `good` is how many stand before it. */
static uint64_t damage_list(struct period_case *p, uint64_t *good)
{
    *good = below(p->days_len / BALANCE_DAY);
    int32_t *day = p->days + *good * BALANCE_DAY;
    return *good > 0 && chance(40) ? damage_following(day) : damage_number(day);
}

/* A length that does not fit, of one list or of a store: test 2. */
static uint64_t damage_lengths(const struct grid_case *g, struct period_case *p)
{
    switch (below(6)) {
    case 0: p->soil_len = wrong_length(g->cells); break;
    case 1: p->snow_len = wrong_length(g->cells); break;
    case 2: p->sums_len = p->sums_len + 1 + below(LIST_ROOM); break;
    case 3: p->sums_len -= 1 + below(p->sums_len); break;
    case 4: /* no whole days, with and without totals for them */
        p->days_len += 1 + below(BALANCE_DAY - 1);
        if (chance(50))
            p->totals_len = p->days_len;
        break;
    default: p->totals_len = p->totals_len > 0 && chance(50) ? p->totals_len - 1 : p->totals_len + 1 + below(LIST_ROOM); break;
    }
    return refusal(2, 0);
}

/* ---------------------------------------------------------------- the call, by all that have it */

static void set_books(struct books *b, uint32_t reach)
{
    for (uint32_t i = 0; i < reach; i++) {
        b->soil[i] = 0xdead0000u + i;
        b->snow[i] = 0xdeed0000u + i;
    }
    for (uint32_t i = 0; i < BALANCE_SUMS * (reach - LIST_ROOM) + LIST_ROOM; i++)
        b->sums[i] = 0xfeedfeed00000000u + i;
    for (uint32_t i = 0; i < DAYS_ROOM; i++)
        b->totals[i] = 0xfeedface00000000u + i;
    b->accepted[0] = b->accepted[1] = 0xfeedfeedfeed0005u;
}

static void same_numbers(const char *what, const uint64_t *one, const uint64_t *other, size_t count)
{
    for (size_t i = 0; i < count; i++)
        if (one[i] != other[i])
            fail("period: %s %zu: %" PRIu64 ", the plain C has %" PRIu64, what, i, one[i], other[i]);
}

static void same_stores(const char *what, const uint32_t *one, const uint32_t *other, size_t count)
{
    for (size_t i = 0; i < count; i++)
        if (one[i] != other[i])
            fail("period: %s of cell %zu: %" PRIu32 ", the plain C has %" PRIu32, what, i, one[i], other[i]);
}

static void same_books(const char *who, uint32_t reach)
{
    if (found.returned != wanted.returned)
        fail("period: %s returns %" PRIu64 " at %" PRIu64 ", the plain C %" PRIu64 " at %" PRIu64, who, found.returned >> 32,
             found.returned & UINT32_MAX, wanted.returned >> 32, wanted.returned & UINT32_MAX);
    same_numbers("days accepted", found.accepted, wanted.accepted, 1 + GUARD);
    same_stores("soil", found.soil, wanted.soil, reach);
    same_stores("snow", found.snow, wanted.snow, reach);
    same_numbers("sum", found.sums, wanted.sums, BALANCE_SUMS * (reach - LIST_ROOM) + LIST_ROOM);
    same_numbers("total", found.totals, wanted.totals, DAYS_ROOM);
}

static uint64_t call_period(balance_period *period, const struct grid_case *g, const struct period_case *p, struct books *b)
{
    return period(site_of(g), g->covers, g->covers_len, g->direction, g->direction_len, g->cover, g->cover_len, g->group,
                  g->group_len, g->water, g->water_len, p->days, p->days_len, b->soil, p->soil_len, b->snow, p->snow_len,
                  b->sums, p->sums_len, b->totals, p->totals_len, b->accepted);
}

/* The first is the plain C. What is lent for reading must be as it was. */
static void all_period(const struct grid_case *g, const struct period_case *p)
{
    static struct grid_case lent;
    static struct period_case list;
    uint32_t reach = reach_of(g);

    lent = *g;
    list = *p;
    for (size_t x = 0; x < implementations_count; x++) {
        if (implementations[x].period == NULL)
            continue;
        struct books *b = x == 0 ? &wanted : &found;
        set_books(b, reach);
        b->returned = call_period(implementations[x].period, &lent, &list, b);
        if (x > 0)
            same_books(implementations[x].name, reach);
        if (memcmp(&lent, g, sizeof lent) != 0 || memcmp(&list, p, sizeof list) != 0)
            fail("period: %s has changed the setup or the days", implementations[x].name);
    }
}

/* What was foretold, and how many days then are accepted. */
static void as_foretold(uint64_t foretold, uint64_t good)
{
    if (foretold == UNSURE)
        return;
    tally.foretold++;
    if (wanted.returned != foretold || wanted.accepted[0] != good)
        fail("period: all return %" PRIu64 " at %" PRIu64 " after %" PRIu64 " days, but it should be %" PRIu64 " at %" PRIu64
             " after %" PRIu64, wanted.returned >> 32, wanted.returned & UINT32_MAX, wanted.accepted[0], foretold >> 32,
             foretold & UINT32_MAX, good);
}

static void count_period(const struct period_case *p)
{
    uint64_t number = wanted.returned >> 32;

    if (number == 9 || number > 10) /* every state is the fresh one or an accepted day's */
        fail("period: a refusal that does not exist: %" PRIu64, number);
    met.returned[number]++;
    met.days += wanted.accepted[0];
    met.empty += number == 0 && p->days_len == 0;
    met.none_accepted += number > 6 && wanted.accepted[0] == 0;
    met.in_between += number > 6 && wanted.accepted[0] > 0;
}

void run_period(uint64_t seed)
{
    static struct grid_case g;
    static struct state_case s;
    static struct period_case p;
    uint64_t foretold = 0, good;

    set_current("period", seed);
    start_random(seed);
    make_grid(&g);
    make_setpoints(&g);
    make_state(&g, &s);
    bool snows = g.cells <= 500 && chance(10);
    make_list(&g, &s, &p, snows ? MOST_DAYS : draw_days(&g), snows);
    good = p.days_len / BALANCE_DAY;
    if (snows)
        foretold = UNSURE; /* which day and cell is full first is for them to say */
    if (good > 0 && !snows && chance(30))
        foretold = damage_list(&p, &good);
    if (chance(20)) {
        foretold = damage_lengths(&g, &p);
        good = 0;
    }
    if (chance(30)) {
        uint64_t by_grid = damage_grid(&g);
        if (by_grid != 0) { /* with a wrong length besides, which comes first is for them to say */
            foretold = foretold >> 32 == 2 ? UNSURE : by_grid;
            good = 0;
        }
    }
    all_period(&g, &p);
    as_foretold(foretold, good);
    count_period(&p);
}

/* ---------------------------------------------------------------- the counts */

void report_period(void)
{
    printf("periods: %" PRIu64 " accepted, %" PRIu64 " of them an empty list; refused by", met.returned[0], met.empty);
    for (int i = 1; i <= 10; i++)
        if (i != 9)
            printf(" %d: %" PRIu64 ",", i, met.returned[i]);
    printf(" at the first day %" PRIu64 ", at a later one %" PRIu64 "; days accepted: %" PRIu64 "\n", met.none_accepted,
           met.in_between, met.days);
}

void period_often(uint64_t cases)
{
    char what[60];

    for (int i = 0; i <= 10; i++) {
        if (i == 9)
            continue;
        snprintf(what, sizeof what, "a period reached refusal %d", i);
        enough(what, met.returned[i], cases);
    }
    enough("a period had no day", met.empty, cases);
    enough("a period's first day was refused", met.none_accepted, cases);
    enough("a later day of a period was refused", met.in_between, cases);
}
