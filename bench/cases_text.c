/* Texts for the program, nearly valid or damaged. */
#include "cases_parts.h"
#include "text.h"

#include <assert.h>
#include <stdio.h>
#include <string.h>

enum { MOST_NUMBERS = 5 + BALANCE_ENTRY * 66 + 4 * CASE_ROOM + 7 * 64 };

struct listing {
    int64_t number[MOST_NUMBERS];
    size_t count;
    size_t covers_at, cells_at, days_at; /* where these begin */
};

static void add(struct listing *l, int64_t number)
{
    assert(l->count < MOST_NUMBERS);
    l->number[l->count++] = number;
}

static void list_grid(struct listing *l, const struct grid_case *g)
{
    l->count = 0;
    add(l, g->width);
    add(l, g->height);
    add(l, g->first);
    add(l, g->last);
    add(l, (int64_t)(g->covers_len / BALANCE_ENTRY));
    l->covers_at = l->count;
    for (size_t i = 0; i < g->covers_len; i++)
        add(l, g->covers[i]);
    l->cells_at = l->count;
    for (uint32_t i = 0; i < g->cells; i++) {
        add(l, g->direction[i]);
        add(l, g->cover[i]);
        add(l, g->group[i]);
        add(l, g->water[i]);
    }
    l->days_at = l->count;
}

static void list_day(struct listing *l, const struct recharge_day_record *d)
{
    add(l, d->serial);
    add(l, d->day_of_year);
    add(l, d->gross);
    add(l, d->minimum);
    add(l, d->mean);
    add(l, d->maximum);
    add(l, d->potential);
}

static void list_days(struct listing *l, const struct grid_case *g)
{
    static struct state_case s;
    struct recharge_day_record d;
    bool long_winter = chance(8); /* snow upon snow, to the limit of the store */
    uint32_t days = long_winter ? 30 : chance(10) ? 0 : (uint32_t)between(1, 10);

    s.last_serial = chance(80) ? BALANCE_NO_SERIAL : (uint32_t)between(9999970, 9999998);
    for (uint32_t i = 0; i < days; i++) {
        make_day(g, &s, &d);
        if (i == 0 && s.last_serial == BALANCE_NO_SERIAL && chance(10))
            d.serial = 9999999 - (uint32_t)below(8); /* to run past the last serial */
        if (long_winter) {
            uint32_t times = (uint32_t)below(3);
            d.gross = 400000 - times * (uint32_t)below(5000);
            d.minimum = d.mean = -10 - (int32_t)below(900);
            d.maximum = d.mean + (int32_t)below(330);
        }
        list_day(l, &d);
        s.last_serial = d.serial;
    }
}

/* The mean temperature that brings the index from where it is to the target, or nearest below it:
 * 18 tenths of a degree Fahrenheit are a Celsius degree. */
static int32_t mean_towards(uint32_t index, uint32_t target)
{
    int64_t missing = (int64_t)target - case_frost(index, 320);
    int64_t mean = 320 - (18 * missing - (missing < 0 ? 999 : 0)) / 1000;

    return (int32_t)(mean < -1000 ? -1000 : mean > 1500 ? 1500 : mean);
}

/* Each setpoint of the program, one below it and one above. */
static const uint32_t targets[] = {
    TEXT_FIRST_SETPOINT - 1,  TEXT_FIRST_SETPOINT,  TEXT_FIRST_SETPOINT + 1,
    TEXT_SECOND_SETPOINT - 1, TEXT_SECOND_SETPOINT, TEXT_SECOND_SETPOINT + 1,
};

static bool is_target(uint32_t index)
{
    for (size_t i = 0; i < COUNT(targets); i++)
        if (targets[i] == index)
            return true;
    return false;
}

/* A winter day's mean temperature: the index goes anywhere, or to a target where a day can bring it
 * to one. */
static int32_t winter_mean(uint32_t index)
{
    size_t start = below(COUNT(targets));
    int32_t mean = (int32_t)between_signed(-300, 600);

    for (size_t i = 0; i < COUNT(targets) && chance(90); i++) {
        uint32_t target = targets[(start + i) % COUNT(targets)];
        mean = mean_towards(index, target);
        if (case_frost(index, mean) == target)
            break;
    }
    return mean;
}

static void list_winter(struct listing *l, const struct grid_case *g, uint64_t *hits)
{
    static struct state_case s;
    struct recharge_day_record d;

    s.last_serial = BALANCE_NO_SERIAL;
    s.frost_index = 0;
    for (uint64_t days = between(5, 40); days > 0; days--) {
        make_day(g, &s, &d);
        if (chance(70)) /* so little that condition I stays likely */
            d.gross = chance(50) ? 0 : (uint32_t)between(0, 5000);
        d.mean = winter_mean(s.frost_index);
        d.minimum = d.mean - (int32_t)below(1 + (uint64_t)(d.mean + 1000) / 4);
        d.maximum = d.mean + (int32_t)below(1 + (uint64_t)(1500 - d.mean) / 4);
        list_day(l, &d);
        s.last_serial = d.serial;
        s.frost_index = case_frost(s.frost_index, d.mean);
        *hits += is_target(s.frost_index);
    }
}

/* A place in the list: of the head, the covers, the cells or the days. */
static size_t some_place(const struct listing *l)
{
    switch (below(4)) {
    case 0: return below(5);
    case 1: return between(l->covers_at, l->cells_at - 1);
    case 2: return between(l->cells_at, l->days_at - 1);
    default: return l->count > l->days_at ? between(l->days_at, l->count - 1) : below(l->count);
    }
}

static void spoil_number(struct listing *l)
{
    int64_t *number = l->number + some_place(l);
    const int64_t others[] = {-1, 0, 1, *number + 1, *number - 1, -*number, *number + 256,
                              *number + 65536, *number + 4 * (1 << 20), 999999999, -999999999,
                              -256, 65, 4097, 367, 400001, 10000000, -1001, 1501,
                              (int64_t)below(1000000000)};
    *number = ONE_OF(others);
}

/* Spoils one of the first five numbers. Place and value are drawn in two statements: in one, the
 * order would be the compiler's own, and a seed would not give the same case everywhere. */
static void spoil_first(struct listing *l)
{
    uint64_t at = below(l->count < 5 ? l->count : 5);

    l->number[at] = chance(50) ? 0 : -5;
}

/* Makes a run of blanks; the room is ample. */
static size_t put_blanks(unsigned char *bytes, unsigned ragged, bool row_end)
{
    size_t count = 1;

    bytes[0] = row_end ? '\n' : ' ';
    while (chance(ragged) && count < 12)
        bytes[count++] = chance(50) ? '\n' : ' ';
    return count;
}

static const char *const bad_tokens[] = {
    "-",     "--1",  "1-",    "-0",        "00",   "01",    "-01",        "+1",
    "1e5",   "1.0",  ".5",    "0x10",      "a",    "1,2",   "1234567890", "-1234567890",
    "1\t2",  "\t",   "5\r",   "\r",        "end",  "1_000", "0000000001", "9999999999",
    "-00",   "1\f",  "\xff",  ("\xc2\xa0" "5"), "\v",   "4 -",   "4294967297", "18446744073709551617",
    "0-",    "10-2", "1/",    "1:",        "/",    ":",     "-:",         "123456789012345678901",
};

const char *bad_word(void)
{
    const char *word;

    do
        word = ONE_OF(bad_tokens);
    while (strchr(word, ' ') != NULL);
    return word;
}

/* The list as text; a bad token may stand before one of the numbers (or after the last). */
static size_t put_listing(const struct listing *l, unsigned char *bytes, bool with_bad)
{
    unsigned ragged = chance(70) ? 0 : (unsigned)below(40);
    size_t n = 0, bad_at = with_bad ? (chance(30) ? below(6) : below(l->count + 1)) : SIZE_MAX;

    if (chance(10))
        n += put_blanks(bytes + n, 30, false);
    for (size_t i = 0; i <= l->count; i++) {
        bool row_end = i == 3 || i == 4 || (i < l->cells_at && i % 16 == 4) ||
                       (i >= l->cells_at && i < l->days_at && (i - l->cells_at) % 4 == 3) ||
                       (i >= l->days_at && (i - l->days_at) % 7 == 6);
        if (i == bad_at) {
            n += (size_t)sprintf((char *)bytes + n, "%s", ONE_OF(bad_tokens));
            if (chance(85))
                n += put_blanks(bytes + n, ragged, false);
        }
        if (i == l->count)
            break;
        n += (size_t)sprintf((char *)bytes + n, "%lld", (long long)l->number[i]);
        if (i + 1 < l->count || chance(90) || i + 1 == bad_at)
            n += put_blanks(bytes + n, ragged, row_end);
    }
    return n;
}

/* Blanks somewhere, so that the length comes to n or more. */
static size_t stretch(unsigned char *bytes, size_t n, size_t to)
{
    if (n >= to)
        return n;
    size_t at = chance(50) ? n : 0;
    memmove(bytes + at + (to - n), bytes + at, n - at);
    memset(bytes + at, chance(50) ? ' ' : '\n', to - n);
    return to;
}

size_t make_text(unsigned char *bytes)
{
    static struct grid_case g;
    static struct listing l;
    static const size_t lengths[] = {65535, 65536, 65537, 65538, 70000};
    uint32_t kind = (uint32_t)below(100);
    bool with_bad = false;

    make_grid(&g);
    if (kind < 8)
        damage_ring(&g);
    list_grid(&l, &g);
    list_days(&l, &g);
    if (kind >= 8 && kind < 45) { /* a number out of its field, sometimes several */
        do
            spoil_number(&l);
        while (chance(15));
    } else if (kind < 57 && kind >= 45) { /* cut off */
        size_t most = chance(30) && l.count > 8 ? 8 : l.count;
        l.count = chance(40) ? below(most) : l.count - 1 - below(most < 8 ? most : 8);
        if (chance(30) && l.count > 0)
            spoil_first(&l);
    } else if (kind < 62 && kind >= 57) { /* too many */
        for (uint64_t more = between(1, 13); more > 0; more--)
            add(&l, (int64_t)below(400));
    } else if (kind < 75 && kind >= 62) {
        with_bad = true;
    }

    size_t n = put_listing(&l, bytes, with_bad);
    if (kind >= 75 && kind < 80) { /* cut at a byte */
        n = below(n + 1);
    } else if (kind >= 80 && kind < 84) { /* a byte changed */
        static const char changes[] = " \n-0159\t+x";
        size_t at = below(n);
        bytes[at] = (unsigned char)changes[below(sizeof changes)]; /* NUL among them */
    } else if (kind >= 84 && kind < 88) {
        n = stretch(bytes, n, ONE_OF(lengths));
    } else if (kind == 88) {
        memset(bytes, ' ', n = below(20)); /* nothing but blanks */
    }
    return n;
}

size_t make_winter(unsigned char *bytes, uint64_t *hits)
{
    static struct grid_case g;
    static struct listing l;

    make_grid(&g);
    list_grid(&l, &g);
    list_winter(&l, &g, hits);
    return put_listing(&l, bytes, false);
}
