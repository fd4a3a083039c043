/* What the texts of the plain C share, `balance`'s (plain_text.c), `why`'s (plain_why_text.c), `potential`'s
 * (plain_potential.c) and Arc grids (plain_grids.c): the output, a word that is a number, and a text taken up. */
#ifndef PLAIN_TEXT_H
#define PLAIN_TEXT_H

#include "balance.h"
#include "text.h"

#include <assert.h>
#include <stdbool.h>

/* ---------------------------------------------------------------- output */

struct output {
    unsigned char *bytes;
    size_t room, used;
};

static inline void put_byte(struct output *o, char byte)
{
    assert(o->used < o->room);
    o->bytes[o->used++] = (unsigned char)byte;
}

static inline void put_word(struct output *o, const char *word)
{
    for (; *word != '\0'; word++)
        put_byte(o, *word);
}

static inline void put_number(struct output *o, uint64_t number)
{
    if (number >= 10)
        put_number(o, number / 10);
    put_byte(o, (char)('0' + number % 10));
}

/* The last line: `end` and the count of days. */
static inline size_t put_end(struct output *o, size_t days)
{
    put_word(o, "end ");
    put_number(o, days);
    put_byte(o, '\n');
    return o->used;
}

/* A line, of `balance` and `why` the last: `refused` number `at` place, of a refusal as the calls return it. */
static inline size_t put_refused(struct output *o, uint64_t refusal)
{
    put_word(o, "refused ");
    put_number(o, refusal >> 32);
    put_word(o, " at ");
    put_number(o, refusal & UINT32_MAX);
    put_byte(o, '\n');
    return o->used;
}

/* ---------------------------------------------------------------- words */

/* What parts words. */
static inline bool is_blank(unsigned char byte)
{
    return byte == ' ' || byte == '\n';
}

/* The next of the n bytes' words from *at on starts at *start, and *at is then past its end; false where none is left. */
static inline bool next_word(const unsigned char *text, size_t n, size_t *at, size_t *start)
{
    while (*at < n && is_blank(text[*at]))
        ++*at;
    *start = *at;
    while (*at < n && !is_blank(text[*at]))
        ++*at;
    return *at > *start;
}

static inline bool is_digit(unsigned char byte)
{
    return '0' <= byte && byte <= '9';
}

/* Is the token a number of 1 to 9 digits, a minus allowed, no leading zeros, no minus zero? Nine digits fit 32 bits. */
static inline bool plain_number(const unsigned char *token, size_t length, int32_t *number)
{
    bool minus = length > 0 && token[0] == '-';
    const unsigned char *digits = token + (minus ? 1 : 0);
    size_t count = length - (minus ? 1 : 0);
    int32_t value = 0;

    if (count < 1 || count > 9)
        return false;
    for (size_t i = 0; i < count; i++) {
        if (!is_digit(digits[i]))
            return false;
        value = 10 * value + (digits[i] - '0');
    }
    if (digits[0] == '0' && (count > 1 || minus))
        return false;
    *number = minus ? -value : value;
    return true;
}

/* ---------------------------------------------------------------- a text taken up: plain_text.c */

/* A text's setup and days, and the state and results of its run. */
struct grid {
    struct recharge_site site;
    uint32_t covers[BALANCE_MAX_COVERS * BALANCE_ENTRY];
    size_t covers_len, cells;
    uint32_t direction[BALANCE_MAX_CELLS], cover[BALANCE_MAX_CELLS];
    uint32_t group[BALANCE_MAX_CELLS], water[BALANCE_MAX_CELLS];
    struct recharge_day_record day[TEXT_LONGEST / 2 / TEXT_DAY];
    size_t days;
    uint32_t soil[BALANCE_MAX_CELLS], snow[BALANCE_MAX_CELLS];
    uint32_t memory[BALANCE_MEMORY], last_serial, frost_index;
    uint32_t intercepted[BALANCE_MAX_CELLS], outflow[BALANCE_MAX_CELLS];
    uint32_t evapotranspired[BALANCE_MAX_CELLS], recharged[BALANCE_MAX_CELLS];
    uint32_t rejected[BALANCE_MAX_CELLS];
    uint64_t totals[BALANCE_TOTALS];
};

#define GRID_SETUP(g)                                                                             \
    (g)->site, (g)->covers, (g)->covers_len, (g)->direction, (g)->cells, (g)->cover, (g)->cells,  \
        (g)->group, (g)->cells, (g)->water, (g)->cells
#define GRID_STORES(g) (g)->soil, (g)->cells, (g)->snow, (g)->cells

/* Length, form, test 1, the cover count, missing numbers: 0, and then the setup and the days stand in
 * g, or the refusal. */
uint64_t plain_take_up(const unsigned char *in, size_t n, struct grid *g);

/* The fresh state, and one day, of a text that was taken up. */
uint64_t plain_start(struct grid *g);
uint64_t plain_run_day(struct grid *g, size_t day);

/* Tests 1 to 6 of a call that asks about a cell (plain_reasons.c). */
uint64_t plain_check_about(BALANCE_SETUP_PARAMETERS, uint32_t cell);

#endif
