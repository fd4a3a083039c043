/* Document 01, "The program `balance`", as plainly as it can be said, over plain_*. M-106 gives it
 * its setpoints. */
#include "plain_setup.h"
#include "plain_text.h"

/* ---------------------------------------------------------------- input */

struct numbers {
    int32_t number[TEXT_LONGEST / 2]; /* each takes a digit and, but for the last, a blank */
    size_t count;
};

/* Reads all numbers; false at the first bad token, with the count of numbers before it. */
static bool read_numbers(const unsigned char *in, size_t n, struct numbers *all)
{
    all->count = 0;
    for (size_t at = 0, start; next_word(in, n, &at, &start);) {
        int32_t number;
        if (!plain_number(in + start, at - start, &number))
            return false;
        assert(all->count < TEXT_LONGEST / 2);
        all->number[all->count++] = number;
    }
    return true;
}

/* A number on its way to a field that takes none below 0. A negative number becomes one above
 * the limits of every field, so that it gets the refusal of its own field. */
static uint32_t to_field(int32_t number)
{
    return number < 0 ? UINT32_MAX : (uint32_t)number;
}

/* ---------------------------------------------------------------- the text's setup and days */

/* The setup's numbers, in the order of the text. */
static void take_setup(struct grid *g, const int32_t *number)
{
    g->site = (struct recharge_site){.width = to_field(number[0]), .height = to_field(number[1]),
                                     .first_growing = to_field(number[2]),
                                     .last_growing = to_field(number[3]),
                                     .first_setpoint = TEXT_FIRST_SETPOINT,
                                     .second_setpoint = TEXT_SECOND_SETPOINT};
    number += 5; /* the count of covers is known already */
    for (size_t i = 0; i < g->covers_len; i++)
        g->covers[i] = to_field(*number++);
    for (size_t cell = 0; cell < g->cells; cell++) {
        int32_t direction = *number++;
        g->cover[cell] = to_field(*number++);
        g->group[cell] = to_field(*number++);
        g->water[cell] = to_field(*number++);
        /* A negative direction is refusal 4 at its cell. The library takes any number as a
         * direction, so the cell is handed over with a group that test 4 refuses there. */
        g->direction[cell] = to_field(direction);
        if (direction < 0)
            g->group[cell] = 0;
    }
}

/* The days: serial, day of year, gross precipitation, minimum, mean and maximum temperature,
 * potential evapotranspiration. */
static void take_days(struct grid *g, const int32_t *number)
{
    for (size_t i = 0; i < g->days; i++, number += TEXT_DAY)
        g->day[i] = (struct recharge_day_record){to_field(number[0]), to_field(number[1]),
                                                 to_field(number[2]), number[3], number[4],
                                                 number[5], to_field(number[6])};
}

uint64_t plain_take_up(const unsigned char *in, size_t n, struct grid *g)
{
    static struct numbers all;

    /* Length is tested first, then character form. */
    if (n > TEXT_LONGEST)
        return refusal(11, 0);
    if (!read_numbers(in, n, &all))
        return refusal(11, all.count);

    /* Then 1; a missing width or height is 11 in its place. */
    if (all.count < 2)
        return refusal(11, all.count);
    int64_t width = all.number[0], height = all.number[1];
    if (width < 1 || height < 1 || width * height > BALANCE_MAX_CELLS)
        return refusal(1, 0);

    /* Then the cover count (3); a missing one is 11 in its place. */
    if (all.count < 5)
        return refusal(11, all.count);
    if (all.number[4] < 1 || all.number[4] > BALANCE_MAX_COVERS)
        return refusal(3, 0);

    /* Then missing numbers (11), also of the last day. */
    g->cells = (size_t)(width * height);
    g->covers_len = (size_t)all.number[4] * BALANCE_ENTRY;
    size_t setup_count = 5 + g->covers_len + 4 * g->cells;
    if (all.count < setup_count || (all.count - setup_count) % TEXT_DAY != 0)
        return refusal(11, all.count);

    take_setup(g, all.number);
    g->days = (all.count - setup_count) / TEXT_DAY;
    take_days(g, all.number + setup_count);
    return 0;
}

/* ---------------------------------------------------------------- the program */

#define STATE(g) GRID_STORES(g), (g)->memory, &(g)->last_serial, &(g)->frost_index

uint64_t plain_start(struct grid *g)
{
    return plain_fresh(GRID_SETUP(g), STATE(g));
}

uint64_t plain_run_day(struct grid *g, size_t day)
{
    return plain_day(GRID_SETUP(g), STATE(g), g->intercepted, g->cells, g->outflow, g->cells,
                     g->evapotranspired, g->cells, g->recharged, g->cells, g->rejected, g->cells,
                     g->totals, g->day[day]);
}

size_t plain_text(const unsigned char *in, size_t n, unsigned char *out, size_t room)
{
    static struct grid g;
    struct output o = {out, room, 0};

    uint64_t no = plain_take_up(in, n, &g);
    if (no == 0)
        no = plain_start(&g);
    if (no != 0)
        return put_refused(&o, no);
    for (size_t day = 0; day < g.days; day++) {
        no = plain_run_day(&g, day);
        if (no != 0)
            return put_refused(&o, no);
        put_number(&o, g.day[day].serial);
        for (int i = 0; i < BALANCE_TOTALS; i++) {
            put_byte(&o, ' ');
            put_number(&o, g.totals[i]);
        }
        put_byte(&o, '\n');
    }
    return put_end(&o, g.days);
}
