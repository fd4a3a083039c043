/* The program `why` of M-105, as plainly as it can be said, over plain_*: why a cell got its figures on
 * each day of a text, or on one. */
#include "plain_text.h"

/* ---------------------------------------------------------------- output */

/* A depth in inches, with four decimals. */
static void put_depth(struct output *o, uint64_t units)
{
    put_number(o, units / 10000);
    put_byte(o, '.');
    for (uint64_t place = 1000; place > 0; place /= 10)
        put_byte(o, (char)('0' + units / place % 10));
}

/* A depth after what it is called. */
static void put_named(struct output *o, const char *name, uint64_t units)
{
    put_word(o, name);
    put_byte(o, ' ');
    put_depth(o, units);
}

/* What each reason, from 1 on, and its two depths are called. */
static const struct {
    const char *reason, *first, *second;
} words[] = {
    {"open water", "gross precipitation", "inflow"},
    {"no water reached the ground and snow lies at the day's end", "water", "snow at the end"},
    {"no water reached the ground", "water", "snow at the end"},
    {"infiltration below potential evapotranspiration", "infiltration", "potential"},
    {"the soil had room for all of it", "surplus over potential", "room"},
    {"excess above the cover's largest", "excess", "largest"},
    {"all the excess recharged", "excess", "largest"},
};

static void put_reason(struct output *o, uint32_t serial, const struct explained *why)
{
    put_word(o, "serial ");
    put_number(o, serial);
    put_word(o, ": ");
    put_word(o, words[why->reason - 1].reason);
    put_word(o, ": ");
    put_named(o, words[why->reason - 1].first, why->first);
    put_word(o, ", ");
    put_named(o, words[why->reason - 1].second, why->second);
    put_word(o, " inches\n");
}

/* The cell's figures of the day, and its stores at the day's end. */
static void put_figures(struct output *o, const struct grid *g, uint32_t cell)
{
    put_named(o, "  intercepted", g->intercepted[cell]);
    put_named(o, ", outflow", g->outflow[cell]);
    put_named(o, ", evapotranspired", g->evapotranspired[cell]);
    put_named(o, ", recharged", g->recharged[cell]);
    put_named(o, ", rejected", g->rejected[cell]);
    put_named(o, "; soil", g->soil[cell]);
    put_named(o, ", snow", g->snow[cell]);
    put_word(o, " inches\n");
}

/* ---------------------------------------------------------------- the program */

size_t plain_why_text(const unsigned char *in, size_t n, uint32_t cell, uint32_t serial,
                      unsigned char *out, size_t room, bool *missed)
{
    static struct grid g;
    struct output o = {out, room, 0};
    size_t told = 0;

    *missed = false;
    uint64_t no = plain_take_up(in, n, &g);
    if (no == 0) /* the fresh state's tests, the cell asked about among them */
        no = plain_check_about(GRID_SETUP(&g), cell);
    if (no == 0)
        no = plain_start(&g);
    if (no != 0)
        return put_refused(&o, no);
    for (size_t day = 0; day < g.days; day++) {
        uint64_t reason[BALANCE_REASON];
        const struct explained why = explained(plain_why(GRID_SETUP(&g), GRID_STORES(&g), g.memory, g.last_serial,
                                                         g.frost_index, g.day[day], cell, reason), reason);
        no = plain_run_day(&g, day);
        assert(no == why.returned);
        if (no != 0)
            return put_refused(&o, no);
        if (serial != TEXT_EVERY_DAY && serial != g.day[day].serial)
            continue;
        put_reason(&o, g.day[day].serial, &why);
        put_figures(&o, &g, cell);
        told++;
        if (serial != TEXT_EVERY_DAY) /* the run ends with the day asked about */
            break;
    }
    *missed = serial != TEXT_EVERY_DAY && told == 0;
    return put_end(&o, told);
}
