/* Why each cell got its figures (M-105): the answers beside every day, and how often each reason and
 * each edge was met. */
#include "fuzz.h"

#include <inttypes.h>
#include <stdio.h>
#include <string.h>

/* Of grids up to so many cells each one is asked about; of larger ones the first, the last and some. */
enum { EACH_CELL = 24, SOME_CELLS = 4, REASONS = 8 };

/* Cells of the grid that were asked about, but for the last count on accepted days. Open water is in the first alone. */
static struct {
    uint64_t reason[REASONS];
    uint64_t fills, past_room;      /* whose surplus just filled the room; was a unit more */
    uint64_t largest, past_largest; /* whose excess was just the cover's largest; a unit more */
    uint64_t potential, short_of;   /* whose infiltration was just the potential; a unit less */
    uint64_t no_potential;          /* that no water reached on a day without potential evapotranspiration */
    uint64_t all_intercepted;       /* that no water reached although it rained */
    uint64_t old_snow, new_snow;    /* that no water reached, under snow that had lain there; under snow of that day alone */
    uint64_t inflow;                /* whose water was inflow alone: never under snow, since where snow lies a day of rain or melt melts some */
    uint64_t closed, ran_on;        /* closed depressions with water; others that rejected, which infiltrated all the same */
    uint64_t without_results;       /* of days that were refused for their results' lengths alone, which are not lent here */
} reasons;

/* Cells outside the grid that were asked about: by their number, and by what else the day is refused for. */
enum { COUNT_OF_CELLS, ONE_MORE, MOST_CELLS, MOST_NUMBER, OUTSIDE };
static uint64_t outside[OUTSIDE], beside[REFUSALS];

/* ---------------------------------------------------------------- the answer that an accepted day's figures give */

static uint64_t water_of(const struct recharge_day_record *d, uint32_t i, uint64_t inflow)
{
    const struct world *w = &worlds[0];

    return (uint64_t)before.slice[SNOW][i] + d->gross - w->slice[INTERCEPTED][i] - w->slice[SNOW][i] + inflow;
}

static uint64_t infiltration_of(const struct grid_case *g, const struct recharge_day_record *d, uint32_t i, uint64_t inflow)
{
    const uint32_t runoff = case_next(g, i) == CASE_STAYS ? 0 : worlds[0].slice[OUTFLOW][i] - worlds[0].slice[REJECTED][i];

    return water_of(d, i, inflow) - runoff;
}

static uint32_t largest_of(const struct grid_case *g, uint32_t i)
{
    return case_entry(g, i)[E_RECHARGE + g->group[i] - 1];
}

/* Not as the implementations have it: the excess is what recharged and was rejected, and only what is
 * above the largest is rejected. */
static struct explained by_figures(const struct grid_case *g, const struct recharge_day_record *d, uint32_t i, uint64_t inflow)
{
    const uint64_t water = water_of(d, i, inflow), infiltration = infiltration_of(g, d, i, inflow);
    const uint32_t snow = worlds[0].slice[SNOW][i], rejected = worlds[0].slice[REJECTED][i];
    const uint64_t excess = (uint64_t)worlds[0].slice[RECHARGED][i] + rejected;

    if (case_is_water(g, i))
        return (struct explained){.reason = 1, .first = d->gross, .second = inflow};
    if (water == 0)
        return (struct explained){.reason = snow > 0 ? 2 : 3, .first = 0, .second = snow};
    if (infiltration < d->potential)
        return (struct explained){.reason = 4, .first = infiltration, .second = d->potential};
    if (excess == 0)
        return (struct explained){.reason = 5, .first = infiltration - d->potential,
                                        .second = case_capacity(g, i) - before.slice[SOIL][i]};
    return (struct explained){.reason = rejected > 0 ? 6 : 7, .first = excess, .second = largest_of(g, i)};
}

/* ---------------------------------------------------------------- counts */

static void count_reason(const struct grid_case *g, const struct recharge_day_record *d, uint32_t i, uint64_t inflow,
                         const struct explained *why)
{
    const bool dry = why->reason == 2 || why->reason == 3, excess = why->reason == 6 || why->reason == 7;
    const bool closed = case_next(g, i) == CASE_STAYS;

    reasons.reason[why->reason]++;
    if (why->reason == 1)
        return;
    reasons.fills += why->reason == 5 && why->first == why->second && why->first > 0;
    reasons.past_room += excess && why->first == 1;
    reasons.largest += why->reason == 7 && why->first == why->second;
    reasons.past_largest += why->reason == 6 && why->first == why->second + 1;
    reasons.potential += why->reason == 5 && why->first == 0;
    reasons.short_of += why->reason == 4 && why->first + 1 == why->second;
    reasons.no_potential += dry && d->potential == 0;
    reasons.all_intercepted += dry && d->gross > 0 && !case_snows(d);
    reasons.old_snow += why->reason == 2 && before.slice[SNOW][i] > 0;
    reasons.new_snow += why->reason == 2 && before.slice[SNOW][i] == 0;
    reasons.inflow += inflow > 0 && water_of(d, i, inflow) == inflow;
    reasons.closed += closed && !dry;
    reasons.ran_on += !closed && why->reason == 6;
}

/* ---------------------------------------------------------------- asking */

/* Was the day refused for its results' lengths? They are not lent here, so that its refusal foretells nothing. */
static bool by_results(const struct grid_case *g, const struct state_case *s, uint64_t day)
{
    const size_t lent[] = {g->direction_len, g->cover_len, g->group_len, g->water_len, s->len[SOIL], s->len[SNOW]};

    for (size_t i = 0; i < sizeof lent / sizeof lent[0]; i++)
        if (lent[i] != g->width * g->height)
            return false;
    return day >> 32 == 2;
}

static void ask(const struct grid_case *g, const struct state_case *s, const struct recharge_day_record *d, uint64_t day,
                const uint64_t *inflow, uint32_t cell)
{
    const struct explained why = all_why(g, s, d, cell);
    const uint64_t number = day >> 32, at_cell = (uint64_t)4 << 32 | cell;
    const bool is_outside = cell >= g->cells;
    struct explained wanted = {.returned = day};

    if (is_outside && (number == 0 || number >= 5)) /* found after every cell of the grid, before 5 */
        wanted.returned = at_cell;
    else if (day == 0)
        wanted = by_figures(g, d, cell, inflow[cell]);
    if (by_results(g, s, day))
        reasons.without_results += why.returned == 0;
    else
        same_reason(cell, implementations[0].name, &why, "the day", &wanted);

    beside[number] += is_outside;
    if (is_outside && why.returned == at_cell)
        tally.why[4]++; /* at a place that no other call has */
    else
        count_refusal(tally.why, why.returned);
    if (day == 0 && !is_outside)
        count_reason(g, d, cell, inflow[cell], &why);
}

/* The number of a cell outside the grid. */
static uint32_t outside_cell(const struct grid_case *g)
{
    const uint32_t numbers[OUTSIDE] = {g->cells, g->cells + 1, BALANCE_MAX_CELLS, UINT32_MAX};
    uint64_t which = below(OUTSIDE);

    outside[which]++;
    return numbers[which];
}

void ask_reasons(const struct grid_case *g, const struct state_case *s, const struct recharge_day_record *d, uint64_t day)
{
    static uint64_t inflow[CASE_ROOM];
    static struct grid_case grid;
    static struct state_case state;

    memcpy(&grid, g, sizeof grid); /* with its padding, so that all of it can be compared */
    memcpy(&state, s, sizeof state);
    if (day == 0)
        find_inflow(g, inflow);
    if (g->cells <= EACH_CELL) {
        for (uint32_t i = 0; i < g->cells; i++)
            ask(&grid, &state, d, day, inflow, i);
    } else {
        ask(&grid, &state, d, day, inflow, 0);
        ask(&grid, &state, d, day, inflow, g->cells - 1);
        for (int i = 0; i < SOME_CELLS; i++)
            ask(&grid, &state, d, day, inflow, (uint32_t)below(g->cells));
    }
    if (chance(50))
        ask(&grid, &state, d, day, inflow, outside_cell(g));
    if (memcmp(&grid, g, sizeof grid) != 0 || memcmp(&state, s, sizeof state) != 0)
        fail("why: a number that was lent has changed");
}

/* ---------------------------------------------------------------- edges */

enum { FILLS, LARGEST, POTENTIAL, EDGES };

/* Puts one cell at an edge, or a unit past it. Its infiltration does not depend on its own soil; where
 * nothing flows in, it does not depend on the potential either, which has a say in what is rejected
 * above. */
static bool aim_at(const struct grid_case *g, struct state_case *s, struct recharge_day_record *d, uint32_t cell,
                   uint64_t inflow, uint64_t edge)
{
    const int64_t capacity = case_capacity(g, cell), more = (int64_t)below(2);
    const int64_t infiltration = (int64_t)infiltration_of(g, d, cell, inflow);
    const int64_t surplus = infiltration - d->potential;

    if (edge == POTENTIAL) {
        if (inflow > 0 || infiltration == 0 || infiltration + more > 20000)
            return false;
        d->potential = (uint32_t)(infiltration + more);
        return true;
    }
    const int64_t soil = capacity - surplus + more + (edge == LARGEST ? largest_of(g, cell) : 0);
    if (infiltration == 0 || surplus < 0 || soil < 0 || soil > capacity)
        return false;
    s->soil[cell] = (uint32_t)soil;
    return true;
}

bool aim_edge(const struct grid_case *g, struct state_case *s, struct recharge_day_record *d)
{
    static uint64_t inflow[CASE_ROOM];
    const uint32_t start = (uint32_t)below(g->cells);
    const uint64_t edge = below(EDGES);

    if (g->cells > EACH_CELL)
        return false;
    find_inflow(g, inflow);
    for (uint32_t i = 0; i < g->cells; i++) {
        const uint32_t cell = (start + i) % g->cells;
        if (!case_is_water(g, cell) && aim_at(g, s, d, cell, inflow[cell], edge))
            return true;
    }
    return false;
}

/* ---------------------------------------------------------------- in print */

void report_reasons(void)
{
    printf("reasons that cells of accepted days were given:");
    for (int i = 1; i < REASONS; i++)
        printf("%s %d (%" PRIu64 " times)", i > 1 ? "," : "", i, reasons.reason[i]);
    printf("\ncells whose surplus was just the room: %" PRIu64 ", a unit more: %" PRIu64 "; whose excess was just the largest: %" PRIu64
           ", a unit more: %" PRIu64 "; whose infiltration was just the potential: %" PRIu64 ", a unit less: %" PRIu64 "\n",
           reasons.fills, reasons.past_room, reasons.largest, reasons.past_largest, reasons.potential, reasons.short_of);
    printf("cells that no water reached, with no potential: %" PRIu64 ", all of the rain intercepted: %" PRIu64
           ", under snow that had lain there: %" PRIu64 ", under new snow alone: %" PRIu64 "\n",
           reasons.no_potential, reasons.all_intercepted, reasons.old_snow, reasons.new_snow);
    printf("cells whose water was inflow alone: %" PRIu64 "; closed depressions with water: %" PRIu64
           "; cells whose rejected water ran on: %" PRIu64 "; cells of days refused for their results alone: %" PRIu64 "\n",
           reasons.inflow, reasons.closed, reasons.ran_on, reasons.without_results);
    printf("cells outside the grid, at the count of cells: %" PRIu64 ", one more: %" PRIu64 ", 4,096: %" PRIu64 ", 4,294,967,295: %" PRIu64 "\n",
           outside[COUNT_OF_CELLS], outside[ONE_MORE], outside[MOST_CELLS], outside[MOST_NUMBER]);
    printf("cells outside the grid beside a day's refusal (0: none):");
    for (int i = 0; i <= 10; i++)
        printf("%s %d (%" PRIu64 " times)", i > 0 ? "," : "", i, beside[i]);
    printf("\n");
}

void reasons_often(uint64_t cases)
{
    char what[60];

    for (int i = 1; i < REASONS; i++) {
        snprintf(what, sizeof what, "reason %d was given", i);
        enough(what, reasons.reason[i], cases);
    }
    enough("a surplus was just the room", reasons.fills, cases);
    enough("a surplus was a unit more than the room", reasons.past_room, cases);
    enough("an excess was just the largest", reasons.largest, cases);
    enough("an excess was a unit more than the largest", reasons.past_largest, cases);
    enough("infiltration was just the potential", reasons.potential, cases);
    enough("infiltration was a unit less than the potential", reasons.short_of, cases);
    enough("no water came on a day without potential", reasons.no_potential, cases);
    enough("all rain was intercepted", reasons.all_intercepted, cases);
    enough("no water came under old snow", reasons.old_snow, cases);
    enough("no water came under new snow", reasons.new_snow, cases);
    enough("water was inflow alone", reasons.inflow, cases);
    enough("a closed depression had water", reasons.closed, cases);
    enough("rejected water ran on", reasons.ran_on, cases);
    enough("a reason was given of a day that was refused for its results", reasons.without_results, cases);
    for (int i = 0; i < OUTSIDE; i++)
        enough("a cell outside the grid was asked about", outside[i], cases);
    for (int i = 0; i <= 10; i++) {
        snprintf(what, sizeof what, "a cell outside the grid stood beside refusal %d", i);
        enough(what, beside[i], cases);
    }
}
