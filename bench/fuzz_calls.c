/* The calls, by all implementations, and what they may write. */
#include "fuzz.h"

#include <inttypes.h>
#include <string.h>

const char *const slice_names[CASE_SLICES] = {
    "soil", "snow", "intercepted", "outflow", "evapotranspired", "recharged", "rejected"};

struct world worlds[MOST_IMPLEMENTATIONS], before;

uint32_t reach_of(const struct grid_case *g)
{
    return g->cells + 8;
}

/* The world before a call: the state, and numbers in the results that no day would give. */
static void set_before(const struct grid_case *g, const struct state_case *s)
{
    uint32_t reach = reach_of(g);

    for (int k = 0; k < CASE_SLICES; k++)
        for (uint32_t i = 0; i < reach; i++)
            before.slice[k][i] = 0xdead0000u + (uint32_t)k * 4096 + i;
    memcpy(before.slice[SOIL], s->soil, g->cells * sizeof s->soil[0]);
    memcpy(before.slice[SNOW], s->snow, g->cells * sizeof s->snow[0]);
    memcpy(before.memory, s->memory, sizeof s->memory);
    before.memory[BALANCE_MEMORY] = 0xfeed0001;
    before.last_serial[0] = s->last_serial;
    before.last_serial[1] = 0xfeed0002;
    before.frost_index[0] = s->frost_index;
    before.frost_index[1] = 0xfeed0004;
    for (int i = 0; i < BALANCE_TOTALS + GUARD; i++)
        before.totals[i] = 0xfeedfeedfeed0003;
}

void copy_world(struct world *to, const struct world *from, uint32_t reach)
{
    for (int k = 0; k < CASE_SLICES; k++)
        memcpy(to->slice[k], from->slice[k], reach * sizeof(uint32_t));
    memcpy(to->memory, from->memory, sizeof to->memory);
    memcpy(to->last_serial, from->last_serial, sizeof to->last_serial);
    memcpy(to->frost_index, from->frost_index, sizeof to->frost_index);
    memcpy(to->totals, from->totals, sizeof to->totals);
}

/* Fails unless the two are the same. */
static void same_world(const char *call, const char *who, const struct world *found,
                       const char *what, const struct world *wanted, uint32_t reach)
{
    for (int k = 0; k < CASE_SLICES; k++)
        if (memcmp(found->slice[k], wanted->slice[k], reach * sizeof(uint32_t)) != 0)
            for (uint32_t i = 0; i < reach; i++)
                if (found->slice[k][i] != wanted->slice[k][i])
                    fail("%s: %s of cell %" PRIu32 ": %s has %" PRIu32 ", %s %" PRIu32, call,
                         slice_names[k], i, who, found->slice[k][i], what, wanted->slice[k][i]);
    for (int i = 0; i < BALANCE_MEMORY + GUARD; i++)
        if (found->memory[i] != wanted->memory[i])
            fail("%s: memory %d: %s has %" PRIu32 ", %s %" PRIu32, call, i, who,
                 found->memory[i], what, wanted->memory[i]);
    for (int i = 0; i < 1 + GUARD; i++) {
        if (found->last_serial[i] != wanted->last_serial[i])
            fail("%s: last serial: %s has %" PRIu32 ", %s %" PRIu32, call, who,
                 found->last_serial[i], what, wanted->last_serial[i]);
        if (found->frost_index[i] != wanted->frost_index[i])
            fail("%s: frost index: %s has %" PRIu32 ", %s %" PRIu32, call, who,
                 found->frost_index[i], what, wanted->frost_index[i]);
    }
    for (int i = 0; i < BALANCE_TOTALS + GUARD; i++)
        if (found->totals[i] != wanted->totals[i])
            fail("%s: total %d: %s has %" PRIu64 ", %s %" PRIu64, call, i, who, found->totals[i],
                 what, wanted->totals[i]);
}

/* The returned numbers of all, and the foretold one. */
static void same_returned(const char *call, const uint64_t *returned, uint64_t foretold)
{
    for (size_t x = 1; x < implementations_count; x++)
        if (returned[x] != returned[0])
            fail("%s: %s returns %" PRIu64 " at %" PRIu64 ", %s %" PRIu64 " at %" PRIu64, call,
                 implementations[x].name, returned[x] >> 32, returned[x] & UINT32_MAX,
                 implementations[0].name, returned[0] >> 32, returned[0] & UINT32_MAX);
    if (foretold == UNSURE)
        return;
    tally.foretold++;
    if (returned[0] != foretold)
        fail("%s: all return %" PRIu64 " at %" PRIu64 ", but it should be %" PRIu64
             " at %" PRIu64, call, returned[0] >> 32, returned[0] & UINT32_MAX, foretold >> 32,
             foretold & UINT32_MAX);
}

/* ---------------------------------------------------------------- the calls, by all */

#define SETUP_OF(g)                                                                             \
    site_of(g), (g)->covers, (g)->covers_len, (g)->direction, (g)->direction_len, (g)->cover,   \
        (g)->cover_len, (g)->group, (g)->group_len, (g)->water, (g)->water_len
#define STATE_OF(w, s)                                                                          \
    (w)->slice[SOIL], (s)->len[SOIL], (w)->slice[SNOW], (s)->len[SNOW], (w)->memory,            \
        (w)->last_serial, (w)->frost_index
#define RESULTS_OF(w, s)                                                                      \
    (w)->slice[INTERCEPTED], (s)->len[INTERCEPTED], (w)->slice[OUTFLOW], (s)->len[OUTFLOW],   \
        (w)->slice[EVAPOTRANSPIRED], (s)->len[EVAPOTRANSPIRED], (w)->slice[RECHARGED],        \
        (s)->len[RECHARGED], (w)->slice[REJECTED], (s)->len[REJECTED], (w)->totals

struct recharge_site site_of(const struct grid_case *g)
{
    return (struct recharge_site){.width = g->width, .height = g->height,
                                  .first_growing = g->first, .last_growing = g->last,
                                  .first_setpoint = g->first_setpoint,
                                  .second_setpoint = g->second_setpoint};
}

uint64_t all_check(const struct grid_case *g, uint64_t foretold)
{
    uint64_t returned[MOST_IMPLEMENTATIONS] = {0};

    for (size_t x = 0; x < implementations_count; x++)
        returned[x] = implementations[x].check(SETUP_OF(g));
    same_returned("check", returned, foretold);
    count_refusal(tally.check, returned[0]);
    count_setpoints(g, returned[0]);
    return returned[0];
}

uint64_t all_fresh(const struct grid_case *g, const struct state_case *s, uint64_t foretold)
{
    uint64_t returned[MOST_IMPLEMENTATIONS] = {0};
    uint32_t reach = reach_of(g);

    set_before(g, s);
    for (size_t x = 0; x < implementations_count; x++) {
        copy_world(&worlds[x], &before, reach);
        returned[x] = implementations[x].fresh(SETUP_OF(g), STATE_OF(&worlds[x], s));
    }
    same_returned("fresh", returned, foretold);
    count_refusal(tally.fresh, returned[0]);

    memset(before.memory, 0, BALANCE_MEMORY * sizeof before.memory[0]); /* refused or not */
    before.last_serial[0] = BALANCE_NO_SERIAL;
    before.frost_index[0] = 0;
    if (returned[0] == 0) {
        for (uint32_t i = 0; i < g->cells; i++) {
            before.slice[SOIL][i] = case_capacity(g, i);
            before.slice[SNOW][i] = 0;
        }
    }
    for (size_t x = 0; x < implementations_count; x++)
        same_world("fresh", implementations[x].name, &worlds[x], "the paper", &before, reach);
    return returned[0];
}

uint64_t all_day(const struct grid_case *g, const struct state_case *s, const struct recharge_day_record *d,
                 uint64_t foretold)
{
    uint64_t returned[MOST_IMPLEMENTATIONS] = {0};
    uint32_t reach = reach_of(g);

    set_before(g, s);
    for (size_t x = 0; x < implementations_count; x++) {
        copy_world(&worlds[x], &before, reach);
        returned[x] = implementations[x].day(SETUP_OF(g), STATE_OF(&worlds[x], s),
                                             RESULTS_OF(&worlds[x], s), *d);
    }
    same_returned("day", returned, foretold);
    count_refusal(tally.day, returned[0]);
    count_index(g, s, returned[0]);
    if (returned[0] != 0) { /* all alone, but for zeros in the totals */
        memset(before.totals, 0, BALANCE_TOTALS * sizeof before.totals[0]);
        for (size_t x = 0; x < implementations_count; x++)
            same_world("refused day", implementations[x].name, &worlds[x], "it was lent", &before,
                       reach);
    } else {
        for (size_t x = 1; x < implementations_count; x++)
            same_world("day", implementations[x].name, &worlds[x], implementations[0].name,
                       &worlds[0], reach);
    }
    ask_reasons(g, s, d, returned[0]);
    return returned[0];
}

void same_reason(uint32_t cell, const char *who, const struct explained *found, const char *what,
                 const struct explained *wanted)
{
    if (found->returned == wanted->returned && found->reason == wanted->reason && found->first == wanted->first &&
        found->second == wanted->second)
        return;
    fail("why, of cell %" PRIu32 ": %s has reason %" PRIu64 ", %" PRIu64 " and %" PRIu64 " (refusal %" PRIu64 " at %" PRIu64
         "), %s %" PRIu64 ", %" PRIu64 " and %" PRIu64 " (%" PRIu64 " at %" PRIu64 ")",
         cell, who, found->reason, found->first, found->second, found->returned >> 32, found->returned & UINT32_MAX, what,
         wanted->reason, wanted->first, wanted->second, wanted->returned >> 32, wanted->returned & UINT32_MAX);
}

struct explained all_why(const struct grid_case *g, const struct state_case *s, const struct recharge_day_record *d,
                               uint32_t cell)
{
    struct explained first = {0};

    for (size_t x = 0; x < implementations_count; x++) {
        if (implementations[x].why == NULL)
            continue;
        uint64_t reason[BALANCE_REASON] = {99, 99, 99}; /* to be written, refused or not */
        const struct explained why =
            explained(implementations[x].why(SETUP_OF(g), s->soil, s->len[SOIL], s->snow, s->len[SNOW], s->memory,
                                             s->last_serial, s->frost_index, *d, cell, reason), reason);
        if (x == 0)
            first = why;
        same_reason(cell, implementations[x].name, &why, implementations[0].name, &first);
    }
    return first;
}
