/* What the parts of fuzz share: the counts, what a call may write, the calls by all implementations. */
#ifndef FUZZ_H
#define FUZZ_H

#include "cases.h"
#include "table.h"

enum { MOST_IMPLEMENTATIONS = 8, REFUSALS = 14, GUARD = 1 };

/* ---------------------------------------------------------------- what happened: fuzz_counts.c */

struct tally {
    uint64_t check[REFUSALS], fresh[REFUSALS], day[REFUSALS], why[REFUSALS], text[REFUSALS];
    uint64_t turc[REFUSALS], jensen_haise[REFUSALS];
    uint64_t grid_read[REFUSALS], grid_write[REFUSALS], grid_inches[REFUSALS];
    uint64_t cell_days, pairs, pair_days, frosty_pair_days, wetter_figures, more_runs_on, text_days, winters, winter_hits;
    uint32_t most_outflow;
    uint64_t foretold;
};
extern struct tally tally;

/* Names the case that runs now: "case", "period", "radiation", "grid", "text" or "winter", and its seed. */
void set_current(const char *kind, uint64_t seed);

/* Prints the difference with the case's seed and ends the program with 1. */
__attribute__((format(printf, 1, 2), noreturn)) void fail(const char *format, ...);

/* Counts what a call of the library returned, in the tally's counts of that call. */
void count_refusal(uint64_t *counts, uint64_t returned);

/* The counts of a whole run, in print. */
void report(uint64_t cases, uint64_t text_cases, uint64_t seed, double case_time, double text_time);

/* Ends the program with 1 where something was reached too seldom for so many cases. */
void enough(const char *what, uint64_t count, uint64_t cases);

/* The same of each of the refusals 1 to `last` of a call. */
void reached_often(const char *call, const uint64_t *counts, int last, uint64_t cases);

/* ---------------------------------------------------------------- what a call may write, and the calls: fuzz_calls.c */

/* Everything lent to a call for writing, one an implementation. Each array ends in numbers that
 * no call may touch. */
struct world {
    uint32_t slice[CASE_SLICES][CASE_ROOM]; /* soil, snow, and the five results */
    uint32_t memory[BALANCE_MEMORY + GUARD], last_serial[1 + GUARD], frost_index[1 + GUARD];
    uint64_t totals[BALANCE_TOTALS + GUARD];
};

extern const char *const slice_names[CASE_SLICES];
enum { SOIL, SNOW, INTERCEPTED, OUTFLOW, EVAPOTRANSPIRED, RECHARGED, REJECTED };

extern struct world worlds[MOST_IMPLEMENTATIONS], before;

/* How far the slices are looked at: a little past their ends. */
uint32_t reach_of(const struct grid_case *g);

void copy_world(struct world *to, const struct world *from, uint32_t reach);

/* Each calls all implementations, holds them to each other and to the foretold refusal, and returns
 * what they returned. fresh and day leave what came back in worlds[0], and day what was given in
 * `before`. */
uint64_t all_check(const struct grid_case *g, uint64_t foretold);
uint64_t all_fresh(const struct grid_case *g, const struct state_case *s, uint64_t foretold);
uint64_t all_day(const struct grid_case *g, const struct state_case *s, const struct recharge_day_record *d,
                 uint64_t foretold);

/* The site as a call is handed it. */
struct recharge_site site_of(const struct grid_case *g);

/* Asks all that say why a cell gets its figures on that day, and holds them to each other. */
struct explained all_why(const struct grid_case *g, const struct state_case *s, const struct recharge_day_record *d,
                               uint32_t cell);

/* Fails unless two answers on a cell are the same in all four numbers. */
void same_reason(uint32_t cell, const char *who, const struct explained *found, const char *what,
                 const struct explained *wanted);

/* ---------------------------------------------------------------- lists of days: fuzz_period.c */

/* Has all that take a list of days work one through, good or damaged, and holds every number that was lent to the plain C's. */
void run_period(uint64_t seed);

void report_period(void);
void period_often(uint64_t cases);

/* ---------------------------------------------------------------- accepted days: fuzz_account.c */

/* Holds an accepted day, in worlds[0], against the account: of each cell, and of the totals. */
void check_account(const struct grid_case *g, const struct recharge_day_record *d);

/* What flowed into each cell on an accepted day, in worlds[0]. */
void find_inflow(const struct grid_case *g, uint64_t *inflow);

/* Takes the state over that came back in worlds[0]. */
void take_state(const struct grid_case *g, struct state_case *s);

/* ---------------------------------------------------------------- rejected recharge: fuzz_rejected.c */

/* Holds the outflow and the rejected recharge of each cell of an accepted day, in worlds[0], to M-104, and counts where that went. */
void check_rejected(const struct grid_case *g, const struct recharge_day_record *d, const uint64_t *inflow);

void report_rejected(void);
void rejected_often(uint64_t cases);

/* ---------------------------------------------------------------- melt: fuzz_melt.c */

/* Holds the snow of an accepted day, in worlds[0], to rule 3 with M-100's rate, and counts where the rate had a say. */
void check_melt(const struct grid_case *g, const struct recharge_day_record *d);

void report_melt(void);
void melt_often(uint64_t cases);

/* ---------------------------------------------------------------- frozen ground: fuzz_frost.c */

/* Holds the frost index of an accepted day, in worlds[0], to M-106, and counts what the frost did. */
void check_frost(const struct grid_case *g, const struct recharge_day_record *d);

/* Counts the refusals that frost alone explains: 6 by the setpoints, 9 by the index. */
void count_setpoints(const struct grid_case *g, uint64_t returned);
void count_index(const struct grid_case *g, const struct state_case *s, uint64_t returned);

void report_frost(void);
void frost_often(uint64_t cases);

/* ---------------------------------------------------------------- reasons: fuzz_reasons.c */

/* Asks why some cells, each one of a small grid, get their figures on a day of which every
 * implementation has returned `day`, and often of one outside the grid. Holds the answers to the
 * figures of an accepted day, in worlds[0], and to a refused day's refusal, counts them, and sees to
 * it that no lent number has changed. */
void ask_reasons(const struct grid_case *g, const struct state_case *s, const struct recharge_day_record *d, uint64_t day);

/* After an accepted day, in worlds[0]: gives a cell the soil before the day, or the day the potential
 * evapotranspiration, that puts the cell's reason at an edge. False where no cell can be put there. */
bool aim_edge(const struct grid_case *g, struct state_case *s, struct recharge_day_record *d);

void report_reasons(void);
void reasons_often(uint64_t cases);

/* ---------------------------------------------------------------- estimates from radiation: fuzz_radiation.c */

/* Asks all that have M-103's estimates of some readings, and holds them to limits and units that are worked
 * out by bits and integers, to the last bit, and a station's readings to exact numbers as well. */
void run_radiation(uint64_t seed);

void report_radiation(void);
void radiation_often(uint64_t cases);

/* ---------------------------------------------------------------- Arc grids: fuzz_grids.c */

/* Has all that have M-101's calls read and write Arc grids, good ones in many forms and damaged ones, and holds what they return, every
 * cell, byte and field that was lent to what must come of them. */
void run_grids(uint64_t seed);

void report_grids(void);
void grids_often(uint64_t cases);

/* ---------------------------------------------------------------- pairs of runs: fuzz_pairs.c */

/* Demand 3: of two runs of the same setup, days and frost index at the start, the second with at
 * least as much soil and snow in every cell, the second has no figure that is smaller, and the
 * extra at the start is the extra evapotranspired, recharged, rejected, gone and still stored. A
 * setpoint is often where the first day sets the index. */
void run_pair(struct grid_case *g, struct state_case *less, unsigned wetter);

/* ---------------------------------------------------------------- texts: fuzz_text.c */

void run_text(uint64_t seed);
void run_winter(uint64_t seed);
void show_text(void); /* the output of the last one */
void write_vectors(const char *dir, uint64_t count, uint64_t seed);

#endif
