/* Compares all implementations of table.c on seeded random cases (cases.h).
 *
 *     fuzz [CASES [TEXTS [SEED]]]       compare; prints how often each refusal was reached
 *     fuzz case SEED | fuzz period SEED | fuzz radiation SEED | fuzz grid SEED | fuzz text SEED |
 *     fuzz winter SEED                  the one case that a failure named
 *     fuzz vectors DIR COUNT SEED       writes COUNT texts and the first text function's outputs
 *                                       to DIR/NNNNN.in and DIR/NNNNN.out
 *
 * After each call every returned number, store, result cell, total, memory, serial and frost index
 * is compared, as well as the numbers past the ends of the slices; a refused call must have left
 * all alone. Where the damage done foretells the refusal, it must be that one. Accepted days are
 * held against the paper's account, cell by cell and in the totals, and pairs of runs against
 * the office's demand 3. Beside every day it is asked why some of its cells got their figures. Beside
 * the cases readings are drawn, and those that have the estimates from radiation are asked; and Arc
 * grids, which those that have them read and write; and lists of days, for those that take them in
 * one call. The first difference prints its seed and ends the
 * program with 1. */
#include "fuzz.h"

#include <stdio.h>
#include <stdlib.h>
#include <string.h>
#include <time.h>

/* ---------------------------------------------------------------- runs */

/* A run of some days of a valid grid, with a damaged call beside some of them, and with one beside
 * others that puts a cell's reason at an edge; on some a setpoint moves to the frost index that the
 * day will set, or a cell's snow to what it will melt. */
static void run_days(struct grid_case *g, struct state_case *s)
{
    static struct state_case spoilt, aimed;
    struct recharge_day_record day, spoilt_day;

    for (uint64_t days = 1 + below(7); days > 0; days--) {
        make_day(g, s, &day);
        if (chance(40))
            aim_setpoint(g, s, &day);
        if (chance(30))
            aim_melt(g, s, &day);
        if (chance(50)) {
            spoilt = *s;
            spoilt_day = day;
            uint64_t foretold = damage_call(g, &spoilt, &spoilt_day);
            if (chance(10)) { /* a second damage: which comes first is for them to say */
                damage_call(g, &spoilt, &spoilt_day);
                foretold = UNSURE;
            }
            if (all_day(g, &spoilt, &spoilt_day, foretold) == 0)
                check_account(g, &spoilt_day);
        }
        if (all_day(g, s, &day, 0) != 0)
            fail("a valid day is refused");
        check_account(g, &day);
        aimed = *s;
        bool at_edge = aim_edge(g, &aimed, &day);
        take_state(g, s);
        if (at_edge) {
            all_day(g, &aimed, &day, 0);
            check_account(g, &day);
        }
    }
}

static void run_case(uint64_t seed)
{
    static struct grid_case g, spoilt;
    static struct state_case s;
    struct recharge_day_record day;

    set_current("case", seed);
    start_random(seed);
    if (chance(5)) {
        make_dry(&g, &s, &day);
        all_day(&g, &s, &day, 0);
        check_account(&g, &day);
        return;
    }
    make_grid(&g);
    make_setpoints(&g);
    make_state(&g, &s);
    all_check(&g, 0);

    if (chance(60)) { /* a damaged grid: every call must refuse it alike */
        spoilt = g;
        uint64_t foretold = damage_grid(&spoilt);
        if (foretold != 0 && chance(15)) {
            damage_grid(&spoilt);
            foretold = UNSURE;
        }
        if (foretold == 0) { /* nothing broken after all */
            g = spoilt;
            make_state(&g, &s);
        } else {
            make_day(&g, &s, &day);
            if (chance(20)) { /* a bad day or state on top of it comes after 1 to 6 */
                uint64_t by_call = damage_call(&g, &s, &day);
                if (by_call >> 32 == 2)
                    foretold = UNSURE;
            }
            uint64_t by_check = all_check(&spoilt, s.len[0] == g.cells ? foretold : UNSURE);
            all_fresh(&spoilt, &s, foretold);
            if (all_day(&spoilt, &s, &day, foretold) == 0 && by_check != 0)
                fail("a day is accepted of a refused grid");
            return;
        }
    }

    if (chance(10)) { /* refusal 2 of the fresh state */
        static struct state_case lent;
        lent = s;
        all_fresh(&g, &lent, damage_length_of(&lent, g.cells, FRESH_SLICES));
    }
    all_fresh(&g, &s, 0);
    if (chance(30))
        take_state(&g, &s); /* else from the state that was made */
    if (chance(25))
        run_pair(&g, &s, chance(50) ? 100 : (unsigned)below(100));
    else
        run_days(&g, &s);
}

/* ---------------------------------------------------------------- the program */

static double seconds(void)
{
    struct timespec now;

    timespec_get(&now, TIME_UTC);
    return (double)now.tv_sec + (double)now.tv_nsec / 1e9;
}

static uint64_t argument(int argc, char **argv, int i, uint64_t otherwise)
{
    return i < argc ? strtoull(argv[i], NULL, 10) : otherwise;
}

int main(int argc, char **argv)
{
    setvbuf(stdout, NULL, _IOLBF, 0);
    if (implementations_count > MOST_IMPLEMENTATIONS || texts_count > MOST_IMPLEMENTATIONS)
        return 2;
    if (argc == 3 && strcmp(argv[1], "case") == 0) {
        run_case(argument(argc, argv, 2, 0));
        printf("no difference\n");
    } else if (argc == 3 && strcmp(argv[1], "period") == 0) {
        run_period(argument(argc, argv, 2, 0));
        printf("no difference\n");
    } else if (argc == 3 && strcmp(argv[1], "radiation") == 0) {
        run_radiation(argument(argc, argv, 2, 0));
        printf("no difference\n");
    } else if (argc == 3 && strcmp(argv[1], "grid") == 0) {
        run_grids(argument(argc, argv, 2, 0));
        printf("no difference\n");
    } else if (argc == 3 && strcmp(argv[1], "text") == 0) {
        run_text(argument(argc, argv, 2, 0));
        show_text();
    } else if (argc == 3 && strcmp(argv[1], "winter") == 0) {
        run_winter(argument(argc, argv, 2, 0));
        show_text();
    } else if (argc == 5 && strcmp(argv[1], "vectors") == 0) {
        write_vectors(argv[2], argument(argc, argv, 3, 0), argument(argc, argv, 4, 0));
    } else {
        uint64_t cases = argument(argc, argv, 1, 20000), text_cases = argument(argc, argv, 2, 20000);
        uint64_t seed = argument(argc, argv, 3, 1);
        double start = seconds();
        for (uint64_t i = 0; i < cases; i++)
            run_case(seed + i);
        for (uint64_t i = 0; i < cases; i++)
            run_period(seed + i);
        for (uint64_t i = 0; i < cases; i++)
            run_radiation(seed + i);
        for (uint64_t i = 0; i < cases; i++)
            run_grids(seed + i);
        double middle = seconds();
        for (uint64_t i = 0; i < text_cases; i++)
            run_text(seed + i);
        for (uint64_t i = 0; i < text_cases / 10; i++)
            run_winter(seed + i);
        report(cases, text_cases, seed, middle - start, seconds() - middle);
        reached_often("check", tally.check, 6, cases);
        reached_often("fresh", tally.fresh, 6, cases);
        reached_often("day", tally.day, 10, cases);
        reached_often("why", tally.why, 10, cases);
        reached_often("text", tally.text, 11, text_cases);
        period_often(cases);
        rejected_often(cases);
        melt_often(cases);
        frost_often(cases);
        reasons_often(cases);
        radiation_often(cases);
        grids_often(cases);
        enough("a pair of runs had a day in frost", tally.frosty_pair_days, cases);
        enough("a text's frost index was near a setpoint", tally.winter_hits, text_cases);
    }
    return 0;
}
