/* The worked figures of docs/RULES.md, by the plain C, as three tables.
 *
 *     rules figures    of single rules
 *     rules worked     the worked day of document 01, cell by cell, with three grounds for cell 1
 *     rules runs       the same day twice, once from a drier start */
#include "balance.h"
#include "plain.h"

#include <stdarg.h>
#include <stdbool.h>
#include <stdio.h>
#include <stdlib.h>
#include <string.h>

static const char *const condition[] = {"I", "II", "III"};

/* A whole number as the sentences have it, with a comma before each three digits. It stands until sixteen more are asked for. */
static const char *number(int64_t n)
{
    static char text[16][32];
    static int turn;
    char *at = text[turn++ % 16] + 31;

    for (int digits = 0; digits == 0 || n > 0; digits++, n /= 10) {
        if (digits > 0 && digits % 3 == 0)
            *--at = ',';
        *--at = (char)('0' + n % 10);
    }
    return at;
}

/* ---------------------------------------------------------------- single rules */

static bool first_case;

/* A row has a rule's figure in some cases, and where those are proved. */
static void begin(const char *rule, const char *figure)
{
    printf("| %s | %s | ", rule, figure);
    first_case = true;
}

static void end(const char *proved)
{
    printf(" | %s |\n", proved);
}

__attribute__((format(printf, 2, 3))) static void given(const char *figure, const char *form, ...)
{
    va_list list;

    if (!first_case)
        printf("; ");
    first_case = false;
    va_start(list, form);
    vprintf(form, list);
    va_end(list);
    printf(": %s", figure);
}

static void capacity(int64_t water, int64_t depth)
{
    given(number(plain_capacity(water, depth)), "water %s, depth %s", number(water), number(depth));
}

static void intercepted(int64_t gross, int64_t figure)
{
    given(number(plain_interception(gross, figure)), "gross %s, cover %s", number(gross), number(figure));
}

static void falls(int64_t minimum, int64_t mean, int64_t maximum)
{
    given(plain_falls_as_snow(minimum, mean, maximum) ? "snow" : "rain", "minimum %s, mean %s, maximum %s", number(minimum),
          number(mean), number(maximum));
}

static void melts(int64_t store, int64_t maximum)
{
    given(number(plain_melt(store, maximum)), "store %s, maximum %s", number(store), number(maximum));
}

static void wetness(bool growing, int64_t sum)
{
    given(condition[plain_antecedent(sum, growing)], "%s, sum %s", growing ? "growing" : "dormant", number(sum));
}

static void curve(int64_t n, enum plain_condition c)
{
    given(number(plain_curve_number(n, c)), "N %s in %s", number(n), condition[c]);
}

static void frost(int64_t index, int64_t mean)
{
    given(number(plain_frost(index, mean)), "index %s, mean %s", number(index), number(mean));
}

static void counts(int64_t index)
{
    given(condition[plain_counts_as(CONDITION_I, index, 56000, 83000)], "index %s", number(index));
}

static void runoff(int64_t c, int64_t w)
{
    given(number(plain_runoff(c, w)), "c %s, w %s", number(c), number(w));
}

static void retention(int64_t k)
{
    given(number(plain_retention(k)), "F(%s)", number(k));
}

static void loss(int64_t c, int64_t soil, int64_t d)
{
    given(number(plain_loss(soil, c, d)), "C %s, soil %s, d %s", number(c), number(soil), number(d));
}

static void ground_and_snow(void)
{
    const int64_t deep = 10000000;

    begin("setup", "capacity");
    capacity(200, 250), capacity(360, 50), capacity(200, 333), capacity(120, 333);
    end("");
    begin("2", "intercepted");
    intercepted(30900, 900), intercepted(500, 900);
    end("");
    begin("3", "snow or rain");
    falls(280, 360, 400), falls(280, 361, 400);
    end("`mean_360`, `mean_361` in `StarredFigures`");
    begin("3", "melt");
    melts(deep, 320), melts(deep, 321), melts(deep, 500), melts(deep, 1500);
    end("`melt_320`, `melt_321`, `melt_500`, `melt_1500` in `StarredFigures`");
    begin("3", "melt");
    melts(9090, 485), melts(3677, 485), melts(deep, 322);
    end("");
}

static void conditions(void)
{
    begin("5", "condition");
    wetness(true, 13999), wetness(true, 14000), wetness(true, 21000), wetness(true, 21001);
    end("`sum_13999`, `sum_14000`, `sum_21000`, `sum_21001` in `StarredFigures`");
    begin("5", "condition");
    wetness(false, 4999), wetness(false, 5000), wetness(false, 11000), wetness(false, 11001);
    end("`dormant_sums` in `EdgeFigures`");
    begin("5", "curve number c");
    curve(75, CONDITION_I), curve(75, CONDITION_III), curve(30, CONDITION_I), curve(30, CONDITION_III);
    curve(100, CONDITION_I), curve(100, CONDITION_III);
    end("`75-dry`, `75-wet`, `30-dry`, `30-wet`, `100-dry`, `100-wet` in `StarredFigures`");
    begin("5", "curve number c");
    curve(90, CONDITION_III), curve(69, CONDITION_III);
    end("");
}

static void frosts(void)
{
    begin("M-106", "next index");
    frost(0, 319), frost(1000, 321), frost(55674, 140), frost(79919, 140), frost(85000, 400);
    end("`tenth_below`, `tenth_above`, `winter`, `thawing` in `FrostFigures`");
    begin("M-106", "next index");
    frost(85568, 320), frost(85567, 320), frost(0, 700);
    end("");
    begin("M-106", "condition I counts as");
    counts(55999), counts(56000), counts(82999), counts(83000);
    end("`below_first`, `at_first`, `below_second`, `at_second` in `FrostFigures`");
}

static void runoff_and_soil(void)
{
    begin("6", "runoff");
    runoff(80, 50000), runoff(57, 30000), runoff(75, 6667), runoff(100, 1234);
    end("`80-of-50000`, `57-of-30000`, `75-of-6667`, `100-of-1234` in `StarredFigures`");
    begin("6", "runoff");
    runoff(88, 30000), runoff(95, 12000), runoff(84, 18493);
    end("");
    begin("8", "retention");
    retention(10), retention(11);
    end("`F_10`, `F_11` in `StarredFigures`");
    begin("8", "retention");
    retention(0), retention(1), retention(2048);
    end("");
    begin("8", "loss");
    loss(50000, 50000, 2000), loss(0, 0, 2000);
    end("`loss_2000` in `StarredFigures`, `loss_none` in `RetentionLaws`");
    begin("8", "loss");
    loss(50000, 25000, 2000), loss(18000, 18000, 2000);
    end("");
}

static void figures(void)
{
    printf("| rule | figure | given: figure | proved |\n|---|---|---|---|\n");
    ground_and_snow();
    conditions();
    frosts();
    runoff_and_soil();
}

/* ---------------------------------------------------------------- the worked day */

enum { FIGURES = 7, OUTFLOW = 1, SOIL = 5 };

static uint32_t cell[FIGURES][2]; /* five results in their order, soil, snow */
static uint64_t totals[BALANCE_TOTALS];

/* Cell 0 drains to cell 1, which has this direction and cover; 9 is open water. */
static void day(uint32_t direction1, uint32_t cover1, uint32_t soil0, uint32_t soil1)
{
    static const uint32_t covers[32] = {3, 0, 75, 75, 75, 75, 6000, 6000, 6000, 6000, 900, 0, 250, 250, 250, 250,
                                        9, 1, 30, 30, 30, 30};
    const uint32_t direction[2] = {1, direction1}, cover[2] = {3, cover1}, group[2] = {2, 2}, water[2] = {200, 200};
    const struct recharge_site site = {2, 1, 120, 270, 56000, 83000};
    const struct recharge_day_record record = {1, 150, 30900, 600, 700, 800, 2000};
    uint32_t memory[BALANCE_MEMORY] = {0}, last = BALANCE_NO_SERIAL, index = 0;

    memset(cell, 0, sizeof cell);
    cell[SOIL][0] = soil0, cell[SOIL][1] = soil1;
    if (plain_day(site, covers, 32, direction, 2, cover, 2, group, 2, water, 2, cell[SOIL], 2, cell[SOIL + 1], 2, memory,
                  &last, &index, cell[0], 2, cell[1], 2, cell[2], 2, cell[3], 2, cell[4], 2, totals, record) != 0)
        exit(1);
}

static void cell_row(const char *name, int i, int64_t inflow)
{
    printf("| %s | %s |", name, number(inflow));
    for (int k = 0; k <= SOIL; k++)
        printf(" %s |", number(cell[k][i]));
    printf("\n");
}

static void sums(const char *name)
{
    printf("| %s |", name);
    for (int k = 0; k < BALANCE_TOTALS; k++)
        printf(" %s |", number((int64_t)totals[k]));
    printf("\n");
}

static void worked(void)
{
    static const struct {
        const char *name, *grid;
        uint32_t direction, cover, soil;
    } ground[] = {{"cell 1, a closed depression", "totals, closed depression", 0, 3, 50000},
                  {"cell 1, over the edge", "totals, over the edge", 1, 3, 50000},
                  {"cell 1, open water", "totals, open water", 1, 9, 0}};

    printf("| | flows in | intercepted | outflow | evapotranspired | recharged | rejected | soil |\n|---|---|---|---|---|---|---|---|\n");
    for (int i = 0; i < 3; i++) {
        day(ground[i].direction, ground[i].cover, 50000, ground[i].soil);
        if (i == 0)
            cell_row("cell 0", 0, 0);
        cell_row(ground[i].name, 1, cell[OUTFLOW][0]);
    }
    printf("\n| | gross | intercepted | evapotranspired | recharged | rejected | gone | stored |\n|---|---|---|---|---|---|---|---|\n");
    for (int i = 0; i < 3; i++) {
        day(ground[i].direction, ground[i].cover, 50000, ground[i].soil);
        sums(ground[i].grid);
    }
}

static void runs(void)
{
    uint64_t first[BALANCE_TOTALS];

    printf("| | gross | intercepted | evapotranspired | recharged | rejected | gone | stored |\n|---|---|---|---|---|---|---|---|\n");
    day(0, 3, 20000, 50000);
    sums("first run, from 70,000");
    memcpy(first, totals, sizeof first);
    day(0, 3, 50000, 50000);
    sums("second run, from 100,000");
    for (int k = 0; k < BALANCE_TOTALS; k++)
        totals[k] -= first[k];
    sums("the second has more");
}

int main(int argc, char **argv)
{
    if (argc == 2 && strcmp(argv[1], "figures") == 0)
        figures();
    else if (argc == 2 && strcmp(argv[1], "worked") == 0)
        worked();
    else if (argc == 2 && strcmp(argv[1], "runs") == 0)
        runs();
    else
        return 2;
    return 0;
}
