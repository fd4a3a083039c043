/* sheet.txt, a year's sheet for a person to read, as plainly as it can be said: the period, the totals, the years, the account and the cells with most and
 * with least recharge. What is gathered of the input, the warnings and the look at the input are in plain_sheet_look.c,
 * plain_sheet_warnings.c and plain_sheet_input.c.
 *
 * All figures are whole numbers of units (0.0001 inch) or of tenths of a degree Fahrenheit until they are printed; nothing is a floating-point number.
 * A figure is rounded once, where it is printed, to the nearest number of its last digit, halves up (towards plus, also below zero):
 *   - inches over the grid or the land, two decimals: the sum over the cells in units, divided by 100 times the cells of the grid or of its land; of
 *     precipitation that is the sum of the days' gross figures, divided by 100;
 *   - a change of what is stored: what is stored at the end and at the start are taken apart in units, the difference is rounded, and its sign put in front, so
 *     that halves go away from zero there;
 *   - percent of precipitation, one decimal: 1,000 times the sum over the cells, divided by the precipitation over all cells;
 *   - a cell's recharge, four decimals, and the account are exact;
 *   - inches a year, two decimals: the sum of the days times 365, divided by 100 times the number of days;
 *   - a month's precipitation and potential evapotranspiration, two decimals: the sum of its days, divided by 100;
 *   - a month's mean, one decimal: the sum of its days' means, divided by its days. Its lowest and highest are exact, and so is the wettest day, four decimals.
 * A figure without a divisor, as inches over the land where there is none, is a `-`. */
#include "plain_sheet_parts.h"

enum {
    LISTED_CELLS = 5,
    MOST_YEARS = 60, /* lines of years: a file whose day of year falls from day to day would make one of each day */
    NAME_WIDTH = 34,
    INCHES_WIDTH = 15,
    SHARE_WIDTH = 17,
    UNITS_PER_HUNDREDTH = 100,
    SHARES = 1000 /* of precipitation: tenths of a percent */
};

/* The totals of some days: sums over the cells in units. */
struct part {
    size_t first, past; /* its days: from the first up to the one past it */
    uint64_t total[BALANCE_TOTALS];
    uint64_t fell; /* on each cell */
};

/* How depths are spread: over all cells, or over the land, whose share of what is gone is less. */
struct area {
    uint64_t cells, less_gone;
};

static struct part part_of(const struct sheet *s, size_t first, size_t past)
{
    struct part part = {.first = first, .past = past};

    for (size_t day = first; day < past; day++) {
        for (int k = 0; k < BALANCE_TOTALS; k++)
            part.total[k] += s->totals[BALANCE_TOTALS * day + (size_t)k];
        part.fell += (uint64_t)s->day[DAY_NUMBERS * day + GROSS];
    }
    part.total[DAY_STORED] = past == 0 ? s->stored_at_start : s->totals[BALANCE_TOTALS * (past - 1) + DAY_STORED];
    return part;
}

static struct area land_of(const struct look *look, const struct part *part)
{
    return (struct area){look->land, part->fell * look->open_water};
}

/* What of a total is the area's. It rained on all cells alike; of what is gone, what fell on open water is not the land's; all else is the land's alone. */
static uint64_t over(struct area area, const struct part *part, int which)
{
    if (which == DAY_GROSS)
        return part->fell * area.cells;
    return which == DAY_GONE ? part->total[which] - area.less_gone : part->total[which];
}

static void put_inches_over(struct output *o, size_t width, uint64_t cells, uint64_t units)
{
    if (cells == 0)
        put_missing(o, width);
    else
        put_figure(o, width, (int64_t)nearest(units, UNITS_PER_HUNDREDTH * cells), 2);
}

static void put_share(struct output *o, size_t width, uint64_t units, uint64_t precipitation)
{
    if (precipitation == 0)
        put_missing(o, width);
    else
        put_figure(o, width, (int64_t)nearest(SHARES * units, precipitation), 1);
}

/* ---------------------------------------------------------------- the head */

static void put_period(const struct sheet *s, struct output *o)
{
    put_word(o, "Period      ");
    if (s->days == 0) {
        put_word(o, "no days\n");
        return;
    }
    put_word(o, "serial ");
    put_number(o, (uint64_t)s->day[SERIAL]);
    put_word(o, " to ");
    put_number(o, (uint64_t)s->day[DAY_NUMBERS * (s->days - 1) + SERIAL]);
    put_word(o, ", ");
    put_number(o, s->days);
    put_word(o, " days, from day of year ");
    put_number(o, (uint64_t)s->day[DAY_OF_YEAR]);
    put_word(o, " to ");
    put_number(o, (uint64_t)s->day[DAY_NUMBERS * (s->days - 1) + DAY_OF_YEAR]);
    put_word(o, "\n");
}

static void put_head(const struct sheet *s, const struct look *look, struct output *o)
{
    put_word(o, "RECHARGE SHEET\n"
                "A daily soil-water balance over a grid. Inches are means over its cells; a unit is 0.0001 inch.\n\n");
    put_period(s, o);
    put_word(o, "Grid        ");
    put_number(o, s->width);
    put_word(o, " columns, ");
    put_number(o, s->height);
    put_word(o, " rows, ");
    put_number(o, s->cells);
    put_word(o, " cells: ");
    put_number(o, look->land);
    put_word(o, " of land, ");
    put_number(o, look->open_water);
    put_word(o, " of open water\n            closed depressions on land: ");
    put_number(o, look->depressions);
    put_word(o, "\nGrowing     from day of year ");
    put_number(o, s->first_growing);
    put_word(o, " to ");
    put_number(o, s->last_growing);
    put_word(o, "\n\n");
}

/* ---------------------------------------------------------------- totals */

static void put_total(struct output *o, const struct look *look, const struct part *all, const char *name, int which, uint64_t cells)
{
    struct area grid = {cells, 0}, land = land_of(look, all);

    put_word(o, "  ");
    put_left(o, NAME_WIDTH, name);
    put_inches_over(o, INCHES_WIDTH, grid.cells, over(grid, all, which));
    put_inches_over(o, INCHES_WIDTH, land.cells, over(land, all, which));
    put_share(o, SHARE_WIDTH, all->total[which], all->total[DAY_GROSS]);
    put_word(o, "\n");
}

static void put_stored_at_start(const struct sheet *s, const struct look *look, const struct part *all, struct output *o)
{
    put_word(o, "  ");
    put_left(o, NAME_WIDTH, "stored at the start");
    put_inches_over(o, INCHES_WIDTH, s->cells, s->stored_at_start);
    put_inches_over(o, INCHES_WIDTH, look->land, s->stored_at_start);
    put_share(o, SHARE_WIDTH, s->stored_at_start, all->total[DAY_GROSS]);
    put_word(o, "\n");
}

/* A figure with a minus in front where what it was made of fell, unless it is rounded to 0. */
static void put_changed(struct output *o, size_t width, uint64_t size, bool fell, uint64_t divisor, int decimals)
{
    if (divisor == 0)
        put_missing(o, width);
    else
        put_figure(o, width, fell ? -(int64_t)nearest(size, divisor) : (int64_t)nearest(size, divisor), decimals);
}

static void put_change(const struct sheet *s, const struct look *look, const struct part *all, struct output *o)
{
    uint64_t start = s->stored_at_start, end = all->total[DAY_STORED];
    bool fell = end < start;
    uint64_t size = fell ? start - end : end - start;

    put_word(o, "  ");
    put_left(o, NAME_WIDTH, "change of what is stored");
    put_changed(o, INCHES_WIDTH, size, fell, UNITS_PER_HUNDREDTH * s->cells, 2);
    put_changed(o, INCHES_WIDTH, size, fell, UNITS_PER_HUNDREDTH * look->land, 2);
    put_changed(o, SHARE_WIDTH, SHARES * size, fell, all->total[DAY_GROSS], 1);
    put_word(o, "\n");
}

static void put_totals(const struct sheet *s, const struct look *look, const struct part *all, struct output *o)
{
    put_word(o, "Totals                                  inches over    inches over       percent of\n"
                "                                           the grid       the land    precipitation\n");
    put_total(o, look, all, "precipitation", DAY_GROSS, s->cells);
    put_total(o, look, all, "intercepted", DAY_INTERCEPTED, s->cells);
    put_total(o, look, all, "evapotranspired", DAY_EVAPOTRANSPIRED, s->cells);
    put_total(o, look, all, "recharged", DAY_RECHARGED, s->cells);
    put_total(o, look, all, "rejected in closed depressions", DAY_REJECTED, s->cells);
    put_total(o, look, all, "gone over the edge, to open water", DAY_GONE, s->cells);
    put_stored_at_start(s, look, all, o);
    put_total(o, look, all, "stored at the end", DAY_STORED, s->cells);
    put_change(s, look, all, o);
    put_word(o, "\n");
}

/* ---------------------------------------------------------------- years */

/* The day past the year that begins with a day: the next year begins where the day of year is not above the day before's. */
static size_t year_past(const struct sheet *s, size_t first)
{
    size_t day = first + 1;

    while (day < s->days && s->day[DAY_NUMBERS * day + DAY_OF_YEAR] > s->day[DAY_NUMBERS * (day - 1) + DAY_OF_YEAR])
        day++;
    return day;
}

static uint64_t years_from(const struct sheet *s, size_t first)
{
    uint64_t years = 0;

    for (size_t day = first; day < s->days; day = year_past(s, day))
        years++;
    return years;
}

/* The three tables of the years. */
enum kind { OVER_GRID, OVER_LAND, IN_PERCENT };

static void put_year(struct output *o, const struct sheet *s, const struct look *look, enum kind kind, const struct part *year)
{
    enum { COLUMN = 10 };
    struct area area = kind == OVER_LAND ? land_of(look, year) : (struct area){s->cells, 0};

    put_count(o, COLUMN, (uint64_t)s->day[DAY_NUMBERS * year->first + SERIAL]);
    put_count(o, 6, year->past - year->first);
    for (int which = DAY_GROSS; which <= DAY_STORED; which++)
        if (kind == IN_PERCENT)
            put_share(o, COLUMN, year->total[which], year->total[DAY_GROSS]);
        else
            put_inches_over(o, COLUMN, area.cells, over(area, year, which));
    put_word(o, "\n");
}

static void put_years(const struct sheet *s, const struct look *look, const char *title, enum kind kind, struct output *o)
{
    size_t first = 0;

    put_word(o, title);
    put_word(o, "    serial  days   precip.   interc.  evapotr. recharged  rejected      gone    stored\n");
    for (int line = 0; line < MOST_YEARS && first < s->days; line++) {
        struct part year = part_of(s, first, year_past(s, first));
        put_year(o, s, look, kind, &year);
        first = year.past;
    }
    if (first < s->days) {
        put_word(o, "  and ");
        put_number(o, years_from(s, first));
        put_word(o, " more years, which are not listed\n");
    }
    put_word(o, "\n");
}

/* ---------------------------------------------------------------- the account */

/* One line, in units: what was stored at the start and what fell is what became of it and what is stored at the end. That it closes is proved of the
 * product; it is added up here all the same. */
static void put_account(const struct sheet *s, const struct part *all, struct output *o)
{
    uint64_t before = s->stored_at_start + all->total[DAY_GROSS], after = 0;

    put_word(o, "The account, in units over all cells: stored at the start + precipitation =\n"
                "intercepted + evapotranspired + recharged + rejected + gone + stored at the end\n  ");
    put_number(o, s->stored_at_start);
    put_word(o, " + ");
    put_number(o, all->total[DAY_GROSS]);
    for (int which = DAY_INTERCEPTED; which <= DAY_STORED; which++) {
        put_word(o, which == DAY_INTERCEPTED ? " = " : " + ");
        put_number(o, all->total[which]);
        after += all->total[which];
    }
    if (before == after) {
        put_word(o, ", to the last unit\n\n");
        return;
    }
    put_word(o, ", WHICH DOES NOT CLOSE: it is ");
    put_number(o, before < after ? after - before : before - after);
    put_word(o, before < after ? " units too many\n\n" : " units short\n\n");
}

/* ---------------------------------------------------------------- cells */

/* Puts a cell where it belongs among the best so far; of equal ones the first stays in front. */
static void rank(const uint64_t *sum, bool most, size_t *best, size_t *count, size_t cell)
{
    size_t place = *count;

    while (place > 0 && (most ? sum[cell] > sum[best[place - 1]] : sum[cell] < sum[best[place - 1]]))
        place--;
    if (place == LISTED_CELLS)
        return;
    if (*count < LISTED_CELLS)
        ++*count;
    for (size_t i = *count - 1; i > place; i--)
        best[i] = best[i - 1];
    best[place] = cell;
}

static void put_cell(const struct sheet *s, size_t cell, struct output *o)
{
    put_count(o, 7, cell / s->width + 1);
    put_count(o, 8, cell % s->width + 1);
    put_figure(o, 13, (int64_t)s->sum[SUM_RECHARGED][cell], 4);
}

static void put_cells(const struct sheet *s, const struct look *look, struct output *o)
{
    size_t most[LISTED_CELLS], least[LISTED_CELLS], count = 0, count_least = 0;

    for (size_t cell = 0; cell < s->cells; cell++)
        if (is_land(s, look, cell)) {
            rank(s->sum[SUM_RECHARGED], true, most, &count, cell);
            rank(s->sum[SUM_RECHARGED], false, least, &count_least, cell);
        }
    put_word(o, "Most recharge on land                       Least recharge on land\n"
                "    row  column       inches                    row  column       inches\n");
    for (size_t i = 0; i < count; i++) {
        put_cell(s, most[i], o);
        put_word(o, "                ");
        put_cell(s, least[i], o);
        put_word(o, "\n");
    }
    put_word(o, count == 0 ? "  there is no land\n\n" : "  rows from the top, columns from the left, both from 1\n\n");
}

void plain_put_sheet(const struct sheet *s, struct output *o)
{
    struct part all = part_of(s, 0, s->days);
    struct look look;

    plain_look(s, &look);
    plain_judge(s, &look);
    put_head(s, &look, o);
    plain_put_warnings(s, &look, o);
    put_totals(s, &look, &all, o);
    if (years_from(s, 0) > 1) {
        put_years(s, &look, "Year by year, inches over the grid; a year begins where the day of year does not rise\n", OVER_GRID, o);
        put_years(s, &look, "Year by year, inches over the land\n", OVER_LAND, o);
        put_years(s, &look, "Year by year, percent of the year's precipitation\n", IN_PERCENT, o);
    }
    put_account(s, &all, o);
    put_cells(s, &look, o);
    plain_put_input(s, &look, o);
}
