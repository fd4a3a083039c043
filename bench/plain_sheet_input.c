/* The look at the input at the end of sheet.txt: the input's own figures, each beside what the sources know and with the mark of its warning, so that a person
 * sees mistakes that document 01 allows. */
#include "plain_sheet_parts.h"

static const char *const direction_names[DIRECTIONS] = {"right", "lower right", "down", "lower left", "left", "upper left", "up", "upper right"};

static void put_mark(const struct look *look, int which, struct output *o)
{
    if (look->warned[which]) {
        put_word(o, "  <- W");
        put_number(o, (uint64_t)which + 1);
    }
}

/* A line up to its figure, and the words and marks behind it. */
static void put_name(struct output *o, const char *name)
{
    put_word(o, "  ");
    put_left(o, 44, name);
}

static void put_behind(struct output *o, const struct look *look, const char *words, int which)
{
    put_word(o, words);
    put_mark(look, which, o);
    put_word(o, "\n");
}

static void put_month_line(struct output *o, const struct look *look, const char *name, int month, const char *words, int which)
{
    put_name(o, name);
    if (month == MONTHS)
        put_missing(o, 10);
    else
        put_figure(o, 10, mean_of(&look->month[month]), 1);
    put_behind(o, look, words, which);
}

static void put_count_line(struct output *o, const struct look *look, const char *name, uint64_t count, const char *words, int which)
{
    put_name(o, name);
    put_count(o, 10, count);
    put_behind(o, look, words, which);
}

static void put_inches_line(struct output *o, const struct look *look, const char *name, uint64_t depth, int decimals, const char *words, int which)
{
    put_name(o, name);
    put_figure(o, 10, (int64_t)depth, decimals);
    put_behind(o, look, words, which);
}

static void put_weather(const struct sheet *s, const struct look *look, struct output *o)
{
    bool year = s->days >= YEAR_LEAST_DAYS;

    put_word(o, "Weather (weather.txt)\n");
    put_inches_line(o, look, year ? "precipitation a year" : "precipitation of all days", inches_a_year(s, look->gross), 2,
                    " inches; the sources: 21.08 to 43.34 a year", W_PRECIPITATION);
    put_inches_line(o, look, year ? "potential evapotranspiration a year" : "potential evapotranspiration of all days",
                    inches_a_year(s, look->potential), 2, " inches; the sources: 23.00 to 28.44 a year", W_POTENTIAL);
    put_inches_line(o, look, "wettest day", look->wettest, 4, " inches", W_WETTEST);
    put_month_line(o, look, "warmest of June, July and August", look->summer, " F; expected: 50.0 to 95.0", W_SUMMER);
    put_month_line(o, look, "coldest of December, January and February", look->winter, " F; expected: -30.0 to 55.0", W_WINTER);
    put_count_line(o, look, "months against the course of the year", look->out_of_course, "; expected: none, each beside the third before", W_COURSE);
    put_count_line(o, look, "days with a maximum above 32.0 F", look->thaw_days, "", W_THAW);
    put_count_line(o, look, "days whose day of year does not follow", look->breaks, "; expected: none", W_FOLLOWS);
    put_name(o, "days with precipitation");
    put_count(o, 10, look->wet_days);
    put_word(o, "\n");
    put_count_line(o, look, "of these, days of snow", look->snow_days, "", W_SNOW);
    put_count_line(o, look, "of these, in July and August", look->summer_snow_days, "; expected: none", W_SUMMER_SNOW);
}

/* Of a month: its days, the range of its days' means and the mean of them, and what fell and was asked for on its days, of all years together. */
static void put_month(struct output *o, const char *name, const struct month *month)
{
    put_word(o, "  ");
    put_left(o, 10, name);
    put_figure(o, 6, month->days, 0);
    put_figure(o, 12, month->lowest, 1);
    put_figure(o, 10, mean_of(month), 1);
    put_figure(o, 10, month->highest, 1);
    put_figure(o, 15, (int64_t)nearest(month->gross, 100), 2);
    put_figure(o, 12, (int64_t)nearest(month->potential, 100), 2);
    put_count(o, 12, month->snow_days);
    put_word(o, "\n");
}

static void put_months(const struct sheet *s, const struct look *look, struct output *o)
{
    if (s->days == 0)
        return;
    put_word(o, "\n                                  daily means in F  precipitation   potential     days of\n"
                "  month       days      lowest      mean   highest         inches      inches        snow\n");
    for (int i = 0; i < MONTHS; i++)
        if (look->month[i].days > 0)
            put_month(o, month_names[i], &look->month[i]);
}

static uint64_t count_on(const struct sheet *s, const struct look *look, bool land_only, const uint32_t *numbers, uint32_t number)
{
    uint64_t count = 0;

    for (size_t cell = 0; cell < s->cells; cell++)
        count += numbers[cell] == number && (!land_only || is_land(s, look, cell));
    return count;
}

static void put_direction(const struct look *look, int k, struct output *o)
{
    put_count(o, 6, direction_codes[k]);
    put_word(o, " ");
    put_left(o, 12, direction_names[k]);
    put_count(o, 6, look->by_direction[k]);
}

/* The lowest number above one that is the direction of a cell of land and none of the eight. */
static bool next_other(const struct sheet *s, const struct look *look, int64_t above, uint32_t *other)
{
    bool found = false;

    for (size_t cell = 0; cell < s->cells; cell++) {
        uint32_t number = s->direction[cell];
        if (number > above && direction_index(number) == DIRECTIONS && is_land(s, look, cell) && (!found || number < *other)) {
            *other = number;
            found = true;
        }
    }
    return found;
}

static void put_others(const struct sheet *s, const struct look *look, struct output *o)
{
    enum { LISTED = 5 };
    int64_t above = -1;
    uint32_t other = 0;
    uint64_t left = look->depressions;

    for (int i = 0; i < LISTED && next_other(s, look, above, &other); i++) {
        uint64_t count = count_on(s, look, true, s->direction, other);
        put_word(o, i == 0 ? "         these are " : ", ");
        put_number(o, other);
        put_count_in(o, " (", count, ")");
        left -= count;
        above = other;
    }
    if (left > 0)
        put_count_in(o, ", and others (", left, ")");
    put_word(o, look->depressions > 0 ? "\n" : "");
}

static void put_directions(const struct sheet *s, const struct look *look, struct output *o)
{
    put_word(o, "\nDirections (direction.asc), cells of land");
    put_mark(look, W_LOW_CODES, o);
    put_word(o, "\n");
    for (int k = 0; k < DIRECTIONS / 2; k++) {
        put_direction(look, k, o);
        put_word(o, "  ");
        put_direction(look, k + DIRECTIONS / 2, o);
        put_word(o, "\n");
    }
    put_count_in(o, "  closed depressions, which have any other number: ", look->depressions, "");
    put_mark(look, W_COUNTED, o);
    put_behind(o, look, "", W_DEPRESSIONS);
    put_others(s, look, o);
    put_count_in(o, "  off the grid: over the top ", look->over_edge[TOP], "");
    put_count_in(o, ", the bottom ", look->over_edge[BOTTOM], "");
    put_count_in(o, ", the left ", look->over_edge[LEFT], "");
    put_count_in(o, ", the right ", look->over_edge[RIGHT], "\n  (over a corner counts as over the top or the bottom)\n");
}

/* The covers of the table that cells have, with their cells, or those that none has; so many on a line. */
static void put_covers(const struct sheet *s, const struct look *look, bool used, struct output *o)
{
    const uint64_t on_a_line = used ? 6 : 12;
    uint64_t put = 0;

    for (size_t entry = 0; entry + BALANCE_ENTRY <= s->covers_len; entry += BALANCE_ENTRY) {
        uint64_t count = count_on(s, look, false, s->cover, s->covers[entry]);
        if ((count > 0) != used)
            continue;
        if (put > 0 && put % on_a_line == 0)
            put_word(o, "\n");
        put_count(o, 7, s->covers[entry]);
        if (used)
            put_word(o, s->covers[entry + 1] == 1 ? "*" : ":");
        if (used)
            put_count(o, 6, count);
        put++;
    }
    put_word(o, put == 0 ? "   none\n" : "\n");
}

void plain_put_input(const struct sheet *s, const struct look *look, struct output *o)
{
    put_word(o, "A LOOK AT THE INPUT\n"
                "Mistakes within the limits are not refused, and give wrong figures. Compare this with what you know.\n\n");
    put_weather(s, look, o);
    put_months(s, look, o);
    put_directions(s, look, o);
    put_word(o, "\nCovers (cover.asc), code and cells; * is open water\n");
    put_covers(s, look, true, o);
    put_word(o, "  covers of the table (covers.txt) that no cell has:\n");
    put_covers(s, look, false, o);
    put_word(o, "\nSoil groups (group.asc), cells of land\n");
    put_count_in(o, "  A ", count_on(s, look, true, s->group, 1), "");
    put_count_in(o, ", B ", count_on(s, look, true, s->group, 2), "");
    put_count_in(o, ", C ", count_on(s, look, true, s->group, 3), "");
    put_count_in(o, ", D ", count_on(s, look, true, s->group, 4), "\n");
}
