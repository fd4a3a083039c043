/* What is gathered of the input for the look at it in sheet.txt: of its days, and of its cells of land. */
#include "plain_sheet_parts.h"

enum {
    /* Rule 3 of document 01: it snows where 3 x mean - (maximum - minimum) is at most this, and snow melts where the maximum is above freezing. */
    SNOW_RULE = 960,
    FREEZING = 320
};

static const int direction_right[DIRECTIONS] = {1, 1, 0, -1, -1, -1, 0, 1};
static const int direction_down[DIRECTIONS] = {0, 1, 1, 1, 0, -1, -1, -1};
static const int32_t month_ends[MONTHS] = {31, 59, 90, 120, 151, 181, 212, 243, 273, 304, 334, 366}; /* day 366 counts as December's */

/* ---------------------------------------------------------------- days */

static int month_of(int32_t day_of_year)
{
    int month = JANUARY;

    while (month < DECEMBER && day_of_year > month_ends[month])
        month++;
    return month;
}

static bool is_snow(const int32_t *day)
{
    return 3 * day[MEAN] - (day[MAXIMUM] - day[MINIMUM]) <= SNOW_RULE;
}

/* One more than the day before's, or the first of a year after the last of one, which has 365 days or 366. */
static bool follows(int32_t day_of_year, int32_t before)
{
    return day_of_year == before + 1 || (day_of_year == 1 && before >= 365);
}

static void add_to_month(struct month *month, const int32_t *day, bool snow)
{
    if (month->days == 0 || day[MEAN] < month->lowest)
        month->lowest = day[MEAN];
    if (month->days == 0 || day[MEAN] > month->highest)
        month->highest = day[MEAN];
    month->days++;
    month->mean_sum += day[MEAN];
    month->gross += (uint64_t)day[GROSS];
    month->potential += (uint64_t)day[POTENTIAL];
    month->snow_days += snow;
}

static void look_at_day(struct look *look, const int32_t *day)
{
    int month = month_of(day[DAY_OF_YEAR]);
    bool wet = day[GROSS] > 0, snow = wet && is_snow(day);

    look->gross += (uint64_t)day[GROSS];
    look->potential += (uint64_t)day[POTENTIAL];
    if ((uint64_t)day[GROSS] > look->wettest)
        look->wettest = (uint64_t)day[GROSS];
    look->wet_days += wet;
    look->snow_days += snow;
    look->summer_snow_days += snow && (month == JULY || month == AUGUST);
    look->thaw_days += day[MAXIMUM] > FREEZING;
    add_to_month(&look->month[month], day, snow);
}

static void look_at_days(const struct sheet *s, struct look *look)
{
    for (size_t i = 0; i < s->days; i++) {
        const int32_t *day = s->day + DAY_NUMBERS * i;
        look_at_day(look, day);
        if (i > 0 && !follows(day[DAY_OF_YEAR], day[DAY_OF_YEAR - DAY_NUMBERS]) && look->breaks++ == 0)
            look->first_break = day[SERIAL];
    }
}

/* ---------------------------------------------------------------- months */

static bool has_mean(const struct month *month)
{
    return month->days >= MONTH_LEAST_DAYS;
}

/* The warmest of June, July and August, or the coldest of December, January and February: the first of them where two are alike; MONTHS where no month
 * has the days for a mean. */
static int extreme_month(const struct look *look, int first, bool warmest)
{
    int found = MONTHS;

    for (int i = 0; i < 3; i++) {
        int month = (first + i) % MONTHS;
        if (!has_mean(&look->month[month]))
            continue;
        if (found == MONTHS || (warmest ? mean_of(&look->month[month]) > mean_of(&look->month[found])
                                        : mean_of(&look->month[month]) < mean_of(&look->month[found])))
            found = month;
    }
    return found;
}

/* W6: in the northern year each month from April to July is warmer than the third month before it, and each from October to January colder, however odd
 * the year. */
static bool is_out_of_course(const struct look *look, int first)
{
    const struct month *before = &look->month[first], *after = &look->month[(first + 3) % MONTHS];
    bool rises = first <= APRIL, falls = first >= JULY && first <= OCTOBER;

    if (!has_mean(before) || !has_mean(after))
        return false;
    return (rises && mean_of(after) <= mean_of(before)) || (falls && mean_of(after) >= mean_of(before));
}

static void look_at_months(struct look *look)
{
    look->summer = extreme_month(look, JUNE, true);
    look->winter = extreme_month(look, DECEMBER, false);
    for (int first = MONTHS - 1; first >= JANUARY; first--)
        if (is_out_of_course(look, first)) {
            look->out_of_course++;
            look->first_out = first;
        }
}

/* ---------------------------------------------------------------- cells */

/* A direction over a corner counts as over the top or the bottom. */
static void look_at_edge(const struct sheet *s, struct look *look, size_t cell, int k)
{
    int64_t row = (int64_t)(cell / s->width) + direction_down[k], column = (int64_t)(cell % s->width) + direction_right[k];

    if (row < 0)
        look->over_edge[TOP]++;
    else if (row >= s->height)
        look->over_edge[BOTTOM]++;
    else if (column < 0)
        look->over_edge[LEFT]++;
    else if (column >= s->width)
        look->over_edge[RIGHT]++;
}

/* Open water points nowhere, whatever its direction, so only the land is looked at. */
static void look_at_cells(const struct sheet *s, struct look *look)
{
    for (size_t cell = 0; cell < s->cells; cell++) {
        uint32_t direction = s->direction[cell];
        int k = direction_index(direction);
        if (!is_land(s, look, cell)) {
            look->open_water++;
            continue;
        }
        look->land++;
        if (direction > look->highest_direction)
            look->highest_direction = direction;
        look->counted += direction == 3 || (direction >= 5 && direction <= 7);
        if (k == DIRECTIONS) {
            look->depressions++;
        } else {
            look->by_direction[k]++;
            look_at_edge(s, look, cell, k);
        }
    }
}

void plain_look(const struct sheet *s, struct look *look)
{
    *look = (struct look){0};
    for (size_t entry = 0; entry + BALANCE_ENTRY <= s->covers_len; entry += BALANCE_ENTRY)
        look->open[s->covers[entry] % COVER_CODES] = s->covers[entry + 1] == 1;
    look_at_days(s, look);
    look_at_months(look);
    look_at_cells(s, look);
}
