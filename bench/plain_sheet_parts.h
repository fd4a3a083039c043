/* What the files of sheet.txt share: what is gathered of the input (plain_sheet_look.c), the warnings (plain_sheet_warnings.c), the
 * look at the input (plain_sheet_input.c) and the sheet (plain_sheet_text.c); and figures set in columns. */
#ifndef PLAIN_SHEET_PARTS_H
#define PLAIN_SHEET_PARTS_H

#include "plain_sheet.h"

enum { MONTHS = 12, DIRECTIONS = 8, EDGES = 4, WARNINGS = 13, COVER_CODES = 256 };
enum { TOP, BOTTOM, LEFT, RIGHT };
enum { JANUARY, APRIL = 3, JUNE = 5, JULY, AUGUST, OCTOBER = 9, DECEMBER = 11 };

/* Only so many days are called a year, and a month's mean is only looked at where it has so many. */
enum { YEAR_LEAST_DAYS = 300, MONTH_LEAST_DAYS = 20 };

static const uint32_t direction_codes[DIRECTIONS] = {1, 2, 4, 8, 16, 32, 64, 128};
static const char *const month_names[MONTHS] = {"January", "February", "March",     "April",   "May",      "June",
                                                "July",    "August",   "September", "October", "November", "December"};

/* The warnings by their numbers, less 1. */
enum { W_PRECIPITATION, W_WETTEST, W_POTENTIAL, W_SUMMER, W_WINTER, W_COURSE, W_SNOW, W_SUMMER_SNOW, W_THAW, W_FOLLOWS, W_COUNTED, W_LOW_CODES,
       W_DEPRESSIONS };

/* A month of all years: temperatures in tenths of a degree Fahrenheit, depths in units. */
struct month {
    int64_t days, mean_sum, lowest, highest;
    uint64_t gross, potential, snow_days;
};

struct look {
    bool open[COVER_CODES]; /* is the cover with this code open water? */
    uint64_t land, open_water;
    /* of the days; depths on one cell */
    uint64_t gross, potential, wettest, wet_days, snow_days, summer_snow_days, thaw_days, breaks;
    int32_t first_break; /* its serial */
    struct month month[MONTHS];
    int summer, winter;                     /* the warmest of June to August, the coldest of December to February; MONTHS for none */
    uint64_t out_of_course;                 /* months that are not as the third before them foretells */
    int first_out;                          /* the third before the first of them */
    /* of the cells of land */
    uint64_t by_direction[DIRECTIONS], depressions, counted; /* counted: 3, 5, 6 and 7 */
    uint32_t highest_direction;
    uint64_t over_edge[EDGES];
    bool warned[WARNINGS];
};

void plain_look(const struct sheet *s, struct look *look); /* all but `warned` */
void plain_judge(const struct sheet *s, struct look *look); /* `warned` */
void plain_put_warnings(const struct sheet *s, const struct look *look, struct output *o);
void plain_put_input(const struct sheet *s, const struct look *look, struct output *o);

/* ---------------------------------------------------------------- figures */

enum { LONGEST_FIGURE = 32 };

/* a / b to the nearest whole number, halves up. */
static inline uint64_t nearest(uint64_t a, uint64_t b)
{
    return a / b + (a % b >= b - a % b ? 1 : 0);
}

/* A number with its last digits behind a point. */
static inline void put_decimal(struct output *o, uint64_t number, int decimals)
{
    uint64_t one = 1;

    for (int i = 0; i < decimals; i++)
        one *= 10;
    put_number(o, number / one);
    if (decimals > 0)
        put_byte(o, '.');
    for (uint64_t rest = number % one; one > 1; rest %= one) {
        one /= 10;
        put_byte(o, (char)('0' + rest / one));
    }
}

static inline void put_signed(struct output *o, int64_t number, int decimals)
{
    if (number < 0)
        put_byte(o, '-');
    put_decimal(o, (uint64_t)(number < 0 ? -number : number), decimals);
}

static inline void put_blanks(struct output *o, size_t from, size_t width)
{
    while (o->used < from + width)
        put_byte(o, ' ');
}

/* Words at the left of a column. */
static inline void put_left(struct output *o, size_t width, const char *words)
{
    size_t from = o->used;

    put_word(o, words);
    put_blanks(o, from, width);
}

/* Bytes at the right of a column; longer ones push the rest of the line on. */
static inline void put_at_right(struct output *o, size_t width, const struct output *bytes)
{
    if (bytes->used < width)
        put_blanks(o, o->used, width - bytes->used);
    for (size_t i = 0; i < bytes->used; i++)
        put_byte(o, (char)bytes->bytes[i]);
}

static inline void put_figure(struct output *o, size_t width, int64_t number, int decimals)
{
    unsigned char room[LONGEST_FIGURE];
    struct output figure = {room, sizeof room, 0};

    put_signed(&figure, number, decimals);
    put_at_right(o, width, &figure);
}

static inline void put_missing(struct output *o, size_t width)
{
    unsigned char dash[] = {'-'};

    put_at_right(o, width, &(struct output){dash, 1, 1});
}

static inline void put_count(struct output *o, size_t width, uint64_t number)
{
    put_figure(o, width, (int64_t)number, 0);
}

/* Words around a count. */
static inline void put_count_in(struct output *o, const char *before, uint64_t count, const char *after)
{
    put_word(o, before);
    put_number(o, count);
    put_word(o, after);
}

/* ---------------------------------------------------------------- what is read of the gathered */

/* Hundredths of an inch: of a year, or of all days where they are fewer. */
static inline uint64_t inches_a_year(const struct sheet *s, uint64_t units)
{
    return s->days < YEAR_LEAST_DAYS ? nearest(units, 100) : nearest(units * 365, 100 * s->days);
}

/* Halves go up, also below zero: the quotient is taken of what is above a number below any mean. */
static inline int64_t mean_of(const struct month *month)
{
    const int64_t below = 1000000;

    return (int64_t)nearest((uint64_t)(month->mean_sum + below * month->days), (uint64_t)month->days) - below;
}

/* Which of the eight a direction is; DIRECTIONS for any other number. */
static inline int direction_index(uint32_t direction)
{
    int k = 0;

    while (k < DIRECTIONS && direction_codes[k] != direction)
        k++;
    return k;
}

static inline bool is_land(const struct sheet *s, const struct look *look, size_t cell)
{
    return !look->open[s->cover[cell] % COVER_CODES];
}

#endif
