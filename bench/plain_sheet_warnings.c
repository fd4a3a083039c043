/* The warnings of sheet.txt. Document 01 allows many mistakes, which then give wrong figures in silence; where a figure of the input is far from what the
 * sources' climates know, that is said. A warning changes nothing and refuses nothing.
 *
 * The thresholds are generous: a real year in the northern or central United States gives no warning. Each says which document, and which figure of it, it is
 * taken from; "document 000" and so on are the office's sources. */
#include "plain_sheet_parts.h"

enum {
    /* W1, precipitation a year, in hundredths of an inch: a quarter of the driest year at Madison, 21.08 inches in 1976, and twice the wettest, 43.34 inches
     * in 1993 (document 000, table 9). Minnesota's years are between them (document 002, table 6.8: 724.9 and 933.2 mm), and so is Florida's mean (document
     * 001: 51 inches). */
    PRECIPITATION_LEAST = 2108 / 4,
    PRECIPITATION_MOST = 2 * 4334,

    /* W2, the wettest of at least so many days, in units: the driest two months at Madison, November and December 1976, have 0.48 inch (document 000,
     * table 9). Spread over as many as nine days, one of them has 0.05 inch. */
    WETTEST_LEAST_DAYS = 60,
    WETTEST_LEAST = 500,

    /* W3, potential evapotranspiration a year, in hundredths of an inch: half of the least in Minnesota, 584.1 mm or 23.00 inches, and two and a half times the
     * most, 722.5 mm or 28.44 inches (document 002, table 6.8). An arid climate's 3.8 mm a day, 54.6 inches a year (document 002, table B.7), is between them. */
    POTENTIAL_LEAST = 2300 / 2,
    POTENTIAL_MOST = 5 * 2844 / 2,

    /* W4, the mean of the warmest of June, July and August, in tenths of a degree: potential evapotranspiration by Thornthwaite and Mather is worked out for
     * months from 32 to 79.7 F (document 000, appendix B), and summer days in Florida pass 32 C, 89.6 F, at their warmest (document 001). No source has a
     * range for the month: 50 F, well below any summer in which things grow, and 95 F, well above the warmest days' means, are ours. */
    SUMMER_LEAST = 500,
    SUMMER_MOST = 950,

    /* W5, the mean of the coldest of December, January and February: eight days of a January have means of 14 to 37 F (document 003, table 3). No source has a
     * range for the month: -30 F, below the coldest, and 55 F, a month without frost, are ours. */
    WINTER_LEAST = -300,
    WINTER_MOST = 550,

    /* W7, days of snow among the days with precipitation, in percent, of a year: between freeze and thaw are December to March, a third of the year (document
     * 002, chapter 1: recharge from April through November). More than twice that share is ours, and so is none at all. */
    SNOW_MOST = 75,

    /* W9, more days than these without a thaw: those of December to March, between freeze and thaw in Minnesota (document 002, chapter 1). */
    FROST_MOST_DAYS = 121,

    /* W12, so many cells of land without a direction above 8. Directions go up to 128 (document 000, figure 3); a small slope to the lower right can have
     * none above 8, so the number of cells is ours. */
    LOW_CODE = 8,
    LOW_CODES_LEAST_CELLS = 100,

    /* W13, closed depressions in percent of the land, where it has so many cells. Document 003 (figure 2) says what they are, and no source how many there are:
     * one cell in ten is ours. */
    DEPRESSIONS_MOST = 10,
    DEPRESSIONS_LEAST_CELLS = 20
};

static bool is_outside(const struct look *look, int month, int64_t least, int64_t most)
{
    return month != MONTHS && (mean_of(&look->month[month]) < least || mean_of(&look->month[month]) > most);
}

static void judge_weather(const struct sheet *s, struct look *look)
{
    bool year = s->days >= YEAR_LEAST_DAYS;
    uint64_t fell = inches_a_year(s, look->gross), potential = inches_a_year(s, look->potential);
    bool *warned = look->warned;

    warned[W_PRECIPITATION] = year && (fell < PRECIPITATION_LEAST || fell > PRECIPITATION_MOST);
    warned[W_WETTEST] = s->days >= WETTEST_LEAST_DAYS && look->wettest < WETTEST_LEAST;
    warned[W_POTENTIAL] = year && (potential < POTENTIAL_LEAST || potential > POTENTIAL_MOST);
    warned[W_SUMMER] = is_outside(look, look->summer, SUMMER_LEAST, SUMMER_MOST);
    warned[W_WINTER] = is_outside(look, look->winter, WINTER_LEAST, WINTER_MOST);
    warned[W_COURSE] = look->out_of_course > 0;
    warned[W_SNOW] = year && look->wet_days > 0 && (look->snow_days == 0 || 100 * look->snow_days > SNOW_MOST * look->wet_days);
    warned[W_SUMMER_SNOW] = look->summer_snow_days > 0;
    warned[W_THAW] = s->days > FROST_MOST_DAYS && look->thaw_days == 0;
    warned[W_FOLLOWS] = look->breaks > 0;
}

static void judge_directions(struct look *look)
{
    look->warned[W_COUNTED] = look->counted > 0;
    look->warned[W_LOW_CODES] = look->land >= LOW_CODES_LEAST_CELLS && look->highest_direction <= LOW_CODE;
    look->warned[W_DEPRESSIONS] = look->land >= DEPRESSIONS_LEAST_CELLS && 100 * look->depressions > DEPRESSIONS_MOST * look->land;
}

void plain_judge(const struct sheet *s, struct look *look)
{
    judge_weather(s, look);
    judge_directions(look);
}

/* ---------------------------------------------------------------- said near the top */

static void put_mean(struct output *o, const struct look *look, int month)
{
    put_signed(o, mean_of(&look->month[month]), 1);
    put_word(o, " F");
}

/* The first pair of months that is out of course. */
static void put_course(const struct look *look, struct output *o)
{
    int first = look->first_out;

    put_word(o, "weather.txt: ");
    put_word(o, month_names[(first + 3) % MONTHS]);
    put_word(o, ", ");
    put_mean(o, look, (first + 3) % MONTHS);
    put_word(o, first <= APRIL ? ", is not warmer than " : ", is not colder than ");
    put_word(o, month_names[first]);
    put_word(o, ", ");
    put_mean(o, look, first);
    put_word(o, ". Day of year and serial swapped?");
}

static void put_inches_in(struct output *o, const char *before, uint64_t depth, int decimals, const char *after)
{
    put_word(o, before);
    put_decimal(o, depth, decimals);
    put_word(o, after);
}

static void put_mean_in(struct output *o, const struct look *look, int month, const char *words)
{
    put_word(o, "weather.txt: ");
    put_mean(o, look, month);
    put_word(o, words);
}

static void put_weather_warning(const struct sheet *s, const struct look *look, int which, struct output *o)
{
    switch (which) {
    case W_PRECIPITATION:
        put_inches_in(o, "weather.txt: precipitation of ", inches_a_year(s, look->gross), 2,
                      " inches a year; the sources have 21.08 to 43.34. Other units?");
        break;
    case W_WETTEST:
        put_inches_in(o, "weather.txt: ", look->wettest, 4, " inches on the wettest");
        put_count_in(o, " of ", s->days, " days; the sources' driest two months have 0.48. Units?");
        break;
    case W_POTENTIAL:
        put_inches_in(o, "weather.txt: potential evapotranspiration of ", inches_a_year(s, look->potential), 2,
                      " inches a year; the sources have 23.00 to 28.44.");
        break;
    case W_SUMMER:
        put_mean_in(o, look, look->summer, " is the warmest summer month's mean; 50.0 to 95.0 is expected. Tenths of F?");
        break;
    case W_WINTER:
        put_mean_in(o, look, look->winter, " is the coldest winter month's mean; -30.0 to 55.0 is expected. Day of year?");
        break;
    default:
        put_course(look, o);
    }
}

static void put_other_warning(const struct sheet *s, const struct look *look, int which, struct output *o)
{
    switch (which) {
    case W_SNOW:
        put_count_in(o, "weather.txt: snow on ", look->snow_days, "");
        put_count_in(o, " of ", look->wet_days, " days with precipitation; some, and at most 75 percent, is expected.");
        break;
    case W_SUMMER_SNOW:
        put_count_in(o, "weather.txt: days of snow in July and August: ", look->summer_snow_days, "; the sources have none then. Tenths of F?");
        break;
    case W_THAW:
        put_count_in(o, "weather.txt: none of ", s->days, " days has a maximum above 32.0 F, so no snow melts. Tenths of F?");
        break;
    case W_FOLLOWS:
        put_count_in(o, "weather.txt: days whose day of year does not follow: ", look->breaks, "");
        put_count_in(o, ", the first at serial ", (uint64_t)look->first_break, ". A day missing?");
        break;
    case W_COUNTED:
        put_count_in(o, "direction.asc: cells of land with 3, 5, 6 or 7: ", look->counted, ", closed depressions here. Codes 1 to 8?");
        break;
    case W_LOW_CODES:
        put_count_in(o, "direction.asc: no number above 8 on ", look->land, " cells of land; they go to 128. Codes of another tool?");
        break;
    default:
        put_count_in(o, "direction.asc: ", look->depressions, "");
        put_count_in(o, " of ", look->land, " cells of land are closed depressions, over 10 percent. Other codes?");
    }
}

void plain_put_warnings(const struct sheet *s, const struct look *look, struct output *o)
{
    uint64_t count = 0;

    for (int which = 0; which < WARNINGS; which++)
        count += look->warned[which];
    put_word(o, "Warnings    ");
    if (count == 0) {
        put_word(o, s->days < YEAR_LEAST_DAYS ? "none, of what fewer than 300 days can show\n\n"
                                              : "none: no figure below is far from what the sources' climates know\n\n");
        return;
    }
    put_number(o, count);
    put_word(o, ", each marked beside its figure below; they change nothing and refuse nothing\n");
    for (int which = 0; which < WARNINGS; which++) {
        if (!look->warned[which])
            continue;
        put_word(o, "  W");
        put_number(o, (uint64_t)which + 1);
        put_word(o, which < 9 ? "   " : "  ");
        if (which <= W_COURSE)
            put_weather_warning(s, look, which, o);
        else
            put_other_warning(s, look, which, o);
        put_word(o, "\n");
    }
    put_word(o, "\n");
}
