/* The office's daily soil-water balance over plain arrays and numbers.
 *
 * Every implementation offers the same three functions under its own prefix
 * (plain_, fast_, ...), so that they can be linked into one program and compared
 * cell by cell; all but the fast one also say why a cell got its figures (M-105),
 * have a day's two estimates of potential evapotranspiration (M-103), read and
 * write Arc grids (M-101) and take a list of days in one call.
 * The law is document 01 as the requests of document 02 that have landed amend it;
 * "rule" and "test" numbers are document 01's.
 *
 * Each function returns 0 when it accepts, else  number * 2^32 + place  of the
 * refusal; why has it in a field. Depths are in units of 0.0001 inch, temperatures in tenths of a degree
 * Fahrenheit, the frost index and its setpoints in thousandths of a Celsius degree-day.
 */
#ifndef BALANCE_H
#define BALANCE_H

#include "../include/recharge.h" /* the structs that are handed over, and the header's own limits */

enum {
    BALANCE_MAX_CELLS = 4096,
    BALANCE_MAX_COVERS = 64,
    BALANCE_ENTRY = 16,  /* numbers in one cover entry */
    BALANCE_MEMORY = 5,  /* gross precipitation of the five previous days, oldest first */
    BALANCE_TOTALS = 7,  /* gross, intercepted, evapotranspired, recharged, rejected in closed depressions, gone, stored */
    BALANCE_REASON = 3,  /* the number of a reason, and its two depths */
    BALANCE_DAY = 7,     /* numbers of a day in a list: serial, day of the year, gross, minimum, mean, maximum, potential */
    BALANCE_SUMS = 5,    /* of each cell over a period: intercepted, outflow, evapotranspired, recharged, rejected */
    BALANCE_GRID_NUMBERS = 5, /* of an Arc grid's header: columns, rows, and the lengths of its three texts */
    BALANCE_MEASURE = 20,     /* characters of a corner or a cell size */
    /* The longest texts. Of both, the six lines of the header: their names with a space behind and a line feed, five
     * digits for columns and rows together, twenty characters thrice, a minus and nine digits. Of each cell a minus and
     * nine digits, or sixteen digits, a point and four, and the blank or line feed behind. */
    BALANCE_GRID_HEADER = (6 + 6 + 10 + 10 + 9 + 13) + 6 + 5 + 3 * BALANCE_MEASURE + 10,
    BALANCE_GRID_TEXT = BALANCE_GRID_HEADER + BALANCE_MAX_CELLS * (1 + 9 + 1),
    BALANCE_INCHES_TEXT = BALANCE_GRID_HEADER + BALANCE_MAX_CELLS * (16 + 1 + 4 + 1)
};

/* The last serial of a state that has seen no day. */
#define BALANCE_NO_SERIAL UINT32_MAX

/* The setup: covers holds 16 numbers an entry (code, open water, four curve numbers, four largest
 * recharges, growing and dormant interception, four root depths); covers_len counts the numbers, not
 * the entries. The other four hold one number a cell. */
#define BALANCE_SETUP_PARAMETERS                     \
    struct recharge_site site,                       \
    const uint32_t *covers, size_t covers_len,       \
    const uint32_t *direction, size_t direction_len, \
    const uint32_t *cover, size_t cover_len,         \
    const uint32_t *group, size_t group_len,         \
    const uint32_t *water, size_t water_len

/* The state: soil and snow hold one number a cell. */
#define BALANCE_STATE_PARAMETERS     \
    uint32_t *soil, size_t soil_len, \
    uint32_t *snow, size_t snow_len, \
    uint32_t memory[BALANCE_MEMORY], uint32_t *last_serial, uint32_t *frost_index

/* The state before a day, to be read only. */
#define BALANCE_BEFORE_PARAMETERS          \
    const uint32_t *soil, size_t soil_len, \
    const uint32_t *snow, size_t snow_len, \
    const uint32_t memory[BALANCE_MEMORY], uint32_t last_serial, uint32_t frost_index

/* What a day gives back for each cell, and its totals. */
#define BALANCE_RESULT_PARAMETERS                       \
    uint32_t *intercepted, size_t intercepted_len,      \
    uint32_t *outflow, size_t outflow_len,              \
    uint32_t *evapotranspired, size_t evapotranspired_len, \
    uint32_t *recharged, size_t recharged_len,          \
    uint32_t *rejected, size_t rejected_len,            \
    uint64_t totals[BALANCE_TOTALS]

/* Tests 1 to 6. */
typedef uint64_t balance_check(BALANCE_SETUP_PARAMETERS);

/* Tests 1 to 6, then the fresh state. Refused: soil and snow are left as they were, memory is five
 * zeros, the last serial none and the frost index 0. */
typedef uint64_t balance_fresh(BALANCE_SETUP_PARAMETERS, BALANCE_STATE_PARAMETERS);

/* Tests 1 to 10, then one day. memory, last_serial and frost_index are read, and written when the
 * day is accepted. Refused: the totals are zeros and nothing else is changed. */
typedef uint64_t balance_day(BALANCE_SETUP_PARAMETERS, BALANCE_STATE_PARAMETERS,
                             BALANCE_RESULT_PARAMETERS, struct recharge_day_record day);

/* Tests 1 to 6, where test 2 is of the lists too, then a list of days from the fresh state, BALANCE_DAY numbers each, up to the first
 * that is refused. Soil, snow, BALANCE_SUMS sums a cell (all cells' of a figure in a row) and BALANCE_TOTALS totals a day are those of
 * the days before it, whose number is accepted. Refused before any day: nothing but accepted, which is 0, is changed. */
typedef uint64_t balance_period(BALANCE_SETUP_PARAMETERS, const int32_t *days, size_t days_len,
                                uint32_t *soil, size_t soil_len, uint32_t *snow, size_t snow_len,
                                uint64_t *sums, size_t sums_len, uint64_t *totals, size_t totals_len,
                                uint64_t *accepted);

/* Tests 1 to 10, with the cell among those of test 4, then why the cell gets its figures on that day:
 * the reason's number and its two depths. Refused: three zeros. */
typedef uint64_t balance_why(BALANCE_SETUP_PARAMETERS, BALANCE_BEFORE_PARAMETERS,
                             struct recharge_day_record day, uint32_t cell, uint64_t reason[BALANCE_REASON]);

/* Its answer in one. */
struct explained {
    uint64_t returned, reason, first, second;
};

static inline struct explained explained(uint64_t returned, const uint64_t reason[BALANCE_REASON])
{
    return (struct explained){returned, reason[0], reason[1], reason[2]};
}

/* Potential evapotranspiration from radiation: 13 at 0, or the estimate of a mean in degrees Celsius, of
 * radiation in cal/cm2 a day and, by Turc, of humidity in percent. Refused: an estimate of 0. */
typedef uint64_t balance_turc(double mean, double radiation, double humidity, uint64_t *potential);
typedef uint64_t balance_jensen_haise(double mean, double radiation, uint64_t *potential);

/* The text of an Arc grid read: 12 at a place, or its cells and its header. Refused: no cell is changed, and the header
 * is all zeros. */
typedef uint64_t balance_grid_read(const uint8_t *text, size_t text_len, int32_t *cells, size_t cells_len,
                                   uint32_t numbers[BALANCE_GRID_NUMBERS], int32_t *no_data,
                                   uint8_t x_corner[BALANCE_MEASURE], uint8_t y_corner[BALANCE_MEASURE],
                                   uint8_t cell_size[BALANCE_MEASURE]);

/* A header, to be read only. */
#define BALANCE_HEADER_PARAMETERS                                                    \
    const uint32_t numbers[BALANCE_GRID_NUMBERS], int32_t no_data,                   \
    const uint8_t x_corner[BALANCE_MEASURE], const uint8_t y_corner[BALANCE_MEASURE], \
    const uint8_t cell_size[BALANCE_MEASURE]

/* The one written form of a grid: 12 at a place, or its text from the buffer's front on and how many bytes it has.
 * Refused: nothing is written, and that is 0. Cells are whole numbers; or units, written as inches with four decimals. */
typedef uint64_t balance_grid_write(BALANCE_HEADER_PARAMETERS, const int32_t *cells, size_t cells_len,
                                    uint8_t *text, size_t text_len, uint64_t *written);
typedef uint64_t balance_grid_inches(BALANCE_HEADER_PARAMETERS, const uint64_t *units, size_t units_len,
                                     uint8_t *text, size_t text_len, uint64_t *written);

balance_check plain_check, fast_check;
balance_fresh plain_fresh, fast_fresh;
balance_day plain_day, fast_day;
balance_period plain_period;
balance_why plain_why;
balance_turc plain_turc;
balance_jensen_haise plain_jensen_haise;
balance_grid_read plain_grid_read;
balance_grid_write plain_grid_write;
balance_grid_inches plain_grid_inches;

#endif
