/* recharge.h: a groundwater office's daily soil-water balance, proved, for C.
 *
 * A setup check, a fresh state, one day, all days of a period, why a cell got its figures on a day, a day's potential
 * evapotranspiration from radiation by two estimates, Arc ASCII grids read and written, and the program's whole text. What they do
 * is the law of documents 01 and 02 (of 02: M-106, frozen ground, M-100, melt in millimetres, M-104, rejected recharge runs on
 * downhill, M-105, why this cell got that figure, M-103, potential evapotranspiration from radiation, and M-101, grids as the
 * mapping desk has them; M-102, a smaller program, moves no figure; docs/RULES.md has the rules in plain words); that they do it,
 * for every input, refused or not, is proved (crates/clib, crates/cperiod, docs/PROMISES.md). "Test" and "rule" numbers are
 * document 01's.
 *
 * `bench/native.sh clib libclib.a` proves and builds the library, for x86-64 Linux; link libclib.a. recharge_period alone is in an
 * archive of its own, which `bench/native.sh cperiod libcperiod.a` builds; a program may link either or both. Of the C
 * library they need memcpy and memset, and nothing else. examples/c has three programs over libclib.a.
 *
 * Units: a depth is a whole number of 0.0001 inch, a temperature a whole number of tenths of a degree Fahrenheit, a frost
 * index and its setpoints whole numbers of thousandths of a Celsius degree-day. Only what the two estimates from radiation read is
 * otherwise: doubles, the mean temperature in degrees Celsius.
 * Cells are numbered from 0, row by row from the top left.
 *
 * TWO WAYS TO CALL. With structs: fill a recharge_setup, a recharge_state and recharge_results, and call recharge_check_setup,
 * recharge_fresh_state, recharge_one_day and recharge_why_cell, whose arguments are named by their fields; of Arc grids, with a
 * recharge_grid_header, recharge_read_grid, recharge_write_grid and recharge_write_inches. They are inline and only hand the fields on
 * to the raw calls, recharge_check, recharge_fresh, recharge_day, recharge_why, recharge_grid_read, recharge_grid_write and
 * recharge_grid_inches, which are what is proved: there every slice is a pointer and its own count of numbers. recharge_period,
 * recharge_text and the two estimates have the raw call alone.
 *
 * Pointers: none is NULL, not even for a count of 0, and each points to as many numbers as its count or its declaration says.
 * What a call may write overlaps nothing else that it is handed. That much is the caller's word: nothing can test it. For the two
 * estimates from radiation it is also that the processor rounds doubles to the nearest and takes none that is near 0 for 0, as every
 * C program starts (so no fesetround, and no flush-to-zero, which a program linked with -ffast-math may set). Everything else is
 * tested: there is an answer for every number, every double and every count.
 *
 * Nothing is kept between calls, no memory is taken, and calls on different slices may run at the same time. A call uses
 * less than 100,000 bytes of stack where it says no other figure.
 *
 * WHAT COMES BACK. 0 where the call accepts; else the refusal's number x 2^32 + its place (RECHARGE_NUMBER, RECHARGE_PLACE).
 * Tests run in the order of the numbers, and the place is the lowest that fails:
 *
 *   1  width or height 0, or more than 4,096 cells: at 0
 *   2  a slice of one number a cell has another count; of recharge_period also a list whose count does not fit: at 0
 *   3  the cover table: at the entry; at 0 for its size; at the later entry for the order of the codes
 *   4  a cell's cover code not in the table, its soil group or available water outside: at the cell; after all of them, of
 *      recharge_why alone, the cell asked about outside the grid: at its number
 *   5  directions that lead back to a cell: at the lowest cell on a ring
 *   6  the season or the setpoints outside their limits: at 0
 *   7  a value of the day outside its limits: at 0
 *   8  the serial does not follow the last one: at 0
 *   9  the state outside its limits: at the cell; at the cell count for the memory or the frost index
 *  10  snowfall would take a store past 10,000,000: at the cell
 *  12  an Arc grid, in this order: its header or its size, at 0; a cell that is no number or is the no-data number, at the cell; a
 *      count of cells that is not the grid's, or a lent buffer that is too short, at 0
 *  13  a reading for an estimate from radiation outside its limits, or not a number: at 0
 *
 * The setup check and the fresh state use 1 to 6, a day, a period and why 1 to 10, the calls on Arc grids 12 alone, which so comes
 * before all others, and the two estimates 13 alone. What a refused call leaves and writes stands with each call.
 */
#ifndef RECHARGE_H
#define RECHARGE_H

#include <stddef.h>
#include <stdint.h>

#ifdef __cplusplus
extern "C" {
#endif

enum {
    RECHARGE_MAX_CELLS = 4096,
    RECHARGE_MAX_COVERS = 64,
    RECHARGE_ENTRY = 16, /* numbers in one entry of the cover table */
    RECHARGE_MEMORY = 5,
    RECHARGE_TOTALS = 7,
    RECHARGE_DAY = 7,    /* numbers of a day in a list of days */
    RECHARGE_SUMS = 5,   /* sums of a cell over a period */
    RECHARGE_REASON = 3, /* the number of a reason and its two depths */
    RECHARGE_FIRST_SETPOINT = 56000, /* the setpoints that the program `balance` uses */
    RECHARGE_SECOND_SETPOINT = 83000,
    RECHARGE_TEXT = 786461, /* bytes of the longest text */
    RECHARGE_GRID_NUMBERS = 5, /* of an Arc grid's header: columns, rows, and the lengths of its three texts */
    RECHARGE_MEASURE = 20,     /* the most characters of such a text, a corner or the cell size */
    /* Bytes of the longest written Arc grid. Its header has 135: the six names, each with the space behind it, 54; columns and rows,
     * whose product is at most 4,096, five digits together; three texts of 20; a no-data number of a minus and nine digits; six line
     * feeds. Each of 4,096 cells has the blank or the line feed behind it, and ten bytes (-999999999), or in inches 21
     * (1844674407370955.1615): 135 + 4,096 x 11, and 135 + 4,096 x 22. */
    RECHARGE_GRID_TEXT = 45191,
    RECHARGE_INCHES_TEXT = 90247
};

/* The last serial of a state that has seen no day. It is no serial: those go from 0 to 9,999,999. */
#define RECHARGE_NO_SERIAL UINT32_MAX

#define RECHARGE_NUMBER(returned) ((uint32_t)((uint64_t)(returned) >> 32))
#define RECHARGE_PLACE(returned) ((uint32_t)((uint64_t)(returned) & UINT32_MAX))

/* ---------------------------------------------------------------- what is handed over */

/* The grid's size and the climate. */
struct recharge_site {
    uint32_t width, height;               /* at least 1, at most 4,096 cells */
    uint32_t first_growing, last_growing; /* days of the year, 1 to 366, first not after last; both ends count as growing */
    /* Of the frost index, 0 to 2,000,000, first not above second: on a day whose index is at or above the first condition I
     * counts as II, at or above the second every condition counts as III. With both at 2,000,000 only weeks of days below
     * -76 degrees Fahrenheit have a say after a fresh state. */
    uint32_t first_setpoint, second_setpoint;
};

/* An entry of the cover table: RECHARGE_ENTRY numbers in this order. Four stand for soil groups A to D. */
struct recharge_cover {
    uint32_t code;                 /* 1 to 255, rising from entry to entry */
    uint32_t open_water;           /* 0 or 1 */
    uint32_t curve_number[4];      /* 30 to 100 */
    uint32_t largest_recharge[4];  /* of a day, 0 to 100,000 */
    uint32_t growing_interception; /* 0 to 10,000 */
    uint32_t dormant_interception; /* 0 to 10,000 */
    uint32_t root_depth[4];        /* 0 to 1,000 hundredths of a foot */
};

/* A setup. The limits hold for every entry and every cell, also where open water does not use the number. */
struct recharge_setup {
    struct recharge_site site;
    const struct recharge_cover *covers; /* the cover table, 1 to 64 entries */
    size_t covers_count;
    /* Of each cell: direction, 1 right, 2 lower right, 4 down, 8 lower left, 16 left, 32 upper left, 64 up, 128 upper right.
     * Any other number is a closed depression, also a negative one that was cast to unsigned, such as a mapping program's -9999:
     * no test here sees it (recharge_grid_read does, in a grid whose no-data number it is). Open water points nowhere, whatever its
     * number. */
    const uint32_t *direction;
    const uint32_t *cover; /* a code of the table */
    const uint32_t *group; /* soil group, 1 to 4 for A to D */
    const uint32_t *water; /* available water, 0 to 600 hundredths of an inch per foot */
    size_t cells;          /* numbers in each of the four */
};

/* A state. A fresh state fills it, a day takes it and leaves the next. */
struct recharge_state {
    uint32_t *soil; /* of each cell, 0 to its capacity (available water x root depth), 0 on open water */
    uint32_t *snow; /* of each cell, 0 to 10,000,000, 0 on open water */
    size_t cells;   /* numbers in each of the two */
    uint32_t memory[RECHARGE_MEMORY]; /* gross precipitation of the five previous days, oldest first, 0 to 400,000 each */
    uint32_t last_serial;             /* 0 to 9,999,999, or RECHARGE_NO_SERIAL */
    uint32_t frost_index;             /* of the whole grid, 0 to 2,500,000 */
};

/* What a day gives for each cell. On land the outflow is the runoff and what the cell rejects, which runs on downhill with it,
 * and it never passes the cell's water (rain, melt and what flows in); of a closed depression it is 0, and what is rejected there
 * leaves the balance. On open water it is gross precipitation and all that flows in. */
struct recharge_results {
    uint32_t *intercepted, *outflow, *evapotranspired, *recharged, *rejected;
    size_t cells; /* numbers in each of the five */
};

/* A day. */
struct recharge_day_record {
    uint32_t serial;                /* 0 to 9,999,999, one more than the last unless there is none */
    uint32_t day_of_year;           /* 1 to 366 */
    uint32_t gross;                 /* gross precipitation, 0 to 400,000 */
    int32_t minimum, mean, maximum; /* temperatures, -1,000 to 1,500, minimum <= mean <= maximum */
    uint32_t potential;             /* potential evapotranspiration, 0 to 20,000 */
};

/* Why a cell got its figures on a day (M-105): of seven reasons the first that is true, and two depths.
 *
 *      the reason                                                   first                               second
 *   1  open water                                                   gross precipitation                 what flows in
 *   2  no water reached the ground and snow lies at the day's end   w, which is 0                       snow at the day's end
 *   3  no water reached the ground                                  w, which is 0                       that snow, which is 0
 *   4  infiltration below potential evapotranspiration              infiltration                        potential evapotranspiration
 *   5  the soil had room for all of it                              infiltration less the potential     room
 *   6  excess above the cover's largest recharge                    excess                              the cover's largest
 *   7  all the excess recharged                                     excess                              the cover's largest
 *
 * w is the cell's water: rain, melt and what flows in. Infiltration is w less the runoff; rejected recharge, which runs on with the
 * runoff, counts as infiltration all the same. The room is the capacity less the soil before the day, the excess the soil before the
 * day and infiltration, less potential evapotranspiration and the capacity. A surplus that just fills the room is 5, an excess that is
 * just the largest is 7. No depth here passes 2,000,000,000. */
struct recharge_reason {
    uint64_t reason;        /* 1 to 7 */
    uint64_t first, second; /* the two depths */
};

/* The header of an Arc grid (M-101). The corner of its lower left cell and the size of a cell are kept as the text that they are, each
 * with a zero byte behind it: 1 to 20 characters, digits, with a minus in front allowed and one point with a digit on each side (-93.25,
 * 30, 007; but not .5, 5., +1 or 1e5). */
struct recharge_grid_header {
    uint32_t columns, rows; /* ncols and nrows, at least 1 each, at most 4,096 cells: a setup's width and height */
    int32_t no_data;        /* NODATA_value, -999,999,999 to 999,999,999 */
    char x_corner[RECHARGE_MEASURE + 1], y_corner[RECHARGE_MEASURE + 1]; /* xllcorner, yllcorner */
    char cell_size[RECHARGE_MEASURE + 1];                                /* cellsize */
};

/* ---------------------------------------------------------------- the raw calls, which are proved */

/* Tests 1 to 6 of a setup. covers is the cover table, RECHARGE_ENTRY numbers an entry; covers_len counts the numbers. */
uint64_t recharge_check(struct recharge_site site,
                        const uint32_t *covers, size_t covers_len,
                        const uint32_t *direction, size_t direction_len,
                        const uint32_t *cover, size_t cover_len,
                        const uint32_t *group, size_t group_len,
                        const uint32_t *water, size_t water_len);

/* Tests 1 to 6, then a fresh state: soil full (0 on open water), snow 0, memory five zeros, last serial RECHARGE_NO_SERIAL,
 * frost index 0. Refused: soil and snow are left as they were, and memory, last serial and frost index are written as in a
 * fresh state. */
uint64_t recharge_fresh(struct recharge_site site,
                        const uint32_t *covers, size_t covers_len,
                        const uint32_t *direction, size_t direction_len,
                        const uint32_t *cover, size_t cover_len,
                        const uint32_t *group, size_t group_len,
                        const uint32_t *water, size_t water_len,
                        uint32_t *soil, size_t soil_len,
                        uint32_t *snow, size_t snow_len,
                        uint32_t memory[RECHARGE_MEMORY], uint32_t *last_serial, uint32_t *frost_index);

/* Tests 1 to 10, then one day: the state after it, the results of each cell and seven totals. Memory, last serial and frost
 * index are read and written. The frost index that the day sets is floor(97 x index / 100) - floor(1,000 x (mean - 320) / 18),
 * or 0 where that is negative (a floor below zero is the whole number below), and it decides what condition the day counts as.
 * The totals: gross, intercepted, evapotranspired, recharged, rejected in closed depressions, gone from the grid, stored at the
 * end (soil and snow). What was stored before the day and gross is the sum of the other six.
 * Refused: the totals are zeros, and nothing else is changed. */
uint64_t recharge_day(struct recharge_site site,
                      const uint32_t *covers, size_t covers_len,
                      const uint32_t *direction, size_t direction_len,
                      const uint32_t *cover, size_t cover_len,
                      const uint32_t *group, size_t group_len,
                      const uint32_t *water, size_t water_len,
                      uint32_t *soil, size_t soil_len,
                      uint32_t *snow, size_t snow_len,
                      uint32_t memory[RECHARGE_MEMORY], uint32_t *last_serial, uint32_t *frost_index,
                      uint32_t *intercepted, size_t intercepted_len,
                      uint32_t *outflow, size_t outflow_len,
                      uint32_t *evapotranspired, size_t evapotranspired_len,
                      uint32_t *recharged, size_t recharged_len,
                      uint32_t *rejected, size_t rejected_len,
                      uint64_t totals[RECHARGE_TOTALS], struct recharge_day_record day);

/* Tests 1 to 6, then a list of days from the fresh state, one after another, up to the first that tests 7 to 10 refuse; with the five
 * results of each cell added up over them, and the totals of each day. The setup is surveyed once for all days. In libcperiod.a.
 *
 *   covers .. water
 *                  the setup, as recharge_check is handed it
 *   days           RECHARGE_DAY numbers a day: serial, day of the year, gross precipitation, minimum, mean and maximum temperature, and
 *                  potential evapotranspiration, with the units and the limits of struct recharge_day_record; where that has no sign, a
 *                  number below 0 is outside. The first serial may be any, every other is one more than the one before. A list of no
 *                  days is accepted, and leaves the fresh state and sums of 0
 *   soil, snow     are written, one number a cell: the stores after the days. What they held is not looked at, nor what sums and totals
 *                  held
 *   sums           are written, RECHARGE_SUMS x cells numbers, depths over all days: what each cell intercepted, then of each its outflow,
 *                  what evapotranspired, what recharged, and what was rejected. So cell i's recharge is sums[3 x cells + i]. None can
 *                  overflow: a day's figure fits 32 bits, and there are 10,000,000 serials
 *   totals         are written, RECHARGE_TOTALS numbers a day: gross, intercepted, evapotranspired, recharged, rejected in closed
 *                  depressions, gone from the grid, stored at the day's end
 *   accepted       is written: how many days were accepted
 *
 * Refused by 1 to 6: accepted is 0, and nothing else is changed. Test 2 is also of the lists: days_len is a multiple of RECHARGE_DAY,
 * totals_len is days_len, and sums_len is RECHARGE_SUMS x cells.
 * Refused at a day, what comes back is what recharge_day returns of it: 7 at 0, 8 at 0, or 10 at the cell (9 does not come, since each
 * state is the fresh one or an accepted day's). Then accepted is how many days stand before it, and soil, snow, sums and the first
 * RECHARGE_TOTALS x accepted of the totals are those of these days; the totals from there on are left as they were.
 * No memory, last serial or frost index comes back, so that recharge_day cannot go on from here: for more days, hand over a longer list.
 * It uses less than 160,000 bytes of stack. */
uint64_t recharge_period(struct recharge_site site,
                         const uint32_t *covers, size_t covers_len,
                         const uint32_t *direction, size_t direction_len,
                         const uint32_t *cover, size_t cover_len,
                         const uint32_t *group, size_t group_len,
                         const uint32_t *water, size_t water_len,
                         const int32_t *days, size_t days_len,
                         uint32_t *soil, size_t soil_len,
                         uint32_t *snow, size_t snow_len,
                         uint64_t *sums, size_t sums_len,
                         uint64_t *totals, size_t totals_len, uint64_t *accepted);

/* Tests 1 to 10, then why a cell gets its figures on that day. The state is the one before the day, as recharge_day is lent it, so
 * ask before that call: it leaves the state after the day.
 *
 *   soil, snow     of each cell; of test 2 these two and the setup's four are looked at, since no results are lent
 *   cell           its number, 0 to the cell count less 1; another is refusal 4 at that number, after any bad cell of the grid and
 *                  before 5
 *   reason         is written: the reason's number and its two depths
 *
 * A day that recharge_day refuses is explained by its refusal: reason is three zeros. The state and the setup are only read, since it
 * works on copies, for which it uses less than 250,000 bytes of stack. */
uint64_t recharge_why(struct recharge_site site,
                      const uint32_t *covers, size_t covers_len,
                      const uint32_t *direction, size_t direction_len,
                      const uint32_t *cover, size_t cover_len,
                      const uint32_t *group, size_t group_len,
                      const uint32_t *water, size_t water_len,
                      const uint32_t *soil, size_t soil_len,
                      const uint32_t *snow, size_t snow_len,
                      const uint32_t memory[RECHARGE_MEMORY], uint32_t last_serial, uint32_t frost_index,
                      struct recharge_day_record day, uint32_t cell, uint64_t reason[RECHARGE_REASON]);

/* Potential evapotranspiration of a day from radiation (M-103), by Turc and by Jensen-Haise.
 *
 *   mean           T, the day's mean temperature in degrees Celsius, -60 to 60
 *   radiation      R, in cal/cm2 a day, 0 to 1,000
 *   humidity       H, in percent, 0 to 100; Jensen-Haise has none
 *   potential      is written: the estimate in units of 0.0001 inch
 *
 * Both ends of a limit are inside, and -0.0 is 0. A reading outside its limits, an infinity or what is not a number is refusal 13 at 0,
 * and the estimate is 0; of readings inside none is refused. In millimetres:
 *
 *   Turc           0 if T <= 0, else ((0.013 x T) / (T + 15)) x (R + 50), and that times (1 + (50 - H) / 70) if H < 50
 *   Jensen-Haise   (R / 59) x (0.025 x T + 0.08), or 0 if that is below 0
 *
 * These times 100,000, divided by 254, are units, and the estimate is the greatest whole number not above. Each operation is one of
 * doubles (binary64), rounded once to the nearest in the order written, and so is each constant: every machine gives the same
 * estimate, and where exact numbers lie at a whole number or within a hair of one, it can be one off (by Turc 4.5, 77 and 60 give 149,
 * and exact numbers 150). It never passes 20,000: cast to uint32_t, it can stand in recharge_day_record.potential as it is. But look at
 * what came back first, since a day without potential evapotranspiration is a 0 as well. The mean of that record is another number, in
 * tenths of a degree Fahrenheit. */
uint64_t recharge_turc(double mean, double radiation, double humidity, uint64_t *potential);
uint64_t recharge_jensen_haise(double mean, double radiation, uint64_t *potential);

/* An Arc ASCII grid of whole numbers read (M-101), as for a setup's direction, cover or group.
 *
 *   text           any bytes, any number of them. Words are parted by runs of spaces and line feeds and by nothing else: a tab or a
 *                  carriage return is part of its word, and makes a number a bad one. The first twelve words are these names, in
 *                  either letter case, each with its value: ncols, nrows, xllcorner, yllcorner, cellsize, NODATA_value. Every word
 *                  after them is a cell, row by row from the top left; a row may go on over lines, and a line hold several
 *   cells          are written, from the front on; at least columns x rows of them
 *   numbers        are written: columns and rows, and how many characters each of the three texts has, in the order below
 *   no_data        is written: the no-data number
 *   x_corner, y_corner, cell_size
 *                  are written: the texts of the corner and the cell size as struct recharge_grid_header has them, without a zero
 *                  byte of their own, but with zeros to the twentieth byte
 *
 * Columns, rows, the no-data number and the cells are numbers as in `balance`: 0, or 1 to 9 digits of which the first is not 0, with a
 * minus in front allowed. Of refusal 12 the first of these is told:
 *
 *   at 0           a name that is missing, another or misspelt, a value that is missing or bad, a column or row count below 1, or more
 *                  than 4,096 cells
 *   at the cell    a cell that is no such number, or equal in value to the no-data number: the lowest, from 0, also beyond the grid's last
 *                  (past 4,294,967,295, which takes 8 GB of text, that number is told)
 *   at 0           fewer or more cells than columns x rows, or cells shorter than these
 *
 * Refused: no cell is changed, and all that is written of the header is zeros. Accepted: cells beyond columns x rows are left as they
 * were. No cell is then the no-data number, so that no -9999 comes through as the closed depression which recharge_setup.direction would
 * take it for. Where none is negative, which is the caller's to see, they may be handed over as uint32_t for a setup's slices, with
 * columns and rows as its width and height. */
uint64_t recharge_grid_read(const uint8_t *text, size_t text_len, int32_t *cells, size_t cells_len,
                            uint32_t numbers[RECHARGE_GRID_NUMBERS], int32_t *no_data, uint8_t x_corner[RECHARGE_MEASURE],
                            uint8_t y_corner[RECHARGE_MEASURE], uint8_t cell_size[RECHARGE_MEASURE]);

/* The same written: the one form that a grid has. Six lines have a name in lower case, a space and its value, and then each row has a
 * line, its cells parted by single spaces; a line feed is behind each line, and no blank before it.
 *
 *   numbers, no_data, x_corner, y_corner, cell_size
 *                  as recharge_grid_read writes them, within the limits of struct recharge_grid_header; what lies behind a text's
 *                  length is not looked at
 *   cells          -999,999,999 to 999,999,999 each; columns x rows of them
 *   units          in place of cells: depths, any number each, written as inches with four decimals, 12345 as 1.2345 and 7 as 0.0007
 *   text           is written, from the front on; RECHARGE_GRID_TEXT bytes, or RECHARGE_INCHES_TEXT for inches, are enough for any grid
 *   written        is written: how many bytes the text has; those beyond it are left as they were
 *
 * Of refusal 12 the first of these is told:
 *
 *   at 0           a number, the no-data number or a text outside what a header may have
 *   at the cell    the lowest that is outside its limits, or equal in value to the no-data number; of units one that is 10,000 x the
 *                  no-data number, as 0 is of 0 and none is of a number below 0
 *   at 0           fewer or more cells than columns x rows, or text shorter than what is to be written
 *
 * Refused: written is 0, and no byte of text is changed. What recharge_grid_write has written recharge_grid_read takes, with the same
 * header and cells; inches have a point, which it takes for no number. */
uint64_t recharge_grid_write(const uint32_t numbers[RECHARGE_GRID_NUMBERS], int32_t no_data, const uint8_t x_corner[RECHARGE_MEASURE],
                             const uint8_t y_corner[RECHARGE_MEASURE], const uint8_t cell_size[RECHARGE_MEASURE],
                             const int32_t *cells, size_t cells_len, uint8_t *text, size_t text_len, uint64_t *written);
uint64_t recharge_grid_inches(const uint32_t numbers[RECHARGE_GRID_NUMBERS], int32_t no_data, const uint8_t x_corner[RECHARGE_MEASURE],
                              const uint8_t y_corner[RECHARGE_MEASURE], const uint8_t cell_size[RECHARGE_MEASURE],
                              const uint64_t *units, size_t units_len, uint8_t *text, size_t text_len, uint64_t *written);

/* The program `balance` as a function: what it prints for the input's bytes.
 *
 *   input          any bytes; more than 65,536 of them are refused as text (11 at 0)
 *   output         at least RECHARGE_TEXT bytes: room for the longest text
 *
 * Returns how many bytes it wrote from the front of output on, at most RECHARGE_TEXT; every other byte is as it was. No text is
 * empty: 0 comes back where output is shorter than RECHARGE_TEXT, and nothing is written. It uses less than 420,000 bytes of stack. */
size_t recharge_text(const unsigned char *input, size_t input_len, unsigned char *output, size_t output_len);

/* ---------------------------------------------------------------- the same by structs */

/* The setup's part of a raw call. A cover is RECHARGE_ENTRY numbers in a row, from its code on. */
#define RECHARGE_SETUP_(setup)                                                                                      \
    (setup)->site, &(setup)->covers->code, (setup)->covers_count * RECHARGE_ENTRY,                                  \
        (setup)->direction, (setup)->cells, (setup)->cover, (setup)->cells, (setup)->group, (setup)->cells,         \
        (setup)->water, (setup)->cells
#define RECHARGE_STATE_(state)                                                                                      \
    (state)->soil, (state)->cells, (state)->snow, (state)->cells, (state)->memory, &(state)->last_serial,           \
        &(state)->frost_index
#define RECHARGE_BEFORE_(state)                                                                                     \
    (state)->soil, (state)->cells, (state)->snow, (state)->cells, (state)->memory, (state)->last_serial,            \
        (state)->frost_index
#define RECHARGE_RESULTS_(results)                                                                                  \
    (results)->intercepted, (results)->cells, (results)->outflow, (results)->cells, (results)->evapotranspired,     \
        (results)->cells, (results)->recharged, (results)->cells, (results)->rejected, (results)->cells

/* recharge_check. */
static inline uint64_t recharge_check_setup(const struct recharge_setup *setup)
{
    return recharge_check(RECHARGE_SETUP_(setup));
}

/* recharge_fresh. */
static inline uint64_t recharge_fresh_state(const struct recharge_setup *setup, struct recharge_state *state)
{
    return recharge_fresh(RECHARGE_SETUP_(setup), RECHARGE_STATE_(state));
}

/* recharge_day. */
static inline uint64_t recharge_one_day(const struct recharge_setup *setup, struct recharge_state *state,
                                        const struct recharge_results *results, uint64_t totals[RECHARGE_TOTALS],
                                        struct recharge_day_record day)
{
    return recharge_day(RECHARGE_SETUP_(setup), RECHARGE_STATE_(state), RECHARGE_RESULTS_(results), totals, day);
}

/* recharge_why: the state is the one before the day. */
static inline uint64_t recharge_why_cell(const struct recharge_setup *setup, const struct recharge_state *state,
                                         struct recharge_day_record day, uint32_t cell, struct recharge_reason *reason)
{
    uint64_t told[RECHARGE_REASON];
    const uint64_t returned = recharge_why(RECHARGE_SETUP_(setup), RECHARGE_BEFORE_(state), day, cell, told);

    reason->reason = told[0];
    reason->first = told[1];
    reason->second = told[2];
    return returned;
}

/* The characters of a header's text; of one that has no zero byte one more than any may have, so that it is refused. */
static inline uint32_t recharge_length_(const char text[RECHARGE_MEASURE + 1])
{
    uint32_t length = 0;

    while (length <= RECHARGE_MEASURE && text[length] != '\0')
        length++;
    return length;
}

/* The header's part of a call that writes a grid, and its numbers, which it lends. */
#define RECHARGE_NUMBERS_(header)                                                                                   \
    {(header)->columns, (header)->rows, recharge_length_((header)->x_corner), recharge_length_((header)->y_corner), \
     recharge_length_((header)->cell_size)}
#define RECHARGE_HEADER_(numbers, header)                                                                           \
    numbers, (header)->no_data, (const uint8_t *)(header)->x_corner, (const uint8_t *)(header)->y_corner,           \
        (const uint8_t *)(header)->cell_size

/* recharge_grid_read. */
static inline uint64_t recharge_read_grid(const uint8_t *text, size_t text_len, int32_t *cells, size_t cells_len,
                                          struct recharge_grid_header *header)
{
    uint32_t numbers[RECHARGE_GRID_NUMBERS];
    const uint64_t returned = recharge_grid_read(text, text_len, cells, cells_len, numbers, &header->no_data,
                                                 (uint8_t *)header->x_corner, (uint8_t *)header->y_corner,
                                                 (uint8_t *)header->cell_size);

    header->columns = numbers[0];
    header->rows = numbers[1];
    header->x_corner[RECHARGE_MEASURE] = header->y_corner[RECHARGE_MEASURE] = header->cell_size[RECHARGE_MEASURE] = '\0';
    return returned;
}

/* recharge_grid_write. */
static inline uint64_t recharge_write_grid(const struct recharge_grid_header *header, const int32_t *cells, size_t cells_len,
                                           uint8_t *text, size_t text_len, uint64_t *written)
{
    const uint32_t numbers[RECHARGE_GRID_NUMBERS] = RECHARGE_NUMBERS_(header);

    return recharge_grid_write(RECHARGE_HEADER_(numbers, header), cells, cells_len, text, text_len, written);
}

/* recharge_grid_inches. */
static inline uint64_t recharge_write_inches(const struct recharge_grid_header *header, const uint64_t *units, size_t units_len,
                                             uint8_t *text, size_t text_len, uint64_t *written)
{
    const uint32_t numbers[RECHARGE_GRID_NUMBERS] = RECHARGE_NUMBERS_(header);

    return recharge_grid_inches(RECHARGE_HEADER_(numbers, header), units, units_len, text, text_len, written);
}

#undef RECHARGE_SETUP_
#undef RECHARGE_STATE_
#undef RECHARGE_BEFORE_
#undef RECHARGE_RESULTS_
#undef RECHARGE_NUMBERS_
#undef RECHARGE_HEADER_

#ifdef __cplusplus
}
#endif

#endif
