/* Seeded random cases for fuzz: grids, states, days and texts, mostly valid to the last
 * number, and damage done to them of which the refusal is known beforehand. */
#ifndef CASES_H
#define CASES_H

#include "balance.h"
#include "binary64.h"

#include <stdbool.h>

enum {
    CASE_ROOM = BALANCE_MAX_CELLS + 8, /* behind each slice, so that lengths may be a little off */
    CASE_COVERS = (BALANCE_MAX_COVERS + 2) * BALANCE_ENTRY,
    CASE_SLICES = 7,        /* soil, snow and the five results */
    CASE_TEXT_ROOM = 400000 /* bytes that are enough for every text made here */
};

/* "Nobody foretold this refusal." */
#define UNSURE UINT64_MAX

struct grid_case {
    uint32_t cells; /* of the grid as it was made: damage leaves this alone */
    uint32_t width, height, first, last;
    uint32_t first_setpoint, second_setpoint;
    uint32_t covers[CASE_COVERS];
    size_t covers_len;
    uint32_t direction[CASE_ROOM], cover[CASE_ROOM], group[CASE_ROOM], water[CASE_ROOM];
    size_t direction_len, cover_len, group_len, water_len;
};

/* A state with the lengths of the slices that a call is lent. */
struct state_case {
    uint32_t soil[CASE_ROOM], snow[CASE_ROOM];
    uint32_t memory[BALANCE_MEMORY], last_serial, frost_index;
    size_t len[CASE_SLICES];
};

/* Where the numbers of a cover entry stand. */
enum { E_CODE = 0, E_WATER = 1, E_CURVE = 2, E_RECHARGE = 6, E_GROWING = 10, E_DORMANT = 11,
       E_ROOTS = 12 };

/* The random numbers: the same seed gives the same case (cases_random.c). */
void start_random(uint64_t seed);
uint64_t below(uint64_t n);                      /* 0 to n - 1 */
bool chance(unsigned percent);
uint64_t edgy(uint64_t lowest, uint64_t highest); /* often at or near an end */

/* Facts of a valid grid, found apart from the implementations (cases_grid.c, cases_day.c,
 * cases_frost.c). */
const uint32_t *case_entry(const struct grid_case *g, uint32_t cell);
bool case_is_water(const struct grid_case *g, uint32_t cell);
uint32_t case_capacity(const struct grid_case *g, uint32_t cell);
/* The next cell, or CASE_LEAVES or CASE_STAYS. */
enum { CASE_LEAVES = -1, CASE_STAYS = -2 };
int32_t case_next(const struct grid_case *g, uint32_t cell);
/* Does what falls that day fall as snow? */
bool case_snows(const struct recharge_day_record *d);
/* What a day of this maximum melts of any store (M-100). */
uint32_t case_melt(int32_t maximum);
/* The frost index that a day of this mean temperature sets (M-106). */
uint32_t case_frost(uint32_t index, int32_t mean);

/* Valid cases (cases_grid.c, cases_day.c, cases_frost.c). A grid has the program's setpoints, as a
 * text's has; make_setpoints draws others for the library's calls. */
void make_grid(struct grid_case *g);
void make_setpoints(struct grid_case *g);
void make_state(const struct grid_case *g, struct state_case *s);
void make_day(const struct grid_case *g, const struct state_case *s, struct recharge_day_record *d);

/* On a day without snowfall: gives a cell the snow that the day melts, or a unit less or more. */
void aim_melt(const struct grid_case *g, struct state_case *s, const struct recharge_day_record *d);

/* Moves a setpoint to where the day will set the frost index, or to one beside it. */
void aim_setpoint(struct grid_case *g, const struct state_case *s, const struct recharge_day_record *d);

/* A dry day of one closed cell, aimed at the joints of rule 8: potential evapotranspiration
 * about k/256 of the capacity, often at the end of the table, where few soils tell its last two
 * entries apart. */
void make_dry(struct grid_case *g, struct state_case *s, struct recharge_day_record *d);

/* Damage, or something just short of it, to valid cases. Each returns what the check (or the
 * day) must then return: 0, a refusal, or UNSURE (cases_damage_grid.c, cases_damage_call.c). */
uint64_t damage_grid(struct grid_case *g);
uint64_t damage_call(const struct grid_case *g, struct state_case *s, struct recharge_day_record *d);

/* A wrong length for one of the first so many slices of one number a cell. A fresh state is lent 2. */
enum { FRESH_SLICES = 2 };
uint64_t damage_length_of(struct state_case *s, uint32_t cells, unsigned slices);

/* ---------------------------------------------------------------- readings (M-103): cases_radiation.c */

/* What the estimates from radiation read of a day. */
enum { MEAN, RADIATION, HUMIDITY, READINGS };
struct readings_case {
    double reading[READINGS];
    bool by_station;          /* then they were these: tenths of a degree, whole cal/cm2 and percent */
    int32_t number[READINGS];
};

/* As a station has them; any within the limits; at or beside the numbers at which something turns; or with
 * one that is strange, of any bits at all. */
void make_readings(struct readings_case *c);

/* Found apart from the implementations, with no arithmetic on doubles: does a reading lie within its limits,
 * and what are the units of readings that do, to the last bit? */
bool case_fits(int which, double reading);
struct binary64 case_turc(const double *reading);
struct binary64 case_jensen_haise(const double *reading);

/* The same of a station's readings in exact numbers, which are not rounded: units as a fraction. */
struct exact {
    int64_t above, below;
};
struct exact case_exact_turc(const int32_t *number);
struct exact case_exact_jensen_haise(const int32_t *number);

/* ---------------------------------------------------------------- Arc grids (M-101): cases_grids.c, cases_grids_written.c */

enum {
    ARC_CELLS = BALANCE_MAX_CELLS + 8, /* some beyond the last cell of the largest grid */
    ARC_HEAD = 12,                     /* words of a header */
    ARC_MEASURES = 3,                  /* of them texts: the two corners and the cell size */
    ARC_WORD = 32,                     /* bytes of the longest word and of the zero behind it */
    ARC_TEXT = (ARC_HEAD + 1 + ARC_CELLS) * (ARC_WORD + 12) /* bytes that are enough for every text made here */
};

/* "No cell is bad." */
#define ARC_NONE SIZE_MAX

/* A header as the raw calls have it. */
struct arc_header {
    uint32_t numbers[BALANCE_GRID_NUMBERS];
    int32_t no_data;
    uint8_t measure[ARC_MEASURES][BALANCE_MEASURE];
};

/* What is known of a grid beforehand, to be read or to be written. */
struct arc_facts {
    bool bad_header;
    size_t bad_cell;      /* the lowest bad one, or ARC_NONE */
    size_t cells, lent;   /* how many there are; numbers, or bytes, of the buffer that is lent */
    uint32_t met;         /* which of the kinds below it has: a bit each */
};

/* What a text to be read can have that is looked for, most of it damage. */
enum {
    ARC_DROPPED, ARC_DOUBLED, ARC_SWAPPED, ARC_MISSPELT, ARC_SIZE, ARC_BAD_NUMBER, ARC_BAD_MEASURE, ARC_LONG_MEASURE, ARC_TRANSPOSED,
    ARC_NO_DATA_CELL, ARC_BAD_WORD, ARC_TWO_BAD, ARC_BEYOND, ARC_ONE_LESS, ARC_ONE_MORE, ARC_MANY_MORE, ARC_NO_CELLS, ARC_SHORT, ARC_EXACT,
    ARC_LONGER, ARC_ODD_BYTE, ARC_ZERO_BYTE, ARC_KINDS
};
extern const char *const arc_kind_names[ARC_KINDS];

/* A text to be read: its words, and what must come of it. */
struct arc_case {
    char head[ARC_HEAD + 1][ARC_WORD], word[ARC_CELLS][ARC_WORD];
    size_t heads;             /* words of the header; those of the cells are counted in the facts */
    struct arc_header header; /* where it is taken */
    int32_t cells[ARC_CELLS];
    struct arc_facts facts;
};

/* A good one, as large as a grid may be where that is asked for. */
void make_arc(struct arc_case *c, bool largest);
void damage_arc(struct arc_case *c);
uint64_t arc_returns(const struct arc_case *c);

/* How its words stand in the text. */
enum { ARC_ONE_FORM, ARC_PADDED, ARC_ONE_LINE, ARC_LINE_EACH, ARC_WRAPPED, ARC_RAGGED, ARC_FORMS };
extern const char *const arc_form_names[ARC_FORMS];
enum { ARC_LOWER, ARC_UPPER, ARC_AS_ARC, ARC_MIXED, ARC_LETTERS };
extern const char *const arc_letter_names[ARC_LETTERS];

/* Puts the names in a letter case. */
void arc_letters(struct arc_case *c, int letters);

/* The words as text, and where each ends; returns the length. */
size_t arc_lay_out(const struct arc_case *c, int form, uint8_t *bytes, size_t *ends);

/* Puts a byte that no word may have in the place of one of a word's, or behind it. */
void arc_odd_byte(struct arc_case *c, uint8_t *bytes, size_t length, const size_t *ends);

/* The same grid to be written: of whole numbers, or of units. */
struct arc_written {
    struct arc_header header;
    bool inches;
    int32_t cells[ARC_CELLS];
    uint64_t units[ARC_CELLS];
    struct arc_facts facts;
};

/* What a grid to be written can have. */
enum {
    ARC_W_SIZE, ARC_W_LENGTH, ARC_W_MEASURE, ARC_W_BEHIND, ARC_W_CUT, ARC_W_NO_DATA, ARC_W_NO_DATA_LIMIT, ARC_W_OUTSIDE, ARC_W_LIMIT, ARC_W_NO_DATA_CELL,
    ARC_W_NEAR, ARC_W_WRAPPED, ARC_W_TWO_BAD, ARC_W_BEYOND, ARC_W_ONE_LESS, ARC_W_ONE_MORE, ARC_W_SHORT, ARC_W_EXACT, ARC_W_LONGER, ARC_W_KINDS
};
extern const char *const arc_written_names[ARC_W_KINDS];

/* A good one with the header and cells of one that was read, and then with odd fields. The lent buffer is as long as the text, or
 * longer, or shorter: that is said last. */
void make_written(struct arc_written *w, const struct arc_case *c, bool inches);
void make_longest(struct arc_written *w, bool inches);
void damage_written(struct arc_written *w);
void lend_written(struct arc_written *w, size_t length);
uint64_t written_returns(const struct arc_written *w, size_t length);

/* The text that must come out of a good one; returns its length. */
size_t arc_one_form(const struct arc_written *w, uint8_t *bytes);

/* ---------------------------------------------------------------- texts: cases_text.c */

/* A text for the program: nearly valid or damaged; or a valid one of a winter whose
 * frost comes and goes. Each returns its length. */
size_t make_text(unsigned char *bytes);
/* `hits` grows by the days whose frost index is a setpoint of the program or one beside it. */
size_t make_winter(unsigned char *bytes, uint64_t *hits);

#endif
