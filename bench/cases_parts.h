/* What the makers of cases share among themselves. */
#ifndef CASES_PARTS_H
#define CASES_PARTS_H

#include "cases.h"

#define COUNT(array) (sizeof(array) / sizeof(array)[0])
#define ONE_OF(array) ((array)[below(COUNT(array))])

static inline uint64_t refusal(uint64_t number, uint64_t place)
{
    return number << 32 | place;
}

/* More random numbers; both ends are among them. */
uint64_t random_bits(void);
uint64_t between(uint64_t lowest, uint64_t highest);
int64_t between_signed(int64_t lowest, int64_t highest);
uint32_t edgy32(uint32_t lowest, uint32_t highest);

/* Limits of the setpoints and of the frost index. */
enum { MOST_SETPOINT = 2000000, MOST_FROST_INDEX = 2500000 };

/* An index: none, one that a day may take below a setpoint, or any. */
uint32_t make_frost_index(const struct grid_case *g);

/* The eight directions as steps, apart from how the implementations have them. */
struct step {
    uint32_t number;
    int right, down;
};
extern const struct step compass[8];

/* A number that is a closed depression. */
uint32_t closed_number(void);

/* A word that is no number (cases_text.c), and one that is no corner or cell size of an Arc grid (cases_grids.c). */
const char *bad_word(void);
const char *bad_measure(void);

/* Of an Arc grid: a corner or a cell size, of so many characters; a bad cell told; and a kind met. */
void make_measure(char *text, size_t length);
void arc_bad_at(struct arc_facts *f, size_t cell);
void arc_meet(struct arc_facts *f, int kind);

/* A length that is not the cell count, within the room. */
size_t wrong_length(uint32_t cells);

/* Lays a ring: two neighbours, or the rim of a rectangle, either way round. With one cell of
 * it open water it is none. */
uint64_t damage_ring(struct grid_case *g);

#endif
