/* What the parts of speed share: the clock, the setup that stands in speed_grids.h, the days, and a line of a table. */
#ifndef SPEED_H
#define SPEED_H

#include "balance.h"
#include "speed_grids.h"
#include "text.h"

#define JOIN_(a, b) a##b
#define JOIN(a, b) JOIN_(a, b)

enum { DAYS = 16, YEAR = 365, MOST_ROUNDS = 2000, FAST = 0, PROVED = 1 };

double microseconds(void);

static inline void barrier(void)
{
    __asm__ volatile("" ::: "memory");
}

static inline struct recharge_site site(void)
{
    return (struct recharge_site){.width = width, .height = height, .first_growing = 90, .last_growing = 280,
                                  .first_setpoint = TEXT_FIRST_SETPOINT, .second_setpoint = TEXT_SECOND_SETPOINT};
}

#define SETUP                                                                                  \
    site(), covers, sizeof covers / sizeof covers[0], direction, cells, cover, cells, group,   \
        cells, water, cells

extern const struct recharge_day_record mixed[DAYS]; /* the serials are set as they come */

/* The least times of the two, their ratio, and the median of the rounds' ratios, which are sorted. */
void print_line(const char *name, const double least[2], double *ratios, int rounds);

/* The same of a year (speed_year.c); its days, and how long the fast C takes for it, from the start of the last year that was measured. */
void measure_year(const char *name, int rounds);
struct recharge_day_record day_of(uint32_t n);
double fast_year(void);

/* The same of the program `sheet`, on a folder that is made for it, with what it prints in a file (speed_sheet.c). It is for the grid of the last year that was
 * measured. */
void measure_sheet(const char *name, const char *program, const char *folder, const char *printed, int rounds);

#endif
