/* What the parts of figures share: a figure held to the paper's, and a day of one cell. */
#ifndef FIGURES_H
#define FIGURES_H

#include "plain.h"
#include "table.h"

/* Prints a figure and counts it where it is not the one wanted. */
void figure(const char *who, const char *what, int64_t found, int64_t wanted);

/* One cell that flows over the edge, on a growing day. No interception; recharge as large as it may
 * be; the program's setpoints. */
struct one_cell {
    uint32_t curve, root, water; /* table's number; hundredths of a foot; of an inch a foot */
    uint32_t soil, snow, five_day_sum, frost_index;
    uint32_t gross;
    int32_t minimum, mean, maximum;
    uint32_t potential;
    /* what comes back, besides the state */
    uint32_t outflow, evapotranspired;
};

uint64_t run(const struct implementation *x, struct one_cell *c);

/* M-106: by the plain C's single rules, then by days of an implementation (figures_frost.c). */
void frost_rules(void);
void frost_days(const struct implementation *x);

/* M-105: of an implementation that says why (figures_reasons.c). */
void reason_days(const struct implementation *x);

/* M-103: by the plain C's single rules, then by an implementation that has the estimates (figures_radiation.c). */
void radiation_rules(void);
void radiation_days(const struct implementation *x);

/* M-101: of an implementation that has Arc grids, and then of the calls by structs, over the plain C (figures_grids.c). */
void grid_texts(const struct implementation *x);
void grid_structs(void);

#endif
