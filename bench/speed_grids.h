/* The grids that are timed: one at a time stands here. */
#ifndef SPEED_GRIDS_H
#define SPEED_GRIDS_H

#include "balance.h"

enum { COVERS = 12 };

extern uint32_t width, height, cells;
extern uint32_t covers[COVERS * BALANCE_ENTRY];
extern uint32_t direction[BALANCE_MAX_CELLS], cover[BALANCE_MAX_CELLS], group[BALANCE_MAX_CELLS],
    water[BALANCE_MAX_CELLS];

void make_covers(void); /* once, for all grids */

/* Each lays a grid of w x h cells. */
void make_closed(uint32_t w, uint32_t h);
void make_rows(uint32_t w, uint32_t h);
void make_serpentine(uint32_t w, uint32_t h);
void make_landscape(uint32_t w, uint32_t h);

#endif
