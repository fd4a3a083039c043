/* The implementations that are compared: one table for the library, one for the text. */
#ifndef TABLE_H
#define TABLE_H

#include "balance.h"
#include "text.h"

struct implementation {
    const char *name;
    balance_check *check;
    balance_fresh *fresh;
    balance_day *day;
    balance_period *period; /* NULL of one that takes no list of days */
    balance_why *why; /* NULL of one that does not say */
    balance_turc *turc; /* NULL of one that has no estimates from radiation */
    balance_jensen_haise *jensen_haise; /* likewise */
    balance_grid_read *grid_read; /* NULL of one that has no Arc grids */
    balance_grid_write *grid_write; /* likewise */
    balance_grid_inches *grid_inches; /* likewise */
};

struct text_implementation {
    const char *name;
    balance_text *run;
};

/* The first of each is the one that the others are compared with. */
extern const struct implementation implementations[];
extern const size_t implementations_count;
extern const struct text_implementation texts[];
extern const size_t texts_count;

#endif
