/* Vectors of one bare cell whose lines are foretold, for the cases on frost and melt. */
#ifndef VECTORS_FORETOLD_H
#define VECTORS_FORETOLD_H

enum { GROWING = 150, DORMANT = 20 }; /* a day of put_bare's season, and one outside it */

/* One cell without soil and interception that runs off over the edge and recharges what sinks in; the season is 120 to 270. */
void put_bare(int curve);

/* A day of one temperature. */
void put_day(int serial, int day, int gross, int mean);

/* Appends to the lines that the next vector must end in. */
__attribute__((format(printf, 1, 2))) void foretell(const char *format, ...);

/* The line of a day on the bare cell: of the water w so much is gone, the rest recharges. */
void foretell_day(int serial, int gross, int w, int gone, int snow);

/* The vector that ends in the lines foretold, the last of so many days. */
void foretold_vector(const char *name, int days, const char *reason);

#endif
