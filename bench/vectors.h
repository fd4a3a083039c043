/* How a vector's text is put together, and the files' worth of cases. */
#ifndef VECTORS_H
#define VECTORS_H

#include <stddef.h>

/* Appends to the text that is being made. */
__attribute__((format(printf, 1, 2))) void put(const char *format, ...);
void put_byte(int byte);
void pad_to(size_t length); /* with blanks */

/* A cover entry with one figure for all four groups. */
void put_cover(int code, int water, int curve, int most, int growing, int dormant, int root);

/* Three covers: 1 passes on all that falls on it and holds nothing, 2 is a meadow, 3 is a lake. */
void put_three_covers(void);

/* Ends the text: works out its output, which must end in the line or lines `ends` (NULL: any), and
 * writes the vector. */
void vector(const char *name, const char *ends, const char *reason);

/* The cases of vectors_form.c, vectors_limits.c, vectors_grid.c, vectors_weather.c,
 * vectors_frost.c, vectors_melt.c and vectors_rejected.c. */
void form_cases(void);     /* characters, numbers, length, cut-off ends: refusal 11 */
void limit_cases(void);    /* each field just inside and just outside: 1, 3, 4, 6, 7, 8 */
void grid_cases(void);     /* flow over small and largest grids, rings: 5 */
void weather_cases(void);  /* seasons, conditions, snow, dry spells: 10 */
void frost_cases(void);    /* frozen ground, M-106 */
void melt_cases(void);     /* melt in millimetres, M-100 */
void rejected_cases(void); /* rejected recharge that runs on, M-104 */

#endif
