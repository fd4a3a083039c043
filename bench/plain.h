/* The single rules of the plain C (plain_rules.c, plain_radiation.c), for programs that check figures
 * against them. All of them expect arguments within the paper's limits. */
#ifndef PLAIN_H
#define PLAIN_H

#include <stdbool.h>
#include <stdint.h>

enum plain_condition { CONDITION_I, CONDITION_II, CONDITION_III };

int64_t plain_capacity(int64_t available_water, int64_t root_depth);
int64_t plain_interception(int64_t gross, int64_t figure);                        /* rule 2 */
bool plain_falls_as_snow(int64_t minimum, int64_t mean, int64_t maximum);         /* rule 3 */
int64_t plain_melt(int64_t store, int64_t maximum);                               /* rule 3 */
enum plain_condition plain_antecedent(int64_t five_day_sum, bool growing);        /* rule 5 */
int64_t plain_frost(int64_t index, int64_t mean);                                 /* M-106 */
enum plain_condition plain_counts_as(enum plain_condition antecedent, int64_t index,
                                     int64_t first_setpoint, int64_t second_setpoint); /* M-106 */
int64_t plain_curve_number(int64_t table_number, enum plain_condition condition); /* rule 5 */
int64_t plain_runoff(int64_t c, int64_t w);                                       /* rule 6 */
int64_t plain_retention(int64_t k);                                               /* F of rule 8 */
int64_t plain_loss(int64_t soil, int64_t capacity, int64_t d);                    /* rule 8 */

/* M-103: T in degrees Celsius, R in cal/cm2 a day and H in percent give millimetres, and those units,
 * of which the estimate is the greatest whole number not above. */
double plain_turc_millimetres(double t, double r, double h);
double plain_jensen_haise_line(double t, double r); /* which is below 0 on a cold day */
double plain_jensen_haise_millimetres(double t, double r);
double plain_units(double millimetres);

#endif
