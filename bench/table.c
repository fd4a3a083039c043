/* To compare a third implementation, say one with the prefix proved_, compile this file with
 * -DTHIRD=proved and link proved_check, proved_fresh, proved_day, proved_period, proved_why,
 * proved_turc, proved_jensen_haise, proved_grid_read, proved_grid_write and proved_grid_inches in; for a third text
 * function proved_text, with -DTHIRD_TEXT=proved. (Or add an entry by hand.) */
#include "table.h"

#define ENTRY_(prefix)                                                                                    \
    {#prefix, prefix##_check, prefix##_fresh, prefix##_day, prefix##_period, prefix##_why, prefix##_turc, \
     prefix##_jensen_haise, prefix##_grid_read, prefix##_grid_write, prefix##_grid_inches}
#define ENTRY(prefix) ENTRY_(prefix)
#define TEXT_ENTRY_(prefix) {#prefix, prefix##_text}
#define TEXT_ENTRY(prefix) TEXT_ENTRY_(prefix)
#define JOIN_(a, b) a##b
#define JOIN(a, b) JOIN_(a, b)

#ifdef THIRD
balance_check JOIN(THIRD, _check);
balance_fresh JOIN(THIRD, _fresh);
balance_day JOIN(THIRD, _day);
balance_period JOIN(THIRD, _period);
balance_why JOIN(THIRD, _why);
balance_turc JOIN(THIRD, _turc);
balance_jensen_haise JOIN(THIRD, _jensen_haise);
balance_grid_read JOIN(THIRD, _grid_read);
balance_grid_write JOIN(THIRD, _grid_write);
balance_grid_inches JOIN(THIRD, _grid_inches);
#endif
#ifdef THIRD_TEXT
balance_text JOIN(THIRD_TEXT, _text);
#endif

const struct implementation implementations[] = {
    ENTRY(plain),
    {"fast", fast_check, fast_fresh, fast_day, NULL, NULL, NULL, NULL, NULL, NULL, NULL},
#ifdef THIRD
    ENTRY(THIRD),
#endif
};
const size_t implementations_count = sizeof implementations / sizeof implementations[0];

const struct text_implementation texts[] = {
    TEXT_ENTRY(plain),
    TEXT_ENTRY(fast),
#ifdef THIRD_TEXT
    TEXT_ENTRY(THIRD_TEXT),
#endif
};
const size_t texts_count = sizeof texts / sizeof texts[0];
