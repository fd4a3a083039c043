/* The header for C declares the same calls as balance.h, and its structs are laid out as the library reads them: this file compiles only
 * where all of it agrees. */
#include "../include/recharge.h"

#include "balance.h"
#include "text.h"

balance_check recharge_check;
balance_fresh recharge_fresh;
balance_day recharge_day;
balance_period recharge_period;
balance_why recharge_why;
balance_turc recharge_turc;
balance_jensen_haise recharge_jensen_haise;
balance_grid_read recharge_grid_read;
balance_grid_write recharge_grid_write;
balance_grid_inches recharge_grid_inches;
balance_text recharge_text;

_Static_assert((int)RECHARGE_MAX_CELLS == (int)BALANCE_MAX_CELLS && (int)RECHARGE_MAX_COVERS == (int)BALANCE_MAX_COVERS, "limits");
_Static_assert((int)RECHARGE_ENTRY == (int)BALANCE_ENTRY && (int)RECHARGE_MEMORY == (int)BALANCE_MEMORY, "lengths");
_Static_assert((int)RECHARGE_TOTALS == (int)BALANCE_TOTALS && RECHARGE_NO_SERIAL == BALANCE_NO_SERIAL, "totals and none");
_Static_assert((int)RECHARGE_TEXT == (int)TEXT_ROOM, "room for a text");
_Static_assert((int)RECHARGE_FIRST_SETPOINT == (int)TEXT_FIRST_SETPOINT, "the program's first setpoint");
_Static_assert((int)RECHARGE_SECOND_SETPOINT == (int)TEXT_SECOND_SETPOINT, "the program's second setpoint");
_Static_assert(sizeof(struct recharge_cover) == RECHARGE_ENTRY * sizeof(uint32_t), "a cover is its numbers in a row");
_Static_assert(offsetof(struct recharge_cover, root_depth) == 12 * sizeof(uint32_t), "in the table's order");
/* Both are longer than 16 bytes, so that no processor's C hands them over in registers (native.sh). */
_Static_assert(sizeof(struct recharge_site) == 24 && sizeof(struct recharge_day_record) == 28, "by value");
_Static_assert((int)RECHARGE_DAY == (int)BALANCE_DAY && (int)RECHARGE_SUMS == (int)BALANCE_SUMS, "a day of a list, and a cell's sums");
_Static_assert((int)RECHARGE_REASON == (int)BALANCE_REASON, "a reason and its depths");
_Static_assert((int)RECHARGE_GRID_NUMBERS == (int)BALANCE_GRID_NUMBERS && (int)RECHARGE_MEASURE == (int)BALANCE_MEASURE, "a grid's header");
_Static_assert((int)RECHARGE_GRID_TEXT == (int)BALANCE_GRID_TEXT && (int)RECHARGE_INCHES_TEXT == (int)BALANCE_INCHES_TEXT, "room for a grid");
