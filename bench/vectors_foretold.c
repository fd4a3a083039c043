/* Vectors of one bare cell whose lines are foretold. */
#include "vectors_foretold.h"
#include "vectors.h"

#include <stdarg.h>
#include <stdio.h>
#include <stdlib.h>

enum { MOST_RECHARGE = 100000 }; /* more than sinks in on any of these days, so that what is gone is runoff */

void put_bare(int curve)
{
    put("1 1 120 270\n1\n"), put_cover(3, 0, curve, MOST_RECHARGE, 0, 0, 0), put("1 3 2 200\n");
}

void put_day(int serial, int day, int gross, int mean)
{
    put("%d %d %d %d %d %d 0\n", serial, day, gross, mean, mean, mean);
}

static char ends[20000];
static size_t ends_used;

void foretell(const char *format, ...)
{
    va_list arguments;

    va_start(arguments, format);
    int n = vsnprintf(ends + ends_used, sizeof ends - ends_used, format, arguments);
    va_end(arguments);
    if (n < 0 || ends_used + (size_t)n >= sizeof ends)
        exit(2);
    ends_used += (size_t)n;
}

void foretell_day(int serial, int gross, int w, int gone, int snow)
{
    foretell("%d %d 0 0 %d 0 %d %d\n", serial, gross, w - gone, gone, snow);
}

void foretold_vector(const char *name, int days, const char *reason)
{
    foretell("end %d", days);
    vector(name, ends, reason);
    ends_used = 0;
}
