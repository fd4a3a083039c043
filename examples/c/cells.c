/* What did each cell get? A text of the program `balance` in; each cell's recharge over all its days out, in inches, laid out as the grid is.
 *
 *     cells < TEXT
 *
 * A text that `balance` refuses is answered with that refusal on standard error, and status 1; a read or a write that fails is said there, with
 * status 2. `run.sh` builds and tries it. */
#include "recharge.h"

#include <stdio.h>
#include <stdlib.h>
#include <string.h>

enum { LONGEST = 65536 }; /* bytes of a text */

static unsigned char text[LONGEST + 2], said[RECHARGE_TEXT + 1];
static const char *at = (const char *)text;
static uint32_t covers[RECHARGE_MAX_COVERS * RECHARGE_ENTRY];
static uint32_t ground[4][RECHARGE_MAX_CELLS];  /* direction, cover, soil group, available water */
static uint32_t figures[7][RECHARGE_MAX_CELLS]; /* soil and snow, then the five results of a day */
static uint64_t recharge[RECHARGE_MAX_CELLS];

/* Does `balance` take the text? Its last line says so, and a refusal is passed on. So every number read below is there and within its limits. */
static int accepted(size_t length)
{
    size_t last = recharge_text(text, length, said, RECHARGE_TEXT) - 1;

    while (last > 0 && said[last - 1] != '\n')
        last--;
    if (said[last] == 'e') /* end N */
        return 1;
    fprintf(stderr, "cells: %s", (const char *)said + last);
    return 0;
}

static int failed(const char *what)
{
    perror(what);
    return 2;
}

static int32_t number(void)
{
    char *after;
    long n = strtol(at, &after, 10);

    at = after;
    return (int32_t)n;
}

static struct recharge_setup read_setup(void)
{
    struct recharge_setup s = {.covers = (const struct recharge_cover *)covers, .direction = ground[0], .cover = ground[1],
                               .group = ground[2], .water = ground[3]};

    s.site.width = (uint32_t)number(), s.site.height = (uint32_t)number();
    s.site.first_growing = (uint32_t)number(), s.site.last_growing = (uint32_t)number();
    s.site.first_setpoint = RECHARGE_FIRST_SETPOINT, s.site.second_setpoint = RECHARGE_SECOND_SETPOINT;
    s.covers_count = (size_t)number(), s.cells = s.site.width * s.site.height;
    for (size_t i = 0; i < s.covers_count * RECHARGE_ENTRY; i++)
        covers[i] = (uint32_t)number();
    for (size_t i = 0; i < 4 * s.cells; i++)
        ground[i % 4][i / 4] = (uint32_t)number();
    return s;
}

int main(void)
{
    size_t length = fread(text, 1, LONGEST + 1, stdin); /* one byte more, so that a longer text is refused as one */
    uint64_t totals[RECHARGE_TOTALS];
    int32_t d[7];

    if (ferror(stdin))
        return failed("cells: standard input");
    if (!accepted(length))
        return 1;
    const struct recharge_setup setup = read_setup();
    const struct recharge_results results = {figures[2], figures[3], figures[4], figures[5], figures[6], setup.cells};
    struct recharge_state state = {.soil = figures[0], .snow = figures[1], .cells = setup.cells};
    if (recharge_fresh_state(&setup, &state) != 0)
        return 1; /* cannot be, here and below: the text was taken */
    while (at[strspn(at, " \n")] != '\0') {
        for (int k = 0; k < 7; k++)
            d[k] = number();
        const struct recharge_day_record day = {(uint32_t)d[0], (uint32_t)d[1], (uint32_t)d[2], d[3], d[4], d[5], (uint32_t)d[6]};
        if (recharge_one_day(&setup, &state, &results, totals, day) != 0)
            return 1;
        for (size_t i = 0; i < setup.cells; i++)
            recharge[i] += results.recharged[i];
    }
    for (size_t i = 0; i < setup.cells; i++)
        printf("%.4f%c", (double)recharge[i] / 10000, (i + 1) % setup.site.width == 0 ? '\n' : ' ');
    return fflush(stdout) == 0 ? 0 : failed("cells: standard output");
}
