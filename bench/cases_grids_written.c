/* Arc grids to be written (M-101), and the text that must come out. */
#include "cases_parts.h"

#include <stdio.h>
#include <string.h>

const char *const arc_written_names[ARC_W_KINDS] = {
    "a size outside", "a length of a text outside", "a bad text", "bytes behind a text", "a text cut by its length", "a no-data number outside",
    "at its limit", "a cell outside", "at its limit", "a no-data cell", "one beside it", "one that wraps round to it", "two bad cells",
    "a bad cell beyond the last", "a cell less", "a cell more", "a buffer shorter by one", "exact", "longer"};

enum { COLUMNS, ROWS, LENGTHS };
enum { LIMIT = 999999999 };

static size_t wanted_cells(const struct arc_written *w)
{
    return (size_t)w->header.numbers[COLUMNS] * w->header.numbers[ROWS];
}

/* ---------------------------------------------------------------- good ones */

/* Every number of digits alike, ends of 64 bits, and whole inches. */
static uint64_t some_units(void)
{
    const uint64_t zeros = below(64); /* in front */

    switch (below(4)) {
    case 0: return below(20000);
    case 1: return 10000 * below(100);
    case 2: return random_bits() >> zeros;
    default: return edgy(0, UINT64_MAX - 1);
    }
}

/* The depth of the no-data number in inches; 0 where it has none. */
static uint64_t no_data_units(const struct arc_written *w)
{
    return w->header.no_data > 0 ? 10000 * (uint64_t)w->header.no_data : 0;
}

static void set_good(struct arc_written *w, size_t i)
{
    w->units[i] = some_units();
    if (w->header.no_data >= 0 && w->units[i] == no_data_units(w))
        w->units[i]++;
    w->cells[i] = (int32_t)between_signed(-20, 300);
    if (w->cells[i] == w->header.no_data)
        w->cells[i]++;
}

/* Another no-data number, and no cell that is it. */
static void set_no_data(struct arc_written *w, int32_t no_data)
{
    w->header.no_data = no_data;
    for (size_t i = 0; i < w->facts.cells; i++)
        if (w->cells[i] == no_data || (no_data >= 0 && w->units[i] == no_data_units(w)))
            set_good(w, i);
}

void make_written(struct arc_written *w, const struct arc_case *c, bool inches)
{
    w->header = c->header;
    w->inches = inches;
    w->facts = (struct arc_facts){.bad_cell = ARC_NONE, .cells = c->facts.cells};
    memcpy(w->cells, c->cells, c->facts.cells * sizeof c->cells[0]);
    for (size_t i = 0; inches && i < c->facts.cells; i++)
        set_good(w, i);
}

/* Columns and rows of five digits together, and every number as long as can be. */
void make_longest(struct arc_written *w, bool inches)
{
    static const uint32_t columns[] = {1, 2, 4, 16, 32, 128, 256, 1024, 2048, 4096};
    char text[ARC_WORD];

    w->inches = inches;
    w->facts = (struct arc_facts){.bad_cell = ARC_NONE, .cells = BALANCE_MAX_CELLS};
    w->header.numbers[COLUMNS] = ONE_OF(columns);
    w->header.numbers[ROWS] = BALANCE_MAX_CELLS / w->header.numbers[COLUMNS];
    w->header.no_data = 1 - LIMIT;
    for (int k = 0; k < ARC_MEASURES; k++) {
        make_measure(text, BALANCE_MEASURE);
        memcpy(w->header.measure[k], text, BALANCE_MEASURE);
        w->header.numbers[LENGTHS + k] = BALANCE_MEASURE;
    }
    for (size_t i = 0; i < BALANCE_MAX_CELLS; i++) {
        w->cells[i] = -LIMIT;
        w->units[i] = UINT64_MAX - below(10000);
    }
}

uint64_t written_returns(const struct arc_written *w, size_t length)
{
    if (w->facts.bad_header)
        return refusal(12, 0);
    if (w->facts.bad_cell != ARC_NONE)
        return refusal(12, w->facts.bad_cell);
    return w->facts.cells == wanted_cells(w) && w->facts.lent >= length ? 0 : refusal(12, 0);
}

static size_t put_measure(char *at, const char *name, const struct arc_header *h, int which)
{
    return (size_t)sprintf(at, "%s %.*s\n", name, (int)h->numbers[LENGTHS + which], (const char *)h->measure[which]);
}

size_t arc_one_form(const struct arc_written *w, uint8_t *bytes)
{
    const struct arc_header *h = &w->header;
    char *const text = (char *)bytes;
    size_t n = (size_t)sprintf(text, "ncols %u\nnrows %u\n", (unsigned)h->numbers[COLUMNS], (unsigned)h->numbers[ROWS]);

    n += put_measure(text + n, "xllcorner", h, 0);
    n += put_measure(text + n, "yllcorner", h, 1);
    n += put_measure(text + n, "cellsize", h, 2);
    n += (size_t)sprintf(text + n, "nodata_value %ld\n", (long)h->no_data);
    for (size_t i = 0; i < w->facts.cells; i++) {
        const unsigned long long whole = w->units[i] / 10000, rest = w->units[i] % 10000;

        n += (size_t)(w->inches ? sprintf(text + n, "%llu.%04llu", whole, rest) : sprintf(text + n, "%ld", (long)w->cells[i]));
        bytes[n++] = (i + 1) % h->numbers[COLUMNS] == 0 ? '\n' : ' ';
    }
    return n;
}

/* ---------------------------------------------------------------- odd headers */

/* With as many cells as a product of 32 bits would ask for. */
static void spoil_size(struct arc_written *w)
{
    static const struct {
        uint32_t columns, rows;
        size_t cells;
    } sizes[] = {
        {0, 1, 0}, {1, 0, 0}, {0, 0, 0}, {4097, 1, 4097}, {1, 4097, 4097}, {17, 241, 4097}, {65, 64, 1}, {641, 6700417, 1},
        {6700417, 641, 1}, {858993460, 5, 4}, {65536, 65536, 0}, {UINT32_MAX, UINT32_MAX, 1}, {UINT32_MAX, 1, 1}, {1, UINT32_MAX, 1},
        {(uint32_t)1 << 31, 2, 0}, {((uint32_t)1 << 31) + 1, 2, 2}, {UINT32_MAX, 0, 0},
    };
    const size_t which = below(COUNT(sizes));

    arc_meet(&w->facts, ARC_W_SIZE);
    w->facts.bad_header = true;
    w->header.numbers[COLUMNS] = sizes[which].columns;
    w->header.numbers[ROWS] = sizes[which].rows;
    w->facts.cells = sizes[which].cells;
    for (size_t i = 0; i < w->facts.cells; i++)
        set_good(w, i);
}

/* A length that no text has; some of them have one in their low bits. */
static void spoil_length(struct arc_written *w)
{
    uint32_t *length = &w->header.numbers[LENGTHS + below(ARC_MEASURES)];
    const uint32_t lengths[] = {0, 21, 22, 32, 255, 256 + *length, 65536 + *length, ((uint32_t)1 << 31) + *length, UINT32_MAX, -*length};

    arc_meet(&w->facts, ARC_W_LENGTH);
    w->facts.bad_header = true;
    *length = ONE_OF(lengths);
}

static void spoil_measure(struct arc_written *w)
{
    const uint64_t which = below(ARC_MEASURES);
    const char *bad = bad_measure();

    arc_meet(&w->facts, ARC_W_MEASURE);
    w->facts.bad_header = true;
    w->header.numbers[LENGTHS + which] = (uint32_t)strlen(bad);
    memcpy(w->header.measure[which], bad, strlen(bad));
}

/* What lies behind a text's length is not looked at. */
static void fill_behind(struct arc_written *w)
{
    arc_meet(&w->facts, ARC_W_BEHIND);
    for (int k = 0; k < ARC_MEASURES; k++)
        for (uint32_t i = w->header.numbers[LENGTHS + k]; i < BALANCE_MEASURE; i++)
            w->header.measure[k][i] = (uint8_t)random_bits();
}

/* A shorter text of a good one is good where it ends in a digit. */
static void cut_measure(struct arc_written *w)
{
    const uint64_t which = below(ARC_MEASURES);
    uint32_t *length = &w->header.numbers[LENGTHS + which];

    arc_meet(&w->facts, ARC_W_CUT);
    *length = (uint32_t)between(1, *length);
    const uint8_t last = w->header.measure[which][*length - 1];
    if (last < '0' || last > '9')
        w->facts.bad_header = true;
}

static void spoil_no_data(struct arc_written *w)
{
    static const int32_t outside[] = {LIMIT + 1, -LIMIT - 1, INT32_MAX, INT32_MIN, INT32_MIN + 1, 2 * (LIMIT + 1)};

    arc_meet(&w->facts, ARC_W_NO_DATA);
    w->facts.bad_header = true;
    w->header.no_data = ONE_OF(outside);
}

static void no_data_at_limit(struct arc_written *w)
{
    arc_meet(&w->facts, ARC_W_NO_DATA_LIMIT);
    set_no_data(w, chance(50) ? LIMIT : -LIMIT);
}

/* ---------------------------------------------------------------- odd cells */

/* Of units none is bad where the no-data number is below 0, and none is outside. */
static void spoil_cell(struct arc_written *w, size_t at)
{
    static const int32_t outside[] = {LIMIT + 1, -LIMIT - 1, INT32_MAX, INT32_MIN, 2 * (LIMIT + 1), -2 * (LIMIT + 1)};

    if (w->inches && w->header.no_data < 0 && !w->facts.bad_header)
        set_no_data(w, (int32_t)edgy(0, LIMIT));
    if (w->inches || chance(50)) {
        arc_meet(&w->facts, ARC_W_NO_DATA_CELL);
        w->units[at] = no_data_units(w);
        w->cells[at] = w->header.no_data;
    } else {
        arc_meet(&w->facts, ARC_W_OUTSIDE);
        w->cells[at] = ONE_OF(outside);
    }
    arc_bad_at(&w->facts, at);
}

static void spoil_cells(struct arc_written *w)
{
    const size_t cells = w->facts.cells;

    if (cells == 0)
        return;
    const size_t first = below(cells);
    spoil_cell(w, first);
    if (cells > 1 && chance(30)) {
        arc_meet(&w->facts, ARC_W_TWO_BAD);
        spoil_cell(w, (first + between(1, cells - 1)) % cells);
    }
}

/* The ends of what may be written, and what is near the no-data number: all good. */
static void odd_cell(struct arc_written *w)
{
    const size_t at = below(w->facts.cells);
    const int32_t no_data = w->header.no_data, near = (int32_t)between_signed(-1, 1), limit = chance(50) ? LIMIT : -LIMIT;
    const uint64_t depth = no_data_units(w);

    if (w->facts.bad_header)
        return;
    if (chance(50)) {
        arc_meet(&w->facts, ARC_W_LIMIT);
        w->units[at] = UINT64_MAX;
        w->cells[at] = limit != no_data ? limit : -limit;
        return;
    }
    const uint64_t beside[] = {depth + 1, depth > 0 ? depth - 1 : 1, depth + 10000, depth / 10000 + (no_data <= 0)};
    arc_meet(&w->facts, ARC_W_NEAR);
    w->units[at] = ONE_OF(beside);
    w->cells[at] = no_data + near;
    if (near == 0 || w->cells[at] > LIMIT || w->cells[at] < -LIMIT)
        w->cells[at] = no_data == 0 ? 10000 : -no_data;
}

/* Depths that are 10,000 times the no-data number in fewer bits, or without its sign. */
static void wrapped_units(struct arc_written *w)
{
    const size_t at = below(w->facts.cells);
    const int64_t depth = 10000 * (int64_t)w->header.no_data;
    const uint64_t twos = (uint64_t)depth;
    const uint64_t wrapped[] = {twos & UINT32_MAX, twos + ((uint64_t)1 << 32), twos ^ (uint64_t)1 << 63, -twos,
                                10000 * (uint64_t)(uint32_t)w->header.no_data, twos};
    const uint64_t units = ONE_OF(wrapped);

    if (!w->inches || (depth >= 0 && units == twos))
        return;
    arc_meet(&w->facts, ARC_W_WRAPPED);
    w->units[at] = units;
}

static void add_cells(struct arc_written *w)
{
    const size_t last = w->facts.cells, more = chance(60) ? 1 : between(1, 6);

    if (last + more > ARC_CELLS)
        return;
    if (more == 1)
        arc_meet(&w->facts, ARC_W_ONE_MORE);
    w->facts.cells += more;
    for (size_t i = last; i < w->facts.cells; i++)
        set_good(w, i);
    if (chance(50)) {
        arc_meet(&w->facts, ARC_W_BEYOND);
        spoil_cell(w, between(last, w->facts.cells - 1));
    }
}

static void take_cell(struct arc_written *w)
{
    arc_meet(&w->facts, ARC_W_ONE_LESS);
    w->facts.cells--;
}

void damage_written(struct arc_written *w)
{
    static void (*const of_header[])(struct arc_written *) = {
        spoil_size, spoil_length, spoil_length, spoil_measure, spoil_measure, fill_behind, cut_measure, spoil_no_data, no_data_at_limit};
    static void (*const of_cells[])(struct arc_written *) = {spoil_cells, spoil_cells, odd_cell, wrapped_units, add_cells, take_cell};
    const bool header = chance(50);

    if (header)
        ONE_OF(of_header)(w);
    if (w->facts.cells > 0 && (!header || chance(25)))
        ONE_OF(of_cells)(w);
}

void lend_written(struct arc_written *w, size_t length)
{
    switch (below(5)) {
    case 0: arc_meet(&w->facts, ARC_W_SHORT); w->facts.lent = length - 1; break;
    case 1: arc_meet(&w->facts, ARC_W_LONGER); w->facts.lent = length + between(1, 20); break;
    case 2: w->facts.lent = below(length); break;
    default: arc_meet(&w->facts, ARC_W_EXACT); w->facts.lent = length;
    }
}
