/* Arc ASCII grids (M-101), in document 02's words: whole numbers read and written, and recharge written in inches with
 * four decimals. Words are parted by spaces and line feeds as in `balance`, so that rows may break anywhere in what is
 * read. What is written has one form. */
#include "plain_setup.h"
#include "plain_text.h"

#include <string.h>

/* A corner or the cell size, kept as text. */
struct measure {
    uint8_t characters[BALANCE_MEASURE];
    uint32_t length;
};

struct header {
    uint32_t columns, rows;
    int32_t no_data;
    struct measure x_corner, y_corner, cell_size;
};

/* The number of the refusal is the request's; its place has to fit beside it. */
static uint64_t refused_at(size_t place)
{
    return refusal(12, place < UINT32_MAX ? place : UINT32_MAX);
}

/* ---------------------------------------------------------------- what a header may have */

/* As document 01's grid. */
static bool is_size(int64_t columns, int64_t rows)
{
    return columns >= 1 && rows >= 1 && columns <= BALANCE_MAX_CELLS / rows;
}

/* 1 to 20 characters: a leading minus allowed, digits, and one point allowed with a digit on each side. */
static bool is_measure(const uint8_t *characters, size_t length)
{
    size_t first = length > 0 && characters[0] == '-' ? 1 : 0, points = 0;

    if (length == first || length > BALANCE_MEASURE)
        return false;
    for (size_t i = first; i < length; i++) {
        if (characters[i] == '.') {
            if (i == first || i + 1 == length)
                return false;
            points++;
        } else if (!is_digit(characters[i])) {
            return false;
        }
    }
    return points <= 1;
}

/* What `balance` takes for a number: up to nine digits. */
static bool is_whole_number(int32_t number)
{
    return -999999999 <= number && number <= 999999999;
}

/* ---------------------------------------------------------------- reading */

/* A text, and how far it has been read. */
struct reading {
    const uint8_t *text;
    size_t length, at;
};

static uint8_t in_lower_case(uint8_t byte)
{
    return 'A' <= byte && byte <= 'Z' ? (uint8_t)(byte - 'A' + 'a') : byte;
}

/* The next word is this name, in either letter case. */
static bool read_name(struct reading *r, const char *name)
{
    size_t start;

    if (!next_word(r->text, r->length, &r->at, &start) || r->at - start != strlen(name))
        return false;
    for (size_t i = start; i < r->at; i++)
        if (in_lower_case(r->text[i]) != (uint8_t)name[i - start])
            return false;
    return true;
}

static bool read_number(struct reading *r, const char *name, int32_t *number)
{
    size_t start;

    return read_name(r, name) && next_word(r->text, r->length, &r->at, &start) &&
           plain_number(r->text + start, r->at - start, number);
}

static bool read_measure(struct reading *r, const char *name, struct measure *measure)
{
    size_t start;

    if (!read_name(r, name) || !next_word(r->text, r->length, &r->at, &start) ||
        !is_measure(r->text + start, r->at - start))
        return false;
    measure->length = (uint32_t)(r->at - start);
    memcpy(measure->characters, r->text + start, measure->length);
    return true;
}

/* The first twelve words. */
static bool read_header(struct reading *r, struct header *h)
{
    int32_t columns, rows;

    if (!read_number(r, "ncols", &columns) || !read_number(r, "nrows", &rows) ||
        !read_measure(r, "xllcorner", &h->x_corner) || !read_measure(r, "yllcorner", &h->y_corner) ||
        !read_measure(r, "cellsize", &h->cell_size) || !read_number(r, "nodata_value", &h->no_data) ||
        !is_size(columns, rows))
        return false;
    h->columns = (uint32_t)columns;
    h->rows = (uint32_t)rows;
    return true;
}

enum found { NO_CELL, BAD_CELL, GOOD_CELL };

/* The next word as a cell: a number, and not the no-data number. */
static enum found read_cell(struct reading *r, int32_t no_data, int32_t *cell)
{
    size_t start;

    if (!next_word(r->text, r->length, &r->at, &start))
        return NO_CELL;
    return plain_number(r->text + start, r->at - start, cell) && *cell != no_data ? GOOD_CELL : BAD_CELL;
}

/* Every word left is a cell, also beyond the last of the grid: how many are good, up to the first bad one. Are all? */
static bool count_cells(struct reading r, int32_t no_data, size_t *good)
{
    int32_t cell;

    for (*good = 0;; ++*good)
        switch (read_cell(&r, no_data, &cell)) {
        case NO_CELL: return true;
        case BAD_CELL: return false;
        case GOOD_CELL: break;
        }
}

uint64_t plain_grid_read(const uint8_t *text, size_t text_len, int32_t *cells, size_t cells_len,
                         uint32_t numbers[BALANCE_GRID_NUMBERS], int32_t *no_data, uint8_t x_corner[BALANCE_MEASURE],
                         uint8_t y_corner[BALANCE_MEASURE], uint8_t cell_size[BALANCE_MEASURE])
{
    const struct header none = {0};
    struct header h = none;
    struct reading r = {text, text_len, 0};
    uint64_t no = 0;
    size_t count;

    if (!read_header(&r, &h))
        no = refused_at(0);
    else if (!count_cells(r, h.no_data, &count))
        no = refused_at(count);
    else if (count != (size_t)h.columns * h.rows || cells_len < count)
        no = refused_at(0);
    else
        for (size_t i = 0; i < count; i++)
            read_cell(&r, h.no_data, &cells[i]);
    if (no != 0)
        h = none;
    const uint32_t told[BALANCE_GRID_NUMBERS] = {h.columns, h.rows, h.x_corner.length, h.y_corner.length, h.cell_size.length};
    memcpy(numbers, told, sizeof told);
    *no_data = h.no_data;
    memcpy(x_corner, h.x_corner.characters, BALANCE_MEASURE);
    memcpy(y_corner, h.y_corner.characters, BALANCE_MEASURE);
    memcpy(cell_size, h.cell_size.characters, BALANCE_MEASURE);
    return no;
}

/* ---------------------------------------------------------------- writing */

/* What is written of each cell: a whole number, or units; the other is NULL. */
struct figures {
    const int32_t *cells;
    const uint64_t *units;
    size_t count;
};

static struct measure measure_of(const uint8_t *characters, uint32_t length)
{
    struct measure measure = {.length = length};

    memcpy(measure.characters, characters, BALANCE_MEASURE);
    return measure;
}

static struct header header_of(BALANCE_HEADER_PARAMETERS)
{
    return (struct header){numbers[0], numbers[1], no_data, measure_of(x_corner, numbers[2]),
                           measure_of(y_corner, numbers[3]), measure_of(cell_size, numbers[4])};
}

static bool is_header(const struct header *h)
{
    return is_size(h->columns, h->rows) && is_measure(h->x_corner.characters, h->x_corner.length) &&
           is_measure(h->y_corner.characters, h->y_corner.length) &&
           is_measure(h->cell_size.characters, h->cell_size.length) && is_whole_number(h->no_data);
}

/* Is what would be written a number, and not equal in value to the no-data number? Any units are a number of inches. */
static bool is_good(const struct figures *f, size_t i, int32_t no_data)
{
    if (f->units != NULL)
        return no_data < 0 || f->units[i] != 10000 * (uint64_t)no_data;
    return is_whole_number(f->cells[i]) && f->cells[i] != no_data;
}

static void put_whole_number(struct output *o, int32_t number)
{
    if (number < 0)
        put_byte(o, '-');
    put_number(o, (uint64_t)(number < 0 ? -number : number));
}

static void put_inches(struct output *o, uint64_t units)
{
    put_number(o, units / 10000);
    put_byte(o, '.');
    for (uint64_t place = 1000; place > 0; place /= 10)
        put_byte(o, (char)('0' + units / place % 10));
}

static void put_name_and_number(struct output *o, const char *name, int32_t number)
{
    put_word(o, name);
    put_byte(o, ' ');
    put_whole_number(o, number);
    put_byte(o, '\n');
}

static void put_name_and_measure(struct output *o, const char *name, const struct measure *measure)
{
    put_word(o, name);
    put_byte(o, ' ');
    for (uint32_t i = 0; i < measure->length; i++)
        put_byte(o, (char)measure->characters[i]);
    put_byte(o, '\n');
}

/* The one written form. */
static void put_grid(struct output *o, const struct header *h, const struct figures *f)
{
    put_name_and_number(o, "ncols", (int32_t)h->columns);
    put_name_and_number(o, "nrows", (int32_t)h->rows);
    put_name_and_measure(o, "xllcorner", &h->x_corner);
    put_name_and_measure(o, "yllcorner", &h->y_corner);
    put_name_and_measure(o, "cellsize", &h->cell_size);
    put_name_and_number(o, "nodata_value", h->no_data);
    for (size_t i = 0; i < f->count; i++) {
        if (f->units != NULL)
            put_inches(o, f->units[i]);
        else
            put_whole_number(o, f->cells[i]);
        put_byte(o, (i + 1) % h->columns == 0 ? '\n' : ' ');
    }
}

static uint64_t write_grid(const struct header *h, const struct figures *f, uint8_t *text, size_t text_len, uint64_t *written)
{
    static unsigned char longest[BALANCE_INCHES_TEXT];
    struct output o = {longest, sizeof longest, 0};

    *written = 0;
    if (!is_header(h))
        return refused_at(0);
    for (size_t i = 0; i < f->count; i++)
        if (!is_good(f, i, h->no_data))
            return refused_at(i);
    if (f->count != (size_t)h->columns * h->rows)
        return refused_at(0);
    put_grid(&o, h, f);
    if (text_len < o.used)
        return refused_at(0);
    memcpy(text, longest, o.used);
    *written = o.used;
    return 0;
}

#define GIVEN_HEADER header_of(numbers, no_data, x_corner, y_corner, cell_size)

uint64_t plain_grid_write(BALANCE_HEADER_PARAMETERS, const int32_t *cells, size_t cells_len, uint8_t *text, size_t text_len,
                          uint64_t *written)
{
    const struct header h = GIVEN_HEADER;

    return write_grid(&h, &(struct figures){cells, NULL, cells_len}, text, text_len, written);
}

uint64_t plain_grid_inches(BALANCE_HEADER_PARAMETERS, const uint64_t *units, size_t units_len, uint8_t *text, size_t text_len,
                           uint64_t *written)
{
    const struct header h = GIVEN_HEADER;

    return write_grid(&h, &(struct figures){NULL, units, units_len}, text, text_len, written);
}
