/* M-101's figures, worked by hand: texts of Arc grids and what comes of them, by every implementation that has
 * the calls; then the header's calls by structs, which here hand over to the plain C. */
#define recharge_grid_read plain_grid_read
#define recharge_grid_write plain_grid_write
#define recharge_grid_inches plain_grid_inches
#include "figures.h"

#include <string.h>

#define COUNT(array) (sizeof(array) / sizeof(array)[0])

/* What an answer stands as among the figures: a refusal 12 by its place, which leaves everything alone; an answer
 * that is as wanted; any other. */
enum { AS_WANTED = 0, REFUSED_AT = 12000000, OTHERWISE = -1 };

enum { CELLS = 16, ROOM = 400 };

/* ---------------------------------------------------------------- read */

#define HEAD "ncols 2\nnrows 2\nxllcorner 0\nyllcorner 0\ncellsize 30\nnodata_value -9999\n"
#define SIZED(columns, rows) "ncols " columns " nrows " rows " xllcorner 0 yllcorner 0 cellsize 30 nodata_value -9999 "
#define MEASURED(x) "ncols 1\nnrows 1\nxllcorner " x "\nyllcorner 0\ncellsize 30\nnodata_value -9999\n1\n"
#define NO_DATA(number) "ncols 1\nnrows 1\nxllcorner 0\nyllcorner 0\ncellsize 30\nnodata_value " number "\n1\n"
#define TAKEN HEAD "1 2\n4 8\n"

/* The form that it is written in afterwards; NULL of one that is refused at the place. */
static const struct {
    const char *what, *text, *form;
    int64_t place;
} reads[] = {
    {"the one form", TAKEN, TAKEN, 0},
    {"upper case, one line, no line feed",
     "NCOLS 2 NROWS 2 XLLCORNER 0 YLLCORNER 0 CELLSIZE 30 NODATA_VALUE -9999 1 2 4 8", TAKEN, 0},
    {"mixed case, blanks and broken rows",
     "\n nCols  2\nnRows\n\n2 xllCorner 0\nYllcorner 0\ncellSize   30 NoData_Value -9999\n\n1\n2 4 \n8 \n ", TAKEN, 0},
    {"two rows of three, each word on a line",
     "ncols\n3\nnrows\n2\nxllcorner\n0\nyllcorner\n0\ncellsize\n30\nnodata_value\n-9999\n1\n2\n3\n4\n5\n6\n",
     "ncols 3\nnrows 2\nxllcorner 0\nyllcorner 0\ncellsize 30\nnodata_value -9999\n1 2 3\n4 5 6\n", 0},
    {"a corner of 20 characters", MEASURED("12345678901234567890"), MEASURED("12345678901234567890"), 0},
    {"a corner of 20 with minus and point", MEASURED("-123456789.123456789"), MEASURED("-123456789.123456789"), 0},
    {"a corner with leading zeros", MEASURED("007.50"), MEASURED("007.50"), 0},
    {"a corner of minus zero", MEASURED("-0"), MEASURED("-0"), 0},
    {"a no-data number at its limit", NO_DATA("-999999999"), NO_DATA("-999999999"), 0},
    {"no text", "", NULL, 0},
    {"blanks alone", " \n \n", NULL, 0},
    {"a header without cells", HEAD, NULL, 0},
    {"a corner of 21 characters", MEASURED("123456789012345678901"), NULL, 0},
    {"a corner of .5", MEASURED(".5"), NULL, 0},
    {"a corner of 5.", MEASURED("5."), NULL, 0},
    {"a corner of -.5", MEASURED("-.5"), NULL, 0},
    {"a corner of -", MEASURED("-"), NULL, 0},
    {"a corner of --1", MEASURED("--1"), NULL, 0},
    {"a corner of +1", MEASURED("+1"), NULL, 0},
    {"a corner of 1e5", MEASURED("1e5"), NULL, 0},
    {"a corner of 1.2.3", MEASURED("1.2.3"), NULL, 0},
    {"a no-data number of minus zero", NO_DATA("-0"), NULL, 0},
    {"a no-data number of ten digits", NO_DATA("1000000000"), NULL, 0},
    {"a no-data number with a point", NO_DATA("-9999.0"), NULL, 0},
    {"no columns", SIZED("0", "1"), NULL, 0},
    {"columns and rows below 0", SIZED("-1", "-1") "1", NULL, 0},
    {"4,097 columns", SIZED("4097", "1") "1", NULL, 0},
    {"641 x 6,700,417 cells, 1 in 32 bits", SIZED("641", "6700417") "1", NULL, 0},
    {"columns of ten digits, 1 in 32 bits", SIZED("4294967297", "1") "1", NULL, 0},
    {"columns with a leading zero", SIZED("01", "1") "1", NULL, 0},
    {"columns with a carriage return", "ncols 1\r\nnrows 1\r\nxllcorner 0\r\nyllcorner 0\r\ncellsize 1\r\nnodata_value 0\r\n1\r\n", NULL, 0},
    {"rows before columns", "nrows 1 ncols 1 xllcorner 0 yllcorner 0 cellsize 1 nodata_value 0 1", NULL, 0},
    {"the corner of a center", "ncols 1 nrows 1 xllcenter 0 yllcenter 0 cellsize 1 nodata_value 0 1", NULL, 0},
    {"a byte 127 in place of _", "ncols 1 nrows 1 xllcorner 0 yllcorner 0 cellsize 1 nodata\x7f" "value 0 1", NULL, 0},
    {"no no-data number", "ncols 1 nrows 1 xllcorner 0 yllcorner 0 cellsize 1 1", NULL, 0},
    {"a bad header before a bad cell", SIZED("0", "1") "1 x", NULL, 0},
    {"a no-data cell", HEAD "1 2\n4 -9999\n", NULL, 3},
    {"a no-data cell of 0", "ncols 2 nrows 1 xllcorner 0 yllcorner 0 cellsize 1 nodata_value 0 1 0", NULL, 1},
    {"a cell with a point", HEAD "1 2.0\n4 8\n", NULL, 1},
    {"a cell of ten digits", HEAD "1 2\n1000000000 8\n", NULL, 2},
    {"a cell of minus zero", HEAD "1 -0\n4 8\n", NULL, 1},
    {"a cell with a leading zero", HEAD "1 02\n4 8\n", NULL, 1},
    {"a cell with a plus", HEAD "1 2\n4 +8\n", NULL, 3},
    {"cells parted by tabs", HEAD "1 2\n4\t8\n", NULL, 2},
    {"a carriage return behind a row", HEAD "1 2\r\n4 8\r\n", NULL, 1},
    {"two bad cells", HEAD "1 x\n-9999 8\n", NULL, 1},
    {"a bad cell beyond the last", HEAD "1 2\n4 8\n1 x", NULL, 5},
    {"a no-data cell beyond the last", HEAD "1 2\n4 8\n-9999", NULL, 4},
    {"a bad cell before the count", HEAD "1 x", NULL, 1},
    {"a cell less", HEAD "1 2\n4\n", NULL, 0},
    {"a cell more", HEAD "1 2\n4 8\n16\n", NULL, 0},
};

struct header {
    uint32_t numbers[BALANCE_GRID_NUMBERS];
    int32_t no_data;
    uint8_t x_corner[BALANCE_MEASURE], y_corner[BALANCE_MEASURE], cell_size[BALANCE_MEASURE];
};

static bool all_are(const void *bytes, size_t count, uint8_t byte)
{
    for (size_t i = 0; i < count; i++)
        if (((const uint8_t *)bytes)[i] != byte)
            return false;
    return true;
}

/* Reads a text into so many cells, which it finds filled. Refused, it may change none, and leaves no header. */
static int64_t read_figure(const struct implementation *x, const char *text, struct header *h, int32_t *cells, size_t lent)
{
    memset(h, 0xa5, sizeof *h);
    memset(cells, 0xa5, CELLS * sizeof cells[0]);
    const uint64_t returned = x->grid_read((const uint8_t *)text, strlen(text), cells, lent, h->numbers, &h->no_data, h->x_corner,
                                           h->y_corner, h->cell_size);

    if (returned == 0)
        return AS_WANTED;
    return returned >> 32 == 12 && all_are(h, sizeof *h, 0) && all_are(cells, CELLS * sizeof cells[0], 0xa5)
               ? REFUSED_AT + (int64_t)(returned & UINT32_MAX)
               : OTHERWISE;
}

/* Writes it again into so many bytes. Refused, it may change none, and tells none. */
static int64_t write_figure(const struct implementation *x, const struct header *h, const int32_t *cells, const uint64_t *units, size_t count,
                            size_t room, const char *form)
{
    uint8_t text[ROOM];
    uint64_t told = UINT64_MAX, returned;

    memset(text, 0xa5, sizeof text);
    if (units != NULL)
        returned = x->grid_inches(h->numbers, h->no_data, h->x_corner, h->y_corner, h->cell_size, units, count, text, room, &told);
    else
        returned = x->grid_write(h->numbers, h->no_data, h->x_corner, h->y_corner, h->cell_size, cells, count, text, room, &told);
    if (returned != 0)
        return returned >> 32 == 12 && told == 0 && all_are(text, sizeof text, 0xa5) ? REFUSED_AT + (int64_t)(returned & UINT32_MAX) : OTHERWISE;
    return form != NULL && told == strlen(form) && memcmp(text, form, told) == 0 && all_are(text + told, sizeof text - told, 0xa5) ? AS_WANTED
                                                                                                                                  : OTHERWISE;
}

static void read_texts(const struct implementation *x)
{
    struct header h;
    int32_t cells[CELLS];

    for (size_t i = 0; i < COUNT(reads); i++) {
        int64_t found = read_figure(x, reads[i].text, &h, cells, CELLS);
        if (found == AS_WANTED && write_figure(x, &h, cells, NULL, (size_t)h.numbers[0] * h.numbers[1], ROOM, reads[i].form) != AS_WANTED)
            found = OTHERWISE;
        figure(x->name, reads[i].what, found, reads[i].form != NULL ? AS_WANTED : REFUSED_AT + reads[i].place);
    }
    figure(x->name, "four cells into three", read_figure(x, TAKEN, &h, cells, 3), REFUSED_AT);
    figure(x->name, "four cells into four", read_figure(x, TAKEN, &h, cells, 4), AS_WANTED);
    figure(x->name, "  the fourth", cells[3], 8);
    figure(x->name, "  the one behind it", cells[4], (int32_t)0xa5a5a5a5);
    figure(x->name, "  the corner's length", h.numbers[2], 1);
    figure(x->name, "  the cell size's length", h.numbers[4], 2);
    figure(x->name, "  the cell size, and zeros behind it", memcmp(h.cell_size, "30", 2) == 0 && all_are(h.cell_size + 2, 18, 0), 1);
    figure(x->name, "  the no-data number", h.no_data, -9999);
}

/* ---------------------------------------------------------------- written */

#define ONE_CELL "ncols 1\nnrows 1\nxllcorner 0\nyllcorner 0\ncellsize 1\nnodata_value "

/* One cell, of a whole number or of units, and its form; NULL of one that is refused, at 0. The form of 5 has 8 + 8 +
 * 12 + 12 + 11 + 15 + 2 bytes, 68 together. */
static const struct {
    const char *what;
    int32_t no_data, cell;
    const char *form;
} whole_numbers[] = {
    {"5 written", 0, 5, ONE_CELL "0\n5\n"},
    {"the least written", 999999999, -999999999, ONE_CELL "999999999\n-999999999\n"},
    {"the greatest written", -999999999, 999999999, ONE_CELL "-999999999\n999999999\n"},
    {"a cell past the greatest", 0, 1000000000, NULL},
    {"a cell below the least", 0, -1000000000, NULL},
    {"the least of 32 bits", 0, INT32_MIN, NULL},
    {"a no-data cell written", -9999, -9999, NULL},
    {"a no-data number past the greatest", 1000000000, 5, NULL},
    {"a no-data number below the least", -1000000000, 5, NULL},
};
static const struct {
    const char *what;
    int32_t no_data;
    uint64_t units;
    const char *form;
} inches[] = {
    {"12,345 units", -9999, 12345, ONE_CELL "-9999\n1.2345\n"},
    {"7 units", -9999, 7, ONE_CELL "-9999\n0.0007\n"},
    {"0 units", -9999, 0, ONE_CELL "-9999\n0.0000\n"},
    {"10,000 units", -9999, 10000, ONE_CELL "-9999\n1.0000\n"},
    {"100,050 units", -9999, 100050, ONE_CELL "-9999\n10.0050\n"},
    {"the most units", -9999, UINT64_MAX, ONE_CELL "-9999\n1844674407370955.1615\n"},
    {"99,990,000 units, beside -9999", -9999, 99990000, ONE_CELL "-9999\n9999.0000\n"},
    {"-99,990,000 in 64 bits, beside -9999", -9999, (uint64_t)-99990000, ONE_CELL "-9999\n1844674407360956.1616\n"},
    {"0 units, beside 0", 0, 0, NULL},
    {"50,000 units, beside 5", 5, 50000, NULL},
    {"49,999 units, beside 5", 5, 49999, ONE_CELL "5\n4.9999\n"},
    {"50,001 units, beside 5", 5, 50001, ONE_CELL "5\n5.0001\n"},
    {"5 units, beside 5", 5, 5, ONE_CELL "5\n0.0005\n"},
    {"9,999,999,990,000 units, beside 999,999,999", 999999999, 9999999990000, NULL},
    {"the same in 32 bits", 999999999, 1316124912, ONE_CELL "999999999\n131612.4912\n"},
};

static void writes(const struct implementation *x)
{
    struct header h = {{1, 1, 1, 1, 1}, 0, "0", "0", "1"};
    const int32_t five[] = {5, 5}, five_and_none[] = {5, 0};
    const char *form = ONE_CELL "0\n5\n";

    for (size_t i = 0; i < COUNT(whole_numbers); i++) {
        h.no_data = whole_numbers[i].no_data;
        figure(x->name, whole_numbers[i].what, write_figure(x, &h, &whole_numbers[i].cell, NULL, 1, ROOM, whole_numbers[i].form),
               whole_numbers[i].form != NULL ? AS_WANTED : REFUSED_AT);
    }
    for (size_t i = 0; i < COUNT(inches); i++) {
        h.no_data = inches[i].no_data;
        figure(x->name, inches[i].what, write_figure(x, &h, NULL, &inches[i].units, 1, ROOM, inches[i].form),
               inches[i].form != NULL ? AS_WANTED : REFUSED_AT);
    }
    h.no_data = 0;
    figure(x->name, "68 bytes into 68", write_figure(x, &h, five, NULL, 1, 68, form), AS_WANTED);
    figure(x->name, "68 bytes into 67", write_figure(x, &h, five, NULL, 1, 67, form), REFUSED_AT);
    figure(x->name, "two cells of one", write_figure(x, &h, five, NULL, 2, ROOM, form), REFUSED_AT);
    figure(x->name, "two cells of one, the second no-data", write_figure(x, &h, five_and_none, NULL, 2, ROOM, form), REFUSED_AT + 1);
    figure(x->name, "no cells of one", write_figure(x, &h, five, NULL, 0, ROOM, form), REFUSED_AT);
}

/* A header with one number or one text other than in a good one. */
static void headers(const struct implementation *x)
{
    static const struct {
        const char *what;
        uint32_t numbers[BALANCE_GRID_NUMBERS];
        const char *x_corner;
        int64_t wanted;
    } odd[] = {
        {"a header as it should be", {1, 1, 1, 1, 1}, "0", AS_WANTED},
        {"bytes behind a text", {1, 1, 1, 1, 1}, "0x.-", AS_WANTED},
        {"no columns to write", {0, 1, 1, 1, 1}, "0", REFUSED_AT},
        {"641 x 6,700,417 to write", {641, 6700417, 1, 1, 1}, "0", REFUSED_AT},
        {"65,536 x 65,536 to write", {65536, 65536, 1, 1, 1}, "0", REFUSED_AT},
        {"4,097 rows to write", {1, 4097, 1, 1, 1}, "0", REFUSED_AT},
        {"a text of no characters", {1, 1, 0, 1, 1}, "0", REFUSED_AT},
        {"a text of 21 characters", {1, 1, 21, 1, 1}, "01234567890123456789", REFUSED_AT},
        {"a text of 257 characters", {1, 1, 257, 1, 1}, "0", REFUSED_AT},
        {"a text with a point at its end", {1, 1, 2, 1, 1}, "0.5", REFUSED_AT},
        {"a text with a zero byte", {1, 1, 2, 1, 1}, "0", REFUSED_AT},
        {"a cell size of 20, of which 1 is good", {1, 1, 1, 1, 20}, "0", REFUSED_AT},
    };
    const int32_t five = 5;

    for (size_t i = 0; i < COUNT(odd); i++) {
        struct header h = {.no_data = 0, .y_corner = "0", .cell_size = "1"};
        memcpy(h.numbers, odd[i].numbers, sizeof h.numbers);
        memcpy(h.x_corner, odd[i].x_corner, strlen(odd[i].x_corner));
        figure(x->name, odd[i].what, write_figure(x, &h, &five, NULL, 1, ROOM, ONE_CELL "0\n5\n"), odd[i].wanted);
    }
}

void grid_texts(const struct implementation *x)
{
    if (x->grid_read == NULL)
        return;
    read_texts(x);
    writes(x);
    headers(x);
}

/* ---------------------------------------------------------------- by structs */

void grid_structs(void)
{
    static const char *const name = "struct";
    static const char text[] = MEASURED("-123456789.123456789");
    struct recharge_grid_header h;
    uint8_t out[ROOM];
    int32_t cell = 7;
    const uint64_t units = 12345;
    uint64_t told;

    memset(&h, 0xa5, sizeof h);
    figure(name, "read", (int64_t)recharge_read_grid((const uint8_t *)text, sizeof text - 1, &cell, 1, &h), 0);
    figure(name, "  columns and rows", h.columns * 10 + h.rows, 11);
    figure(name, "  the no-data number", h.no_data, -9999);
    figure(name, "  20 characters and a zero behind them", strcmp(h.x_corner, "-123456789.123456789"), 0);
    figure(name, "  the cell size", strcmp(h.cell_size, "30"), 0);
    figure(name, "written", (int64_t)recharge_write_grid(&h, &cell, 1, out, sizeof out, &told), 0);
    figure(name, "  as it was read", told == sizeof text - 1 && memcmp(out, text, told) == 0, 1);
    figure(name, "in inches", (int64_t)recharge_write_inches(&h, &units, 1, out, sizeof out, &told), 0);
    figure(name, "  five bytes more", told == sizeof text - 1 + 5 && memcmp(out + told - 7, "1.2345\n", 7) == 0, 1);
    memset(h.y_corner, '5', sizeof h.y_corner);
    figure(name, "a text without a zero byte", RECHARGE_NUMBER(recharge_write_grid(&h, &cell, 1, out, sizeof out, &told)), 12);
    figure(name, "  bytes told", (int64_t)told, 0);
    figure(name, "refused", RECHARGE_NUMBER(recharge_read_grid((const uint8_t *)text, 10, &cell, 1, &h)), 12);
    figure(name, "  no columns, rows or no-data number", h.columns | h.rows | (uint32_t)h.no_data, 0);
    figure(name, "  no texts", all_are(h.x_corner, sizeof h.x_corner, 0) && all_are(h.y_corner, sizeof h.y_corner, 0) &&
                                   all_are(h.cell_size, sizeof h.cell_size, 0), 1);
    figure(name, "  the cell as it was", cell, 1);
}
