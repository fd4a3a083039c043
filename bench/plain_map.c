/* The map of a year's sheet, recharge.svg, as plainly as it can be said: one square a cell, coloured by what recharged there.
 *
 * Layout. A panel stands on the left, where it is seen first however long the map is: the title, the period, the grid's size
 * and the legend, with a count of the cells behind each of its entries. The map stands to its right, with the columns' numbers
 * above it and the rows' to its left, both from 1, and once more on the other side where that is 400 pixels away or more.
 *
 * Classes. Open water has no recharge and a colour of its own; all else is land, and only land has classes. Their limits are
 * whole multiples of a step, the first class being that of the least recharge. The step is the smallest of 1, 2, 2.5 and 5 times
 * a power of ten, from 0.01 inch on, in which rain gauges are read, with which eight classes hold all land but for closed
 * depressions and one cell in fifty: a few cells that all water runs to may not take the colours from all others. Where cells
 * are past the eighth class it has them too, and no upper limit. There are as many classes as are needed for the most. A class
 * has its lower limit and not its upper one. Limits are written with the step's decimals.
 *
 * Colours. Eight shades, evenly darker from a light yellow over green to a dark teal, so that a print in black and white can be
 * read as well, and so can a screen by those who tell red from green badly. The classes are spread over them, the least in the
 * lightest and the most in the darkest; one that is alone has the lightest.
 *
 * Marks. Runoff goes where the cell's arrow points; arrows are dark on the lighter shades and white on the two darkest. A
 * closed depression has a diamond, and open water is hatched in blue: neither has an arrow. A cell's row, its column, its number
 * for `./run why` and its recharge come up where the pointer rests on it.
 *
 * Sizes. A cell is an odd number of pixels wide, so that its centre is a pixel's and an arrow along a row or a column is sharp:
 * as many as a map of at most 840 by 840 has room for, but 7 to 63. Within the map one unit is one cell, so that what is written
 * of a cell does not depend on that number. Where a cell is 20 pixels wide or more all columns and rows are numbered; else each
 * fifth, and below 8 pixels each tenth, besides the first. */
#include "plain_sheet.h"

#include <inttypes.h>
#include <stdarg.h>
#include <stdio.h>

enum {
    /* the map, in pixels */
    LARGEST_MAP = 840,
    SMALLEST_CELL = 7,
    LARGEST_CELL = 63,
    FIFTH_NUMBERED = 8,   /* from this size of a cell on each fifth column and row is numbered, and from the next on each */
    EACH_NUMBERED = 20,
    FAR_SIDE = 400,       /* from this size of the map on its far side is numbered too */
    MAP_X = 316,
    MAP_Y = 56,
    BESIDE_MAP = 48,      /* right of the map and below it */
    NARROWEST = 428,
    /* the panel, in pixels */
    PANEL_X = 24,
    LABEL_X = 72,
    COUNT_X = 252,
    PERIOD_Y = 80,
    LINE = 18,            /* from one line of text to the next */
    LEGEND_Y = 168,
    ENTRY = 24,           /* from one entry of the legend to the next */
    BASELINE = 14,        /* of an entry's text, below its top */
    /* classes */
    SHADES = 8,
    FIRST_WHITE = 6,      /* the first shade on which arrows are white */
    WATER = SHADES,       /* the mark of open water; a land cell's is its shade */
    INCH = 10000,         /* in units */
    NARROWEST_STEP = 100,
    ONE_IN = 50,          /* at most one land cell in so many is past the last class, besides closed depressions */
    LONGEST_PART = 2048
};

struct classes {
    uint64_t land, least, most;  /* how many cells are land, and the least and the most that recharged on one */
    uint64_t step, first, count; /* the first class begins at `first` steps */
    bool open;                   /* has the last no upper limit? */
};

struct map {
    const struct sheet *sheet;
    struct classes classes;
    uint32_t cell, width, height;          /* in pixels */
    unsigned char mark[BALANCE_MAX_CELLS]; /* each cell's shade, or WATER */
    uint64_t marked[SHADES + 1], closed;   /* how many cells have each mark, and how many are closed depressions */
};

__attribute__((format(printf, 2, 3))) static void put_form(struct output *o, const char *form, ...)
{
    char part[LONGEST_PART];
    va_list values;

    va_start(values, form);
    int length = vsnprintf(part, sizeof part, form, values);
    va_end(values);
    assert(0 <= length && length < LONGEST_PART);
    put_word(o, part);
}

/* ---------------------------------------------------------------- classes */

/* Does the first entry of the cell's cover have a 1 behind its code? */
static bool is_open_water(const struct sheet *s, uint32_t cell)
{
    for (size_t entry = 0; entry + BALANCE_ENTRY <= s->covers_len; entry += BALANCE_ENTRY)
        if (s->covers[entry] == s->cover[cell])
            return s->covers[entry + 1] == 1;
    return false;
}

/* Is it on land, and does water leave it in none of the eight directions? */
static bool is_closed(const struct sheet *s, uint32_t cell)
{
    uint32_t d = s->direction[cell];

    if (is_open_water(s, cell))
        return false;
    return d != 1 && d != 2 && d != 4 && d != 8 && d != 16 && d != 32 && d != 64 && d != 128;
}

/* How many cells that water leaves are past the last class that there can be by this step? */
static uint64_t past_last(const struct sheet *s, const struct classes *c, uint64_t step)
{
    uint64_t past = 0;

    for (uint32_t cell = 0; cell < s->cells; cell++)
        if (!is_open_water(s, cell) && !is_closed(s, cell) && s->sum[SUM_RECHARGED][cell] / step - c->least / step >= SHADES)
            past++;
    return past;
}

/* The steps are 1, 2, 2.5, 5, 10, .. times the narrowest. */
static uint64_t step_for(const struct sheet *s, const struct classes *c)
{
    uint64_t step = NARROWEST_STEP;

    for (unsigned turn = 0; past_last(s, c, step) * ONE_IN > c->land; turn++)
        step = turn % 4 == 1 ? step / 4 * 5 : step * 2;
    return step;
}

static struct classes classes_of(const struct sheet *s)
{
    struct classes c = {0};

    for (uint32_t cell = 0; cell < s->cells; cell++) {
        uint64_t recharge = s->sum[SUM_RECHARGED][cell];
        if (is_open_water(s, cell))
            continue;
        c.least = c.land == 0 || recharge < c.least ? recharge : c.least;
        c.most = recharge > c.most ? recharge : c.most;
        c.land++;
    }
    c.step = step_for(s, &c);
    c.first = c.least / c.step;
    uint64_t needed = c.land == 0 ? 0 : c.most / c.step - c.first + 1;
    c.open = needed > SHADES;
    c.count = c.open ? SHADES : needed;
    return c;
}

static uint64_t class_of(const struct classes *c, uint64_t recharge)
{
    uint64_t class = recharge / c->step - c->first;

    return class < SHADES ? class : SHADES - 1;
}

static uint64_t shade_of(const struct classes *c, uint64_t class)
{
    if (c->count <= 1)
        return 0;
    return (class * (SHADES - 1) + (c->count - 1) / 2) / (c->count - 1);
}

static void mark_cells(struct map *m)
{
    const struct sheet *s = m->sheet;

    for (uint32_t cell = 0; cell < s->cells; cell++) {
        uint64_t shade = shade_of(&m->classes, class_of(&m->classes, s->sum[SUM_RECHARGED][cell]));
        m->mark[cell] = is_open_water(s, cell) ? WATER : (unsigned char)shade;
        m->marked[m->mark[cell]]++;
        m->closed += is_closed(s, cell);
    }
}

static char letter_of(uint64_t mark)
{
    return mark == WATER ? 'w' : (char)('a' + mark);
}

/* ---------------------------------------------------------------- sizes */

static uint32_t cell_size(const struct sheet *s)
{
    uint32_t longer = s->width > s->height ? s->width : s->height;
    uint32_t room = LARGEST_MAP / longer;

    return room < SMALLEST_CELL ? SMALLEST_CELL : room > LARGEST_CELL ? LARGEST_CELL : room - (room + 1) % 2;
}

static uint32_t larger(uint32_t a, uint32_t b)
{
    return a > b ? a : b;
}

/* The top of the legend's entry behind so many others; half an entry parts the classes from those behind them. */
static uint32_t entry_y(const struct map *m, uint64_t others)
{
    return LEGEND_Y + ENTRY * (uint32_t)others + (others < m->classes.count ? 0 : ENTRY / 2);
}

/* ---------------------------------------------------------------- front */

static const char style[] =
    "<title>Recharge</title>\n"
    "<style type=\"text/css\">\n"
    "text{font:13px sans-serif;fill:#222}\n"
    ".t{font-size:30px;font-weight:bold}\n"
    ".k{font-weight:bold}\n"
    ".n{text-anchor:end}\n"
    ".i text{font-size:11px;text-anchor:middle}\n"
    ".j text{font-size:11px;text-anchor:end}\n"
    ".a{fill:#fafcc4}.b{fill:#d0e99b}.c{fill:#a2d68b}.d{fill:#70c289}\n"
    ".e{fill:#41ac86}.f{fill:#279382}.g{fill:#157b7a}.h{fill:#0c636e}\n"
    ".w{fill:url(#w);stroke:none}\n"
    ".m{stroke:#fff;stroke-width:.03}\n"
    ".s{fill:none;stroke:#222;stroke-linecap:round}\n"
    ".l{fill:none;stroke:#fff;stroke-linecap:round}\n"
    ".q{fill:#fff;stroke:#222}\n"
    ".o{fill:none;stroke:#222}\n"
    ".p{fill:none;stroke:#aaa;stroke-width:.05}\n"
    ".z{stroke:#aaa}\n"
    "</style>\n"
    "<defs><pattern id=\"w\" width=\"1\" height=\".25\" patternUnits=\"userSpaceOnUse\">"
    "<path fill=\"#d8e8fa\" d=\"M0 0h1v.25h-1z\"/><path fill=\"#1f66bd\" d=\"M0 .08h1v.09h-1z\"/></pattern></defs>\n";

static void put_front(struct output *o, const struct map *m)
{
    uint32_t width = larger(MAP_X + m->width + BESIDE_MAP, NARROWEST);
    uint32_t height = larger(MAP_Y + m->height, entry_y(m, m->classes.count + 4)) + BESIDE_MAP;

    put_form(o, "<?xml version=\"1.0\" encoding=\"UTF-8\"?>\n"
                "<svg xmlns=\"http://www.w3.org/2000/svg\" xmlns:xlink=\"http://www.w3.org/1999/xlink\" version=\"1.1\" "
                "width=\"%u\" height=\"%u\" viewBox=\"0 0 %u %u\">\n",
             width, height, width, height);
    put_word(o, style);
    put_form(o, "<path fill=\"#fff\" d=\"M0 0h%uv%uH0z\"/>\n", width, height);
}

/* One of the numbers of the first day, and of the last where that is another. */
static void put_span(struct output *o, const struct sheet *s, int number)
{
    put_form(o, " %" PRId32, s->day[number]);
    if (s->days > 1)
        put_form(o, " to %" PRId32, s->day[(s->days - 1) * DAY_NUMBERS + (size_t)number]);
}

static void put_period(struct output *o, const struct sheet *s)
{
    if (s->days == 0) {
        put_form(o, "<text x=\"%u\" y=\"%u\">No days</text>\n", PANEL_X, PERIOD_Y);
        return;
    }
    put_form(o, "<text x=\"%u\" y=\"%u\">Serial%s", PANEL_X, PERIOD_Y, s->days == 1 ? "" : "s");
    put_span(o, s, SERIAL);
    put_form(o, " (%zu day%s),</text>\n", s->days, s->days == 1 ? "" : "s");
    put_form(o, "<text x=\"%u\" y=\"%u\">day of year", PANEL_X, PERIOD_Y + LINE);
    put_span(o, s, DAY_OF_YEAR);
    put_word(o, "</text>\n");
}

static void put_head(struct output *o, const struct sheet *s)
{
    put_form(o, "<text class=\"t\" x=\"%u\" y=\"52\">Recharge</text>\n", PANEL_X);
    put_period(o, s);
    put_form(o, "<text x=\"%u\" y=\"%u\">%u column%s, %u row%s, %u cell%s</text>\n", PANEL_X, PERIOD_Y + 2 * LINE, s->width,
             s->width == 1 ? "" : "s", s->height, s->height == 1 ? "" : "s", s->cells, s->cells == 1 ? "" : "s");
}

/* ---------------------------------------------------------------- legend */

/* A limit in inches, with the step's decimals; no step has more than three. */
static void put_limit(struct output *o, uint64_t units, uint64_t step)
{
    put_number(o, units / INCH);
    if (step % INCH != 0)
        put_form(o, ".%" PRIu64, units / 1000 % 10);
    if (step % 1000 != 0)
        put_number(o, units / 100 % 10);
    if (step % 100 != 0)
        put_number(o, units / 10 % 10);
}

/* From a class's lower limit on. */
static void put_class_end(struct output *o, const struct classes *c, uint64_t class)
{
    if (c->open && class + 1 == c->count) {
        put_word(o, " or more");
        return;
    }
    put_word(o, " to ");
    put_limit(o, (c->first + class + 1) * c->step, c->step);
}

static void put_count(struct output *o, uint32_t y, uint64_t cells)
{
    put_form(o, "<text class=\"n\" x=\"%u\" y=\"%u\">%" PRIu64 "</text>\n", COUNT_X, y + BASELINE, cells);
}

static void put_class(struct output *o, const struct map *m, uint64_t class)
{
    const struct classes *c = &m->classes;
    uint64_t shade = shade_of(c, class);
    uint32_t y = entry_y(m, class);

    put_form(o, "<path class=\"%c z\" d=\"M%u %uh36v18h-36z\"/>\n", letter_of(shade), PANEL_X, y);
    put_form(o, "<text x=\"%u\" y=\"%u\">", LABEL_X, y + BASELINE);
    put_limit(o, (c->first + class) * c->step, c->step);
    put_class_end(o, c, class);
    put_word(o, "</text>\n");
    put_count(o, y, m->marked[shade]);
}

#define CELL_DRAWN "<path class=\"p\" d=\"M.5 0h1v1h-1z\"/>"

/* What is drawn as in a map of cells of 18 pixels, of which an entry shows two, and what it says. */
static void put_mark(struct output *o, uint32_t y, const char *drawn, const char *says)
{
    put_form(o, "<g transform=\"translate(%u,%u) scale(18)\" stroke-width=\".08\">%s</g>\n", PANEL_X, y, drawn);
    put_form(o, "<text x=\"%u\" y=\"%u\">%s</text>\n", LABEL_X, y + BASELINE, says);
}

static void put_notes(struct output *o, const struct classes *c, uint32_t y)
{
    put_form(o, "<text x=\"%u\" y=\"%u\">A cell on a limit is in the class above.</text>\n", PANEL_X, y);
    put_form(o, "<text x=\"%u\" y=\"%u\">On land from %" PRIu64 ".%04" PRIu64 " to %" PRIu64 ".%04" PRIu64 "</text>\n", PANEL_X,
             y + LINE, c->least / INCH, c->least % INCH, c->most / INCH, c->most % INCH);
}

static void put_legend(struct output *o, const struct map *m)
{
    uint32_t water = entry_y(m, m->classes.count), closed = water + ENTRY, flow = closed + ENTRY, notes = flow + ENTRY;

    put_form(o, "<text class=\"k\" x=\"%u\" y=\"%u\">Inches</text>\n", PANEL_X, LEGEND_Y - 10);
    put_form(o, "<text class=\"k n\" x=\"%u\" y=\"%u\">Cells</text>\n", COUNT_X, LEGEND_Y - 10);
    for (uint64_t class = 0; class < m->classes.count; class++)
        put_class(o, m, class);
    put_mark(o, water, "<path class=\"w\" d=\"M0 0h2v1h-2z\"/><path class=\"p\" d=\"M0 0h2v1h-2z\"/>", "open water");
    put_count(o, water, m->marked[WATER]);
    put_mark(o, closed, CELL_DRAWN "<path class=\"q\" d=\"M1 .2l.3 .3l-.3 .3l-.3-.3z\"/>", "closed depression");
    put_count(o, closed, m->closed);
    put_mark(o, flow, CELL_DRAWN "<path class=\"s\" d=\"M1 .5m-.25 0h.55m-.15-.15l.15 .15l-.15 .15\"/>", "where runoff goes");
    if (m->classes.count > 0)
        put_notes(o, &m->classes, notes + 2 * LINE);
}

/* ---------------------------------------------------------------- cells */

static void put_cell(struct output *o, const struct map *m, uint32_t cell)
{
    uint32_t row = cell / m->sheet->width, column = cell % m->sheet->width;
    uint64_t recharge = m->sheet->sum[SUM_RECHARGED][cell];

    put_form(o, "<path class=\"%c\" d=\"M%u %uh1v1h-1z\"><title>", letter_of(m->mark[cell]), column, row);
    put_form(o, "Row %u, column %u, cell %u: ", row + 1, column + 1, cell);
    if (m->mark[cell] == WATER)
        put_word(o, "open water");
    else
        put_form(o, "%" PRIu64 ".%04" PRIu64 " inches", recharge / INCH, recharge % INCH);
    put_word(o, "</title></path>\n");
}

/* An arrow, from the cell's centre: back to its tail, then its shaft and its two barbs. */
static const char *arrow(uint32_t direction)
{
    switch (direction) {
    case 1: return "m-.25 0h.55m-.15-.15l.15 .15l-.15 .15";
    case 2: return "m-.18-.18l.4 .4m0-.21v.21h-.21";
    case 4: return "m0-.25v.55m.15-.15l-.15 .15l-.15-.15";
    case 8: return "m.18-.18l-.4 .4m0-.21v.21h.21";
    case 16: return "m.25 0h-.55m.15-.15l-.15 .15l.15 .15";
    case 32: return "m.18 .18l-.4-.4m0 .21v-.21h.21";
    case 64: return "m0 .25v-.55m.15 .15l-.15-.15l-.15 .15";
    default: return "m-.18 .18l.4-.4m0 .21v-.21h-.21";
    }
}

static void put_arrows(struct output *o, const struct map *m, bool white)
{
    const struct sheet *s = m->sheet;

    put_form(o, "<path class=\"%c\" d=\"", white ? 'l' : 's');
    for (uint32_t cell = 0; cell < s->cells; cell++)
        if (m->mark[cell] != WATER && !is_closed(s, cell) && (m->mark[cell] >= FIRST_WHITE) == white)
            put_form(o, "M%u.5 %u.5%s", cell % s->width, cell / s->width, arrow(s->direction[cell]));
    put_word(o, "\"/>\n");
}

static void put_closed(struct output *o, const struct map *m)
{
    const struct sheet *s = m->sheet;

    put_word(o, "<path class=\"q\" d=\"");
    for (uint32_t cell = 0; cell < s->cells; cell++)
        if (is_closed(s, cell))
            put_form(o, "M%u.5 %u.2l.3 .3l-.3 .3l-.3-.3z", cell % s->width, cell / s->width);
    put_word(o, "\"/>\n");
}

/* The pointer sees the cells and not what is drawn on them. */
static void put_cells(struct output *o, const struct map *m)
{
    put_form(o, "<g transform=\"translate(%u,%u) scale(%u)\">\n<g class=\"m\">\n", MAP_X, MAP_Y, m->cell);
    for (uint32_t cell = 0; cell < m->sheet->cells; cell++)
        put_cell(o, m, cell);
    put_form(o, "</g>\n<g pointer-events=\"none\" stroke-width=\"%s\">\n", m->cell < EACH_NUMBERED ? ".1" : ".07");
    put_arrows(o, m, false);
    put_arrows(o, m, true);
    put_closed(o, m);
    put_word(o, "</g>\n</g>\n");
    put_form(o, "<path class=\"o\" d=\"M%u %uh%uv%uh-%uz\"/>\n", MAP_X, MAP_Y, m->width, m->height, m->width);
}

/* ---------------------------------------------------------------- numbers along the edges */

/* From one numbered column or row to the next. */
static uint32_t numbered_each(const struct map *m)
{
    return m->cell >= EACH_NUMBERED ? 1 : m->cell >= FIFTH_NUMBERED ? 5 : 10;
}

static bool is_numbered(const struct map *m, uint32_t number)
{
    return number == 1 || number % numbered_each(m) == 0;
}

/* The numbers, and once more so far away where that is far enough. */
static void put_columns(struct output *o, const struct map *m)
{
    put_word(o, "<g id=\"x\" class=\"i\">\n");
    for (uint32_t column = 1; column <= m->sheet->width; column++)
        if (is_numbered(m, column))
            put_form(o, "<text x=\"%u\" y=\"%u\">%u</text>\n", MAP_X + column * m->cell - m->cell / 2, MAP_Y - 8, column);
    put_word(o, "</g>\n");
    if (m->height >= FAR_SIDE)
        put_form(o, "<use xlink:href=\"#x\" y=\"%u\"/>\n", m->height + 26);
}

static void put_rows(struct output *o, const struct map *m)
{
    put_word(o, "<g id=\"y\" class=\"j\">\n");
    for (uint32_t row = 1; row <= m->sheet->height; row++)
        if (is_numbered(m, row))
            put_form(o, "<text x=\"%u\" y=\"%u\">%u</text>\n", MAP_X - 8, MAP_Y + row * m->cell - m->cell / 2 + 4, row);
    put_word(o, "</g>\n");
    if (m->width >= FAR_SIDE)
        put_form(o, "<use xlink:href=\"#y\" x=\"%u\"/>\n", m->width + 32);
}

/* ---------------------------------------------------------------- the map */

void plain_put_map(const struct sheet *s, struct output *o)
{
    uint32_t cell = cell_size(s);
    struct map m = {.sheet = s, .classes = classes_of(s), .cell = cell, .width = s->width * cell, .height = s->height * cell};

    mark_cells(&m);
    put_front(o, &m);
    put_head(o, s);
    put_legend(o, &m);
    put_cells(o, &m);
    put_columns(o, &m);
    put_rows(o, &m);
    put_word(o, "</svg>\n");
}
