/* Arc grids to be read (M-101): their words, the damage done to them, and how they stand in a text. */
#include "cases_parts.h"

#include <stdio.h>
#include <string.h>

const char *const arc_kind_names[ARC_KINDS] = {
    "a word of the header dropped", "doubled", "words or lines of it swapped", "a name misspelt by one letter", "a size outside",
    "a bad number in the header", "a bad corner or cell size", "one of 20 characters", "columns and rows exchanged", "a no-data cell",
    "a bad word for a cell", "two bad cells", "a bad cell beyond the last", "a cell less", "a cell more", "4,000 more and above", "no cells",
    "a buffer shorter by one", "exact", "longer", "an odd byte in or behind a word", "a byte 0 there"};
const char *const arc_form_names[ARC_FORMS] = {
    "the one written form", "padded names, blanks behind rows", "one line", "a line each word", "rows wrapped", "runs of blanks and line feeds"};
const char *const arc_letter_names[ARC_LETTERS] = {"lower", "upper", "as Arc has it", "mixed"};

static const char *const names[ARC_HEAD / 2] = {"ncols", "nrows", "xllcorner", "yllcorner", "cellsize", "NODATA_value"};
enum { NCOLS, NROWS, X_CORNER, Y_CORNER, CELL_SIZE, NO_DATA };
#define NAME(c, which) ((c)->head[2 * (which)])
#define VALUE(c, which) ((c)->head[2 * (which) + 1])

void arc_bad_at(struct arc_facts *f, size_t cell)
{
    if (cell < f->bad_cell)
        f->bad_cell = cell;
}

void arc_meet(struct arc_facts *f, int kind)
{
    f->met |= (uint32_t)1 << kind;
}

/* ---------------------------------------------------------------- good ones */

static void put_word(char word[ARC_WORD], const char *text)
{
    snprintf(word, ARC_WORD, "%s", text);
}

static void put_whole(char word[ARC_WORD], int64_t number)
{
    snprintf(word, ARC_WORD, "%lld", (long long)number);
}

/* Of every number of digits alike, either sign; often at the limit. */
static int32_t some_number(void)
{
    int32_t most = 1;

    for (uint64_t digits = between(1, 9); digits > 0 && most < 1000000000; digits--)
        most *= 10;
    return (int32_t)(chance(10) ? (chance(50) ? most - 1 : 1 - most) : between_signed(1 - most, most - 1));
}

void make_measure(char *text, size_t length)
{
    const size_t first = length > 1 && chance(40) ? 1 : 0;

    for (size_t i = 0; i < length; i++)
        text[i] = (char)('0' + below(10));
    if (first == 1)
        text[0] = '-';
    if (length - first >= 3 && chance(60))
        text[between(first + 1, length - 2)] = '.';
    text[length] = '\0';
}

static void set_measure(struct arc_case *c, int which, size_t length)
{
    uint8_t *kept = c->header.measure[which - X_CORNER];

    make_measure(VALUE(c, which), length);
    c->header.numbers[which] = (uint32_t)length; /* their lengths stand behind columns and rows, in the same order */
    memset(kept, 0, BALANCE_MEASURE);
    memcpy(kept, VALUE(c, which), length);
}

static void set_cell(struct arc_case *c, size_t i, int32_t number)
{
    c->cells[i] = number;
    put_whole(c->word[i], number);
}

static int32_t good_cell(const struct arc_case *c)
{
    static const int32_t directions[] = {1, 2, 4, 8, 16, 32, 64, 128, 0, 255};
    const int32_t number = chance(50) ? ONE_OF(directions) : some_number();

    return number != c->header.no_data ? number : number == 0 ? 1 : -number;
}

static void set_size(struct arc_case *c, uint32_t columns, uint32_t rows, size_t cells)
{
    c->header.numbers[NCOLS] = columns;
    c->header.numbers[NROWS] = rows;
    put_whole(VALUE(c, NCOLS), columns);
    put_whole(VALUE(c, NROWS), rows);
    for (size_t i = 0; i < cells; i++)
        set_cell(c, i, good_cell(c));
    c->facts.cells = cells;
}

void make_arc(struct arc_case *c, bool largest)
{
    static const int32_t usual[] = {-9999, -9999, -1, 0, 255, 128, 999999999, -999999999};
    uint32_t columns = (uint32_t)between(1, chance(10) ? 60 : 8), rows = (uint32_t)between(1, chance(90) ? 6 : 240 / columns);

    if (largest) {
        columns = (uint32_t)1 << below(13);
        rows = BALANCE_MAX_CELLS / columns;
    }
    memset(&c->header, 0, sizeof c->header);
    c->facts = (struct arc_facts){.bad_cell = ARC_NONE};
    c->heads = ARC_HEAD;
    c->header.no_data = chance(60) ? ONE_OF(usual) : some_number();
    put_whole(VALUE(c, NO_DATA), c->header.no_data);
    for (int which = X_CORNER; which <= CELL_SIZE; which++)
        set_measure(c, which, edgy(1, BALANCE_MEASURE - 1));
    for (int which = NCOLS; which <= NO_DATA; which++)
        put_word(NAME(c, which), names[which]);
    set_size(c, columns, rows, (size_t)columns * rows);
    c->facts.lent = c->facts.cells + below(8);
}

uint64_t arc_returns(const struct arc_case *c)
{
    const size_t wanted = (size_t)c->header.numbers[NCOLS] * c->header.numbers[NROWS];

    if (c->facts.bad_header)
        return refusal(12, 0);
    if (c->facts.bad_cell != ARC_NONE)
        return refusal(12, c->facts.bad_cell);
    return c->facts.cells == wanted && c->facts.lent >= wanted ? 0 : refusal(12, 0);
}

/* ---------------------------------------------------------------- damage to the header */

static void take_out(char (*words)[ARC_WORD], size_t at, size_t *count)
{
    memmove(words[at], words[at + 1], (*count - at - 1) * sizeof words[0]);
    --*count;
}

/* A word stands twice afterwards. */
static void put_in(char (*words)[ARC_WORD], size_t at, size_t *count)
{
    memmove(words[at + 1], words[at], (*count - at) * sizeof words[0]);
    ++*count;
}

/* Without the no-data number the first cell is taken for it, and where it stands a second time it is a bad cell. */
static void drop_no_data(struct arc_case *c)
{
    put_word(VALUE(c, NO_DATA), c->word[0]);
    c->header.no_data = c->cells[0];
    take_out(c->word, 0, &c->facts.cells);
    memmove(c->cells, c->cells + 1, c->facts.cells * sizeof c->cells[0]);
    for (size_t i = 0; i < c->facts.cells; i++)
        if (c->cells[i] == c->header.no_data)
            arc_bad_at(&c->facts, i);
}

/* Without any other word a name stands where a value belongs, or a value where a name does. */
static void drop_word(struct arc_case *c)
{
    const size_t at = below(ARC_HEAD);

    arc_meet(&c->facts, ARC_DROPPED);
    if (at == ARC_HEAD - 1) {
        drop_no_data(c);
    } else {
        take_out(c->head, at, &c->heads);
        c->facts.bad_header = true;
    }
}

/* The no-data number doubled is a no-data cell before the others. */
static void double_word(struct arc_case *c)
{
    const size_t at = below(ARC_HEAD);

    arc_meet(&c->facts, ARC_DOUBLED);
    if (at == ARC_HEAD - 1 && c->facts.cells < ARC_CELLS) {
        put_in(c->word, 0, &c->facts.cells);
        memmove(c->cells + 1, c->cells, (c->facts.cells - 1) * sizeof c->cells[0]);
        set_cell(c, 0, c->header.no_data);
        arc_bad_at(&c->facts, 0);
    } else {
        put_in(c->head, at, &c->heads);
        c->facts.bad_header = true;
    }
}

static void exchange(char *one, char *other)
{
    char kept[ARC_WORD];

    memcpy(kept, one, ARC_WORD);
    memcpy(one, other, ARC_WORD);
    memcpy(other, kept, ARC_WORD);
}

/* Two names, two lines, or a name and its value. */
static void swap_words(struct arc_case *c)
{
    const uint64_t one = below(6), other = (one + between(1, 5)) % 6, kind = below(3);

    arc_meet(&c->facts, ARC_SWAPPED);
    c->facts.bad_header = true;
    exchange(NAME(c, one), kind == 2 ? VALUE(c, one) : NAME(c, other));
    if (kind == 1)
        exchange(VALUE(c, one), VALUE(c, other));
}

/* Of two numbers it is another grid of as many cells, which is taken. */
static void transpose(struct arc_case *c)
{
    const uint32_t columns = c->header.numbers[NCOLS];

    arc_meet(&c->facts, ARC_TRANSPOSED);
    exchange(VALUE(c, NCOLS), VALUE(c, NROWS));
    c->header.numbers[NCOLS] = c->header.numbers[NROWS];
    c->header.numbers[NROWS] = columns;
}

/* One letter missing, too much or another: one that no name has, or one that differs in a single bit, though not in
 * the one that tells lower case from upper. With that bit changed, `_` is the byte 127. */
static void misspell(struct arc_case *c)
{
    static const char others[] = "qkQK_-.0\t\r\x7f\xff";
    char *name = NAME(c, below(6));
    const size_t at = below(strlen(name)), length = strlen(name);
    const char letter = name[at], other = others[below(sizeof others - 1)];

    arc_meet(&c->facts, ARC_MISSPELT);
    c->facts.bad_header = true;
    switch (below(4)) {
    case 0:
        memmove(name + at, name + at + 1, length - at);
        break;
    case 1:
        memmove(name + at + 1, name + at, length - at + 1);
        name[at] = other;
        break;
    case 2:
        name[at] = (char)(letter ^ (chance(50) ? 0x40 : 0x80));
        break;
    default:
        name[at] = letter == '_' ? '\x7f' : other;
    }
}

/* Sizes outside, each with as many cells as a product of 32 bits would ask for, or as there are. */
static void spoil_size(struct arc_case *c)
{
    static const struct {
        const char *columns, *rows;
        uint32_t cells;
    } sizes[] = {
        {"0", "1", 0}, {"1", "0", 0}, {"0", "0", 0}, {"-1", "-1", 1}, {"-2", "-3", 6}, {"-1", "1", 1}, {"2", "-2", 4},
        {"4097", "1", 4097}, {"1", "4097", 4097}, {"17", "241", 4097}, {"241", "17", 4097}, {"4096", "0", 0}, {"65", "64", 1},
        {"641", "6700417", 1}, {"6700417", "641", 1}, {"858993460", "5", 4}, {"65536", "65536", 0}, {"131072", "32768", 0},
        {"999999999", "999999999", 1}, {"4294967297", "1", 1}, {"1", "4294967297", 1}, {"1000000000", "1", 1},
        {"18446744073709551617", "1", 1}, {"1", "18446744073709551617", 1}, {"-4294967295", "1", 1},
    };
    const size_t which = below(COUNT(sizes));

    arc_meet(&c->facts, ARC_SIZE);
    c->facts.bad_header = true;
    set_size(c, 1, 1, sizes[which].cells);
    put_word(VALUE(c, NCOLS), sizes[which].columns);
    put_word(VALUE(c, NROWS), sizes[which].rows);
}

static void spoil_number(struct arc_case *c)
{
    static const int places[] = {NCOLS, NROWS, NO_DATA};
    const int which = ONE_OF(places);

    arc_meet(&c->facts, ARC_BAD_NUMBER);
    c->facts.bad_header = true;
    put_word(VALUE(c, which), bad_word());
}

const char *bad_measure(void)
{
    static const char *const bad[] = {
        "+1", "1e5", ".5", "5.", "-", ".", "-.", "-.5", "-5.", "1.2.3", "1..2", "..", ".1.", "--1", "1-", "1-2", "-1-", "-1.-2", "1.-2",
        "1,5", "0x1", "a", "1.a", "x1", "1\t", "\t1", "1\r", "/", ":", "1/2", "1:2", "-/", "1.:", "\xb2", "1.5\xff", "nan", "inf", "-inf"};

    return ONE_OF(bad);
}

/* Bad in form, or too long by a character or more. */
static void spoil_measure(struct arc_case *c)
{
    char *value = VALUE(c, between(X_CORNER, CELL_SIZE));

    arc_meet(&c->facts, ARC_BAD_MEASURE);
    c->facts.bad_header = true;
    if (chance(30))
        make_measure(value, chance(70) ? BALANCE_MEASURE + 1 : between(BALANCE_MEASURE + 1, ARC_WORD - 1));
    else
        put_word(value, bad_measure());
}

static void lengthen_measure(struct arc_case *c)
{
    arc_meet(&c->facts, ARC_LONG_MEASURE);
    set_measure(c, (int)between(X_CORNER, CELL_SIZE), BALANCE_MEASURE);
}

/* ---------------------------------------------------------------- damage to the cells */

static void spoil_cell(struct arc_case *c, size_t at)
{
    if (chance(40)) {
        arc_meet(&c->facts, ARC_NO_DATA_CELL);
        set_cell(c, at, c->header.no_data);
    } else {
        arc_meet(&c->facts, ARC_BAD_WORD);
        put_word(c->word[at], bad_word());
    }
    arc_bad_at(&c->facts, at);
}

static void spoil_cells(struct arc_case *c)
{
    const size_t cells = c->facts.cells;

    if (cells == 0)
        return;
    const size_t first = below(cells);
    spoil_cell(c, first);
    if (cells > 1 && chance(30)) {
        arc_meet(&c->facts, ARC_TWO_BAD);
        spoil_cell(c, (first + between(1, cells - 1)) % cells);
    }
}

/* More cells than the grid has, one of them bad or none. */
static void add_cells(struct arc_case *c)
{
    const size_t last = c->facts.cells, more = chance(10) ? ARC_CELLS - last : chance(60) ? 1 : between(1, 6);

    if (more == 0 || last + more > ARC_CELLS)
        return;
    if (more == 1 || more > 4000)
        arc_meet(&c->facts, more == 1 ? ARC_ONE_MORE : ARC_MANY_MORE);
    c->facts.cells += more;
    for (size_t i = last; i < c->facts.cells; i++)
        set_cell(c, i, good_cell(c));
    if (chance(50)) {
        arc_meet(&c->facts, ARC_BEYOND);
        spoil_cell(c, chance(30) ? c->facts.cells - 1 : between(last, c->facts.cells - 1));
    }
}

static void take_cells(struct arc_case *c)
{
    const bool all = chance(20);

    if (c->facts.cells == 0)
        return;
    arc_meet(&c->facts, all ? ARC_NO_CELLS : ARC_ONE_LESS);
    c->facts.cells = all ? 0 : c->facts.cells - 1;
}

/* A buffer about the grid's size, whatever else is wrong. */
static void lend(struct arc_case *c)
{
    const size_t wanted = (size_t)c->header.numbers[NCOLS] * c->header.numbers[NROWS];

    switch (below(4)) {
    case 0: arc_meet(&c->facts, ARC_EXACT); c->facts.lent = wanted; break;
    case 1: arc_meet(&c->facts, ARC_LONGER); c->facts.lent = wanted + between(1, 8); break;
    case 2: arc_meet(&c->facts, ARC_SHORT); c->facts.lent = wanted - 1; break;
    default: c->facts.lent = chance(80) ? wanted : below(wanted + 1);
    }
}

/* The header first, since its damage may move cells; a second damage of another kind often on top, or none but to the
 * buffer. What comes before what is the facts' to say. */
void damage_arc(struct arc_case *c)
{
    static void (*const of_header[])(struct arc_case *) = {
        drop_word, drop_word, double_word, double_word, swap_words, misspell, misspell, spoil_size, spoil_number, spoil_measure, lengthen_measure,
        transpose};
    static void (*const of_cells[])(struct arc_case *) = {spoil_cells, spoil_cells, add_cells, take_cells};
    const uint64_t kind = below(10); /* half of them to the header, a tenth to the buffer alone */

    if (kind < 5)
        ONE_OF(of_header)(c);
    if (c->facts.bad_cell == ARC_NONE && (kind < 5 ? chance(25) : kind < 9))
        ONE_OF(of_cells)(c);
    if (kind == 9 || chance(50))
        lend(c);
}

/* ---------------------------------------------------------------- as text */

static char as(int letters, char letter)
{
    const bool upper = letters == ARC_UPPER || (letters == ARC_MIXED && chance(50));

    if (letters == ARC_AS_ARC)
        return letter;
    if ('a' <= letter && letter <= 'z' && upper)
        return (char)(letter - 'a' + 'A');
    if ('A' <= letter && letter <= 'Z' && !upper)
        return (char)(letter - 'A' + 'a');
    return letter;
}

void arc_letters(struct arc_case *c, int letters)
{
    for (int which = NCOLS; which <= NO_DATA; which++)
        for (char *letter = NAME(c, which); *letter != '\0'; letter++)
            *letter = as(letters, *letter);
}

/* What stands behind a word: the last of its line, or not. */
static size_t put_blanks(uint8_t *bytes, int form, size_t word, size_t wrap, bool last)
{
    size_t n = 0;

    if (form == ARC_PADDED && last)
        bytes[n++] = ' ';
    switch (form) {
    case ARC_ONE_LINE: last = false; break;
    case ARC_LINE_EACH: last = true; break;
    case ARC_WRAPPED: last = last || word % wrap == 0; break;
    case ARC_RAGGED: last = chance(50); break;
    }
    bytes[n++] = last ? '\n' : ' ';
    while ((form == ARC_RAGGED && n < 12 && chance(40)) || (form == ARC_PADDED && word < ARC_HEAD && !last && n < 6))
        bytes[n++] = form == ARC_RAGGED && chance(50) ? '\n' : ' ';
    return n;
}

size_t arc_lay_out(const struct arc_case *c, int form, uint8_t *bytes, size_t *ends)
{
    const size_t words = c->heads + c->facts.cells, wrap = between(1, 9), columns = c->header.numbers[NCOLS];
    const bool to_the_end = form == ARC_ONE_FORM || chance(50);
    size_t n = 0;

    if (form == ARC_RAGGED)
        n += put_blanks(bytes, form, 0, wrap, chance(50));
    for (size_t i = 0; i < words; i++) {
        const size_t cell = i - c->heads; /* where it is one */
        const char *word = i < c->heads ? c->head[i] : c->word[cell];
        const bool last = i < c->heads ? i % 2 == 1 : columns > 0 && (cell + 1) % columns == 0;

        memcpy(bytes + n, word, strlen(word));
        n += strlen(word);
        ends[i] = n;
        if (i + 1 < words || to_the_end)
            n += put_blanks(bytes + n, form, i, wrap, last);
    }
    return n;
}

void arc_odd_byte(struct arc_case *c, uint8_t *bytes, size_t length, const size_t *ends)
{
    static const uint8_t odd[] = {0, 0, 0, 1, '\t', '\v', '\f', '\r', 31, '!', '/', ':', 127, 128, 160, 255};
    const size_t word = below(chance(50) ? c->heads : c->heads + c->facts.cells);
    const size_t letters = strlen(word < c->heads ? c->head[word] : c->word[word - c->heads]);
    const size_t at = ends[word] - (chance(50) ? 0 : between(1, letters));
    const uint8_t byte = ONE_OF(odd);

    if (at == length) /* no blank is behind the last word */
        return;
    bytes[at] = byte;
    arc_meet(&c->facts, ARC_ODD_BYTE);
    if (byte == 0)
        arc_meet(&c->facts, ARC_ZERO_BYTE);
    if (word < c->heads)
        c->facts.bad_header = true;
    else
        arc_bad_at(&c->facts, word - c->heads);
}
