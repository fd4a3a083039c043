/* Arc grids (M-101): texts read and grids written by all that have the calls, what must come of them, and how
 * often each form, each damage and each edge was met. */
#include "fuzz.h"

#include <inttypes.h>
#include <stdio.h>
#include <stdlib.h>
#include <string.h>

enum { DAMAGED_TEXTS = 6, DAMAGED_GRIDS = 6, BEHIND = 16 }; /* of each seed; what is looked at behind what is lent */

/* What a bad word is that a text was refused for. */
enum { TAB, CARRIAGE_RETURN, PLUS, LEADING_ZERO, MINUS_ZERO, TEN_DIGITS, POINT, LETTER, OTHER_WORD, WORDS };
static const char *const word_names[WORDS] = {
    "a tab", "a carriage return", "a plus", "leading zeros", "minus zero", "ten digits or more", "a point", "a letter", "another"};

static struct {
    uint64_t kinds[ARC_KINDS], written[2][ARC_W_KINDS], forms[ARC_FORMS], letters[ARC_LETTERS], words[WORDS];
    uint64_t by_header, by_cell, by_count, by_buffer;         /* texts refused for that alone, or first */
    uint64_t header_before_cell, cell_before_count, beyond;   /* though a cell is bad; though count or buffer is wrong; past the grid's last */
    uint64_t round_trips, longest[2], changed, changed_taken; /* texts with bytes changed, and those taken all the same */
    uint64_t cuts, cut_word, cut_at_cell, uncut;              /* taken with a shorter last cell; refused at a cell cut off; nothing cut but blanks */
} met;

/* ---------------------------------------------------------------- a text read */

/* All that a read writes besides the cells, with bytes behind each that no call may touch. */
struct header_room {
    uint32_t numbers[BALANCE_GRID_NUMBERS + GUARD];
    int32_t no_data[1 + GUARD];
    uint8_t measure[ARC_MEASURES][BALANCE_MEASURE + 4];
};

static struct read_world {
    uint64_t returned;
    struct header_room header;
    int32_t cells[ARC_CELLS + BEHIND];
} found, wanted;

static uint8_t text[ARC_TEXT], form[ARC_TEXT];
static size_t ends[ARC_HEAD + 1 + ARC_CELLS];

/* What a call is lent: numbers that it may not take for its own. */
static void lend_read(struct read_world *w, size_t lent)
{
    memset(&w->header, 0xa5, sizeof w->header);
    for (size_t i = 0; i < lent + BEHIND; i++)
        w->cells[i] = (int32_t)(0x5eed0000 + i);
}

static void put_header(struct header_room *room, const struct arc_header *h)
{
    memcpy(room->numbers, h->numbers, sizeof h->numbers);
    room->no_data[0] = h->no_data;
    for (int k = 0; k < ARC_MEASURES; k++)
        memcpy(room->measure[k], h->measure[k], BALANCE_MEASURE);
}

static void read_by(const struct implementation *x, const uint8_t *bytes, size_t length, size_t lent, struct read_world *w)
{
    struct header_room *h = &w->header;

    lend_read(w, lent);
    w->returned = x->grid_read(bytes, length, w->cells, lent, h->numbers, h->no_data, h->measure[0], h->measure[1], h->measure[2]);
}

/* What must stand there afterwards: refused, nothing but zeros for the header. */
static void want_read(uint64_t returned, const struct arc_header *header, const int32_t *cells, size_t count, size_t lent)
{
    static const struct arc_header none;

    wanted.returned = returned;
    lend_read(&wanted, lent);
    put_header(&wanted.header, returned == 0 ? header : &none);
    if (returned == 0)
        memcpy(wanted.cells, cells, count * sizeof cells[0]);
}

static void same_read(const char *who, size_t length, size_t lent)
{
    if (found.returned != wanted.returned)
        fail("a grid read: %s has refusal %" PRIu64 " at %" PRIu64 ", M-101 %" PRIu64 " at %" PRIu64 ":\n%.*s", who, found.returned >> 32,
             found.returned & UINT32_MAX, wanted.returned >> 32, wanted.returned & UINT32_MAX, (int)length, (char *)text);
    if (memcmp(&found.header, &wanted.header, sizeof found.header) != 0)
        fail("a grid read: the header of %s is another, or what lies behind it:\n%.*s", who, (int)length, (char *)text);
    for (size_t i = 0; i < lent + BEHIND; i++)
        if (found.cells[i] != wanted.cells[i])
            fail("a grid read: cell %zu of %s is %" PRId32 ", M-101 has %" PRId32 ":\n%.*s", i, who, found.cells[i], wanted.cells[i],
                 (int)length, (char *)text);
}

/* The text by all, held to what is wanted; or, where nobody foretold it, to the first. */
static void all_read(size_t length, size_t lent, bool foretold)
{
    /* An exact copy, so that memory checkers see any reading past the end. */
    uint8_t *copy = malloc(length == 0 ? 1 : length);

    if (copy == NULL)
        fail("no memory");
    memcpy(copy, text, length);
    if (!foretold)
        read_by(&implementations[0], copy, length, lent, &wanted);
    for (size_t x = 0; x < implementations_count; x++)
        if (implementations[x].grid_read != NULL) {
            read_by(&implementations[x], copy, length, lent, &found);
            same_read(implementations[x].name, length, lent);
        }
    free(copy);
    count_refusal(tally.grid_read, wanted.returned);
}

/* ---------------------------------------------------------------- a grid written */

static struct {
    uint64_t returned, told[1 + GUARD];
    uint8_t bytes[BALANCE_INCHES_TEXT + 64];
} put;

/* By one; the buffer's bytes and those behind it are 0xa5 before. */
static void write_by(const struct implementation *x, const struct arc_written *w)
{
    const struct arc_header *h = &w->header;

    memset(put.told, 0xa5, sizeof put.told);
    memset(put.bytes, 0xa5, w->facts.lent + BEHIND);
    if (w->inches)
        put.returned = x->grid_inches(h->numbers, h->no_data, h->measure[0], h->measure[1], h->measure[2], w->units, w->facts.cells, put.bytes,
                                      w->facts.lent, put.told);
    else
        put.returned = x->grid_write(h->numbers, h->no_data, h->measure[0], h->measure[1], h->measure[2], w->cells, w->facts.cells, put.bytes,
                                     w->facts.lent, put.told);
}

static void same_written(const char *who, const struct arc_written *w, uint64_t returned, size_t length)
{
    const char *what = w->inches ? "inches written" : "a grid written";

    if (put.returned != returned)
        fail("%s: %s has refusal %" PRIu64 " at %" PRIu64 ", M-101 %" PRIu64 " at %" PRIu64, what, who, put.returned >> 32,
             put.returned & UINT32_MAX, returned >> 32, returned & UINT32_MAX);
    if (put.told[0] != length || put.told[1] != 0xa5a5a5a5a5a5a5a5)
        fail("%s: %s tells %" PRIu64 " bytes, M-101 %zu", what, who, put.told[0], length);
    if (memcmp(put.bytes, form, length) != 0)
        fail("%s: by %s\n%.*s---\n%.*s", what, who, (int)length, (char *)put.bytes, (int)length, (char *)form);
    for (size_t i = length; i < w->facts.lent + BEHIND; i++)
        if (put.bytes[i] != 0xa5)
            fail("%s: %s writes byte %zu of a text of %zu, into %zu that are lent", what, who, i, length, w->facts.lent);
}

/* The grid by all; its form stands in `form`, of a good one. */
static void all_written(const struct arc_written *w, size_t length)
{
    const uint64_t returned = written_returns(w, length);

    for (size_t x = 0; x < implementations_count; x++)
        if (implementations[x].grid_write != NULL) {
            write_by(&implementations[x], w);
            same_written(implementations[x].name, w, returned, returned == 0 ? length : 0);
        }
    count_refusal(w->inches ? tally.grid_inches : tally.grid_write, returned);
    for (int kind = 0; kind < ARC_W_KINDS; kind++)
        met.written[w->inches][kind] += w->facts.met >> kind & 1;
}

static bool could_be_written(const struct arc_written *w)
{
    return !w->facts.bad_header && w->facts.bad_cell == ARC_NONE;
}

/* Lends a buffer and has it written, whatever is wrong with it. */
static void write_lent(struct arc_written *w)
{
    const size_t length = could_be_written(w) ? arc_one_form(w, form) : 200;

    lend_written(w, length);
    all_written(w, length);
}

/* ---------------------------------------------------------------- good grids */

/* What must come of the first n bytes of a good text, of whose words so many are whole. What is left of a cell may be
 * another number. */
static void want_cut(const struct arc_case *c, size_t n, size_t words)
{
    const size_t cells = c->facts.cells, whole = words < ARC_HEAD ? 0 : words - ARC_HEAD;
    const size_t start = words < ARC_HEAD || whole == cells ? n : ends[words] - strlen(c->word[whole]);
    uint64_t returned = whole == cells ? 0 : (uint64_t)12 << 32;
    char part[ARC_WORD];

    want_read(0, &c->header, c->cells, cells, c->facts.lent);
    if (start < n) {
        snprintf(part, sizeof part, "%.*s", (int)(n - start), (const char *)text + start);
        wanted.cells[whole] = (int32_t)strtol(part, NULL, 10);
        if (strcmp(part, "-") == 0 || wanted.cells[whole] == c->header.no_data)
            returned |= whole;
        else if (whole + 1 == cells)
            returned = 0;
        met.cut_at_cell += (returned & UINT32_MAX) > 0;
        met.cut_word += returned == 0;
    }
    met.uncut += whole == cells;
    if (returned != 0)
        want_read(returned, NULL, NULL, 0, c->facts.lent);
}

static void cut_everywhere(const struct arc_case *c, size_t length)
{
    for (size_t n = 0, words = 0; n < length; n++) {
        while (words < ARC_HEAD + c->facts.cells && ends[words] <= n)
            words++;
        want_cut(c, n, words);
        all_read(n, c->facts.lent, true);
        met.cuts++;
    }
}

/* Read in some form and in the one form; written as whole numbers, which is that form, and as inches. */
static void good_grid(struct arc_case *c)
{
    static struct arc_written w;
    const uint64_t shape = below(ARC_FORMS), letters = below(ARC_LETTERS);

    arc_letters(c, (int)letters);
    const size_t length = arc_lay_out(c, (int)shape, text, ends);
    met.forms[shape]++;
    met.letters[letters]++;
    want_read(0, &c->header, c->cells, c->facts.cells, c->facts.lent);
    all_read(length, c->facts.lent, true);
    if (length < 400 && chance(15))
        cut_everywhere(c, length);

    make_written(&w, c, false);
    const size_t longest = arc_one_form(&w, form);
    arc_letters(c, ARC_LOWER);
    if (arc_lay_out(c, ARC_ONE_FORM, text, ends) != longest || memcmp(text, form, longest) != 0)
        fail("the one form is two");
    w.facts.lent = longest;
    all_written(&w, longest);
    want_read(0, &c->header, c->cells, c->facts.cells, c->facts.lent);
    all_read(longest, c->facts.lent, true);
    met.round_trips++;

    make_written(&w, c, true);
    write_lent(&w);
}

/* The longest text there is, of either kind, and a byte less room for it. */
static void longest_grid(bool inches)
{
    static struct arc_written w;

    make_longest(&w, inches);
    const size_t length = arc_one_form(&w, form);
    if (length != (inches ? RECHARGE_INCHES_TEXT : RECHARGE_GRID_TEXT))
        fail("the longest text has %zu bytes", length);
    for (w.facts.lent = length; w.facts.lent + 1 >= length; w.facts.lent--)
        all_written(&w, length);
    met.longest[inches]++;
}

/* ---------------------------------------------------------------- damaged ones */

static int word_kind(const char *word)
{
    const char *digits = word + (word[0] == '-');

    if (strchr(word, '\t') != NULL)
        return TAB;
    if (strchr(word, '\r') != NULL)
        return CARRIAGE_RETURN;
    if (strchr(word, '+') != NULL)
        return PLUS;
    if (strchr(word, '.') != NULL)
        return POINT;
    if (strpbrk(word, "abcdefghijklmnopqrstuvwxyz") != NULL)
        return LETTER;
    if (strspn(digits, "0123456789") < strlen(digits) || digits[0] == '\0')
        return OTHER_WORD;
    if (digits[0] == '0')
        return strcmp(word, "-0") == 0 ? MINUS_ZERO : LEADING_ZERO;
    return strlen(digits) > 9 ? TEN_DIGITS : OTHER_WORD;
}

static void count_damaged(const struct arc_case *c)
{
    const struct arc_facts *f = &c->facts;
    const size_t grid = (size_t)c->header.numbers[0] * c->header.numbers[1];
    const bool wrong_count = f->cells != grid, wrong = wrong_count || f->lent < grid;

    for (int kind = 0; kind < ARC_KINDS; kind++)
        met.kinds[kind] += f->met >> kind & 1;
    if (f->bad_header) {
        met.by_header++;
        met.header_before_cell += f->bad_cell != ARC_NONE && f->bad_cell > 0;
    } else if (f->bad_cell != ARC_NONE) {
        met.by_cell++;
        met.cell_before_count += wrong && f->bad_cell > 0;
        met.beyond += f->bad_cell >= grid;
        if ((f->met >> ARC_ODD_BYTE & 1) == 0 && strtol(c->word[f->bad_cell], NULL, 10) != c->header.no_data)
            met.words[word_kind(c->word[f->bad_cell])]++;
    } else if (wrong) {
        met.by_count += wrong_count;
        met.by_buffer += !wrong_count;
    }
}

static void damaged_text(struct arc_case *c)
{
    make_arc(c, chance(1));
    arc_letters(c, (int)below(ARC_LETTERS));
    damage_arc(c);
    const size_t length = arc_lay_out(c, (int)below(ARC_FORMS), text, ends);
    if (chance(10))
        arc_odd_byte(c, text, length, ends);
    want_read(arc_returns(c), &c->header, c->cells, c->facts.cells, c->facts.lent);
    all_read(length, c->facts.lent, true);
    count_damaged(c);
}

/* Some bytes of a good text changed: what comes of it is for them to say, but a grid that is taken can be
 * written, and what is then written is read as that grid. */
static void changed_text(struct arc_case *c)
{
    static const char changes[] = " \n-0159\t\r+x.N"; /* NUL among them */
    static struct arc_written w;
    const struct header_room *h = &wanted.header;

    make_arc(c, false);
    size_t length = arc_lay_out(c, (int)below(ARC_FORMS), text, ends);
    do {
        const size_t at = below(length);
        text[at] = (uint8_t)changes[below(sizeof changes)];
    } while (chance(20));
    all_read(length, c->facts.lent, false);
    met.changed++;
    if (wanted.returned != 0)
        return;
    met.changed_taken++;
    memcpy(c->header.numbers, h->numbers, sizeof c->header.numbers);
    c->header.no_data = h->no_data[0];
    for (int k = 0; k < ARC_MEASURES; k++)
        memcpy(c->header.measure[k], h->measure[k], BALANCE_MEASURE);
    c->facts.cells = (size_t)h->numbers[0] * h->numbers[1];
    memcpy(c->cells, wanted.cells, c->facts.cells * sizeof c->cells[0]);
    make_written(&w, c, false);
    length = w.facts.lent = arc_one_form(&w, form);
    all_written(&w, length);
    memcpy(text, form, length);
    want_read(0, &c->header, c->cells, c->facts.cells, c->facts.lent);
    all_read(length, c->facts.lent, true);
}

void run_grids(uint64_t seed)
{
    static struct arc_case c;
    static struct arc_written w;

    set_current("grid", seed);
    start_random(seed ^ UINT64_MAX / 5);
    make_arc(&c, chance(1));
    good_grid(&c);
    for (int i = 0; i < DAMAGED_TEXTS; i++)
        damaged_text(&c);
    changed_text(&c);
    for (int i = 0; i < DAMAGED_GRIDS; i++) {
        make_arc(&c, chance(1));
        make_written(&w, &c, i % 2 == 1);
        damage_written(&w);
        write_lent(&w);
    }
    if (chance(4))
        longest_grid(chance(50));
}

/* ---------------------------------------------------------------- in print */

static void report_names(const char *what, const char *const *names, const uint64_t *counts, int count)
{
    printf("%s:", what);
    for (int i = 0; i < count; i++)
        printf("%s %s %" PRIu64, i == 0 ? "" : ",", names[i], counts[i]);
    printf("\n");
}

void report_grids(void)
{
    report_names("Arc grids read, by form", arc_form_names, met.forms, ARC_FORMS);
    report_names("by letter case", arc_letter_names, met.letters, ARC_LETTERS);
    printf("written and read back: %" PRIu64 "; the longest text: %" PRIu64 ", in inches: %" PRIu64 "; texts cut off at a byte: %" PRIu64
           ", refused at what is left of a cell: %" PRIu64 ", taken with a shorter last cell: %" PRIu64 ", with fewer blanks at the end: %" PRIu64
           "; with bytes changed: %" PRIu64 ", taken all the same: %" PRIu64 "\n",
           met.round_trips, met.longest[0], met.longest[1], met.cuts, met.cut_at_cell, met.cut_word, met.uncut, met.changed, met.changed_taken);
    report_names("damaged texts", arc_kind_names, met.kinds, ARC_KINDS);
    printf("refused for the header: %" PRIu64 ", a cell: %" PRIu64 ", the count: %" PRIu64 ", the buffer alone: %" PRIu64
           "; for the header beside a bad cell: %" PRIu64 ", for a cell beside a wrong count or buffer: %" PRIu64
           ", for one beyond the grid's last: %" PRIu64 "\n",
           met.by_header, met.by_cell, met.by_count, met.by_buffer, met.header_before_cell, met.cell_before_count, met.beyond);
    report_names("refused for a cell with", word_names, met.words, WORDS);
    report_names("grids written with", arc_written_names, met.written[0], ARC_W_KINDS);
    report_names("in inches", arc_written_names, met.written[1], ARC_W_KINDS);
}

static void each_often(const char *what, const char *const *names, const uint64_t *counts, int count, uint64_t cases)
{
    char whole[160];

    for (int i = 0; i < count; i++) {
        snprintf(whole, sizeof whole, "%s \"%s\" was met", what, names[i]);
        enough(whole, counts[i], cases);
    }
}

/* Units are never outside; whole numbers wrap round to no other. */
static void written_often(bool inches, uint64_t cases)
{
    const int left_out = inches ? ARC_W_OUTSIDE : ARC_W_WRAPPED;

    for (int kind = 0; kind < ARC_W_KINDS; kind++)
        if (kind != left_out)
            each_often(inches ? "inches written with" : "a grid written with", arc_written_names + kind, met.written[inches] + kind, 1, cases);
    enough("the longest text was met", met.longest[inches], cases);
}

void grids_often(uint64_t cases)
{
    each_often("the form of an Arc grid", arc_form_names, met.forms, ARC_FORMS, cases);
    each_often("the letter case", arc_letter_names, met.letters, ARC_LETTERS, cases);
    each_often("of an Arc grid", arc_kind_names, met.kinds, ARC_KINDS, cases);
    each_often("a cell with", word_names, met.words, WORDS, cases);
    written_often(false, cases);
    written_often(true, cases);
    enough("an Arc grid was refused for its header", met.by_header, cases);
    enough("an Arc grid was refused for a cell", met.by_cell, cases);
    enough("an Arc grid was refused for its count", met.by_count, cases);
    enough("an Arc grid was refused for its buffer alone", met.by_buffer, cases);
    enough("a bad header stood before a bad cell", met.header_before_cell, cases);
    enough("a bad cell stood beside a wrong count or buffer", met.cell_before_count, cases);
    enough("a bad cell lay beyond the last", met.beyond, cases);
    enough("a text was refused at what is left of a cell", met.cut_at_cell, cases);
    enough("a text was taken with a shorter last cell", met.cut_word, cases);
    enough("a text was cut of blanks alone", met.uncut, cases);
    enough("a changed text was taken", met.changed_taken, cases);
    enough("reading reached refusal 12", tally.grid_read[12], cases);
    enough("writing reached refusal 12", tally.grid_write[12], cases);
    enough("writing inches reached refusal 12", tally.grid_inches[12], cases);
}
