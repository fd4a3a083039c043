/* The vectors on the form of the text: its characters, its length, its end. Refusal 11. */
#include "vectors.h"
#include "vectors_tokens.h"

#include <stdio.h>

static void cut(const char *const *tokens, size_t n, const char *ends, const char *reason)
{
    char name[40];

    put_tokens(tokens, 0, n, -1, "");
    snprintf(name, sizeof name, "%zu numbers", n);
    vector(name, ends, reason);
}

static const struct replaced form[] = {
    {0, "2\t", "refused 11 at 0", "tab after the width", "a tab parts nothing, its token is bad"},
    {1, "\t1", "refused 11 at 1", "tab before the height", "a tab parts nothing, its token is bad"},
    {6, "0\t75", "refused 11 at 6", "tab between two numbers", "the whole token is bad, no digit of it counts"},
    {3, "270\r", "refused 11 at 3", "carriage return", "a line end of two bytes is bad"},
    {28, "\r", "refused 11 at 28", "lone carriage return", "a token of its own"},
    {21, "-0", "refused 11 at 21", "minus zero", "no minus zero"},
    {33, "-0", "refused 11 at 33", "minus zero degrees", "no minus zero, where negatives are fine"},
    {5, "007", "refused 11 at 5", "007", "no leading zeros"},
    {31, "00", "refused 11 at 31", "00", "no leading zeros"},
    {32, "-07", "refused 11 at 32", "-07", "no leading zeros after a minus"},
    {2, "+5", "refused 11 at 2", "+5", "no plus"},
    {35, "+0", "refused 11 at 35", "+0", "no plus"},
    {32, "-", "refused 11 at 32", "lone minus", "a minus needs digits"},
    {42, "-", "refused 11 at 42", "lone minus at the end", "a minus needs digits"},
    {32, "--5", "refused 11 at 32", "two minuses", "one minus at most"},
    {32, "5-", "refused 11 at 32", "minus behind", "a minus stands in front"},
    {0, "1000000000", "refused 11 at 0", "ten digits in the width", "ten digits are bad form whatever the field"},
    {30, "1000000000", "refused 11 at 30", "ten digits in a day", "ten digits are bad form whatever the field"},
    {34, "-1000000000", "refused 11 at 34", "ten digits and a minus", "the minus is no digit"},
    {36, "99999999999999999999", "refused 11 at 36", "twenty digits", "past 64 bits"},
    {29, "4294967297", "refused 11 at 29", "2^32 + 1", "does not wrap to 1"},
    {15, "9.00", "refused 11 at 15", "decimal point", "whole numbers alone"},
    {15, "9e2", "refused 11 at 15", "exponent", "whole numbers alone"},
    {15, "0x9", "refused 11 at 15", "hexadecimal", "digits alone"},
    {15, "nine", "refused 11 at 15", "letters", "digits alone"},
    {15, "12x", "refused 11 at 15", "letter behind digits", "the whole token is bad"},
    {15, "9,00", "refused 11 at 15", "comma", "a comma parts nothing"},
    {15, "#", "refused 11 at 15", "comment", "there are none"},
    {15, "\x0b", "refused 11 at 15", "vertical tab", "no blank of ours"},
    {15, "\x0c", "refused 11 at 15", "form feed", "no blank of ours"},
    {15, "\xc2\xa0", "refused 11 at 15", "no-break space", "bytes over 127 are bad"},
    {15, "\xff", "refused 11 at 15", "byte 255", "bytes over 127 are bad"},
    {15, "/", "refused 11 at 15", "slash", "the byte before 0"},
    {15, ":", "refused 11 at 15", "colon", "the byte after 9"},
};

/* Form is tested before everything but length, missing numbers before the rest. */
static void form_first(void)
{
    put("0 0 120 270 1 x\n");
    vector("bad token after a bad grid", "refused 11 at 5", "form is tested before 1");
    put_tokens(example, 0, 43, 31, "400001");
    put("3 152 0 600 70O 800 0\n");
    vector("bad token after a refusable day", "refused 11 at 47", "form is tested before any day is run, and no day line stands");
    put_tokens(example, 0, 43, 30, "367");
    put("3 152 0\n");
    vector("cut-off day after a refusable one", "refused 11 at 46", "missing numbers are tested before the rest");
    put_tokens(example, 0, 43, 4, "0");
    put("x\n");
    vector("bad token after a cover count of 0", "refused 11 at 43", "form is tested before 3");
    put_tokens(example, 0, 43, 4, "65");
    vector("65 covers that are not there", "refused 3 at 0", "the count is tested before missing numbers");
    put_tokens(example, 0, 43, 4, "64");
    vector("64 covers that are not there", "refused 11 at 43", "the count is fine, the numbers are missing");
    put_tokens(example, 0, 29, 5, "0");
    put("7\n");
    vector("cut-off day after a bad cover", "refused 11 at 30", "missing numbers are tested before the entries");
    put("2 1\n"), put_byte(0), put(" 120\n");
    vector("a byte 0", "refused 11 at 2", "a byte 0 ends nothing");
    put("2 1 120"), put_byte(0), put("270 1\n");
    vector("a byte 0 inside a number", "refused 11 at 2", "its whole token is bad");
}

/* The end, in every section. */
static void cut_off(void)
{
    vector("empty", "refused 11 at 0", "no width");
    put("\n");
    vector("one line feed", "refused 11 at 0", "no width");
    put("   \n\n  \n");
    vector("blanks only", "refused 11 at 0", "no width");
    cut(example, 1, "refused 11 at 1", "no height");
    put("0\n");
    vector("bad width alone", "refused 11 at 1", "a missing height is 11 in place of test 1");
    put("-3 ");
    vector("negative width alone", "refused 11 at 1", "a missing height is 11 in place of test 1");
    cut(example, 2, "refused 11 at 2", "no season");
    put("0 1\n");
    vector("bad grid alone", "refused 1 at 0", "both are there, so test 1 speaks");
    cut(example, 3, "refused 11 at 3", "half a season");
    cut(example, 4, "refused 11 at 4", "a missing cover count");
    cut(example, 5, "refused 11 at 5", "no cover entry");
    put("2 1 120 270 0\n");
    vector("five numbers, the last 0", "refused 3 at 0", "the count is there, so its own test speaks");
    put("2 1 120 270 65\n");
    vector("five numbers, the last 65", "refused 3 at 0", "the count is there, so its own test speaks");
    cut(example, 6, "refused 11 at 6", "inside a cover entry");
    cut(example, 20, "refused 11 at 20", "one short of a cover entry");
    cut(stream, 21, "refused 11 at 21", "one entry of three");
    cut(example, 21, "refused 11 at 21", "no cell");
    cut(example, 23, "refused 11 at 23", "inside a cell");
    cut(example, 25, "refused 11 at 25", "one cell of two");
    cut(example, 28, "refused 11 at 28", "one short of the last cell");
    cut(stream, 76, "refused 11 at 76", "one short of the last cell");
    cut(example, 29, "end 0", "no days at all");
    cut(stream, 77, "end 0", "no days at all");
    cut(example, 30, "refused 11 at 30", "one number of a day");
    cut(example, 35, "refused 11 at 35", "six numbers of a day");
    cut(example, 36, "end 1", "one day");
    cut(example, 37, "refused 11 at 37", "one number of the second day");
    cut(stream, 90, "refused 11 at 90", "six numbers of the second day");
}

static void lengths(void)
{
    put_tokens(example, 0, 43, -1, ""), pad_to(65535);
    vector("65,535 bytes", "end 2", "one below the most");
    put_tokens(example, 0, 43, -1, ""), pad_to(65536);
    vector("65,536 bytes", "end 2", "the most; blanks count");
    put_tokens(example, 0, 43, -1, ""), pad_to(65537);
    vector("65,537 bytes", "refused 11 at 0", "one too many, though only blanks");
    put_tokens(example, 0, 29, -1, ""), pad_to(65535), put("7");
    vector("a last number at byte 65,536", "refused 11 at 30", "the last byte counts");
    pad_to(65523), put_tokens(example, 0, 3, -1, ""), put("x  \n");
    vector("65,536 bytes, bad at the end", "refused 11 at 3", "blanks may stand in front");
    put("x "), pad_to(65537);
    vector("65,537 bytes and a bad token", "refused 11 at 0", "length is tested first");
    pad_to(65536);
    vector("65,536 blanks", "refused 11 at 0", "no width");
    pad_to(65537);
    vector("65,537 blanks", "refused 11 at 0", "too long");
}

/* Where blanks may stand. */
static void blanks(void)
{
    put_tokens(example, 0, 43, -1, "");
    vector("the worked example", "end 2", "document 01's own");
    for (size_t i = 0; i < 43; i++)
        put("%s%s", i == 0 ? "" : " ", example[i]);
    vector("the example on one line", "end 2", "no line feed at the end either");
    put("\n\n  ");
    for (size_t i = 0; i < 43; i++)
        put("%s\n", example[i]);
    put("\n \n");
    vector("the example, a number a line", "end 2", "blanks at both ends");
    for (size_t i = 0; i < 43; i++)
        put("   %s  \n\n ", example[i]);
    vector("the example in runs of blanks", "end 2", "runs part as one blank does");
}

void form_cases(void)
{
    blanks();
    for (size_t i = 0; i < sizeof form / sizeof form[0]; i++)
        replace(example, &form[i]);
    form_first();
    cut_off();
    lengths();
}
