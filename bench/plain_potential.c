/* The program `potential` of M-103 over plain_*, as plainly as it can be said: a station's readings, a
 * line a day, from standard input; each line's estimate, in a line of its own, to standard output. */
#include "plain_setup.h"
#include "plain_text.h"

#include <stdio.h>

enum {
    TURC = 1, /* T R H */
    JENSEN_HAISE = 2, /* T R */
    MOST_NUMBERS = 4,
    /* The most bytes of the output: a line of input has a byte at least, and "refused 11 at 65536" and
     * its line feed are the longest answer. */
    ROOM = TEXT_LONGEST * 20
};

/* The numbers of a line, which are words between spaces: true where each word is a number, and no more
 * stand there than a line may have. */
static bool read_line(const unsigned char *line, size_t n, int32_t *number, size_t *count)
{
    *count = 0;
    for (size_t at = 0;;) {
        while (at < n && line[at] == ' ')
            at++;
        if (at == n)
            return true;
        size_t start = at;
        while (at < n && line[at] != ' ')
            at++;
        if (*count == MOST_NUMBERS || !plain_number(line + start, at - start, &number[*count]))
            return false;
        ++*count;
    }
}

/* T stands in tenths of a degree. */
static double degrees(int32_t tenths)
{
    return (double)tenths / 10;
}

/* The estimate of a line, or the refusal, whose place is for the caller to know. */
static uint64_t estimate(const unsigned char *line, size_t n, uint64_t *potential)
{
    int32_t number[MOST_NUMBERS];
    size_t count;

    if (!read_line(line, n, number, &count))
        return refusal(11, 0);
    if (count == 4 && number[0] == TURC)
        return plain_turc(degrees(number[1]), number[2], number[3], potential);
    if (count == 3 && number[0] == JENSEN_HAISE)
        return plain_jensen_haise(degrees(number[1]), number[2], potential);
    return refusal(11, 0);
}

/* Answers every line, whatever came of the ones before it. */
static size_t answer(const unsigned char *in, size_t n, struct output *o)
{
    if (n > TEXT_LONGEST)
        return put_refused(o, refusal(11, 0));
    uint64_t number = 1;
    for (size_t at = 0; at < n; number++) {
        size_t end = at;
        while (end < n && in[end] != '\n')
            end++;
        uint64_t potential, no = estimate(in + at, end - at, &potential);
        if (no != 0) {
            put_refused(o, no + number);
        } else {
            put_number(o, potential);
            put_byte(o, '\n');
        }
        at = end + 1;
    }
    return o->used;
}

int main(void)
{
    /* One byte more than the longest input, to notice a longer one. */
    static unsigned char in[TEXT_LONGEST + 1], out[ROOM];
    struct output o = {out, sizeof out, 0};
    size_t used = answer(in, fread(in, 1, sizeof in, stdin), &o);

    return fwrite(out, 1, used, stdout) == used && fflush(stdout) == 0 ? 0 : 1;
}
