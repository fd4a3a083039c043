/* The program `why` over plain_*: why a cell got its figures, on each day of standard input's text or on
 * the one with that serial.
 *
 *     plain_why CELL [SERIAL] < TEXT
 *
 * Says what the proved program says, also on standard error, and by that program's name. */
#include "plain_text.h"

#include <inttypes.h>
#include <stdio.h>
#include <string.h>

/* Is the argument a number of 1 to 9 digits, without sign or leading zeros? */
static bool read_argument(const char *word, uint32_t *number)
{
    int32_t value;

    if (word[0] == '-' || !plain_number((const unsigned char *)word, strlen(word), &value))
        return false;
    *number = (uint32_t)value;
    return true;
}

static int wrong(const char *what)
{
    fprintf(stderr, "%s\n", what);
    return 2;
}

int main(int argc, char **argv)
{
    /* One byte more than the longest input, to notice a longer one. */
    static unsigned char in[TEXT_LONGEST + 1], out[TEXT_WHY_ROOM];
    uint32_t cell, serial = TEXT_EVERY_DAY;
    bool missed;

    if (argc < 2 || argc > 3)
        return wrong("usage: why CELL [SERIAL] < TEXT");
    if (!read_argument(argv[1], &cell))
        return wrong("why: the cell is no number of 1 to 9 digits");
    if (argc == 3 && !read_argument(argv[2], &serial))
        return wrong("why: the serial is no number of 1 to 9 digits");

    size_t n = fread(in, 1, sizeof in, stdin);
    size_t used = plain_why_text(in, n, cell, serial, out, sizeof out, &missed);
    if (missed)
        fprintf(stderr, "why: no day of the text has serial %" PRIu32 "\n", serial);
    return fwrite(out, 1, used, stdout) == used && fflush(stdout) == 0 ? 0 : 1;
}
