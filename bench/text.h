/* The programs `balance` of document 01 and `why` of M-105 as functions from input bytes to output bytes. */
#ifndef TEXT_H
#define TEXT_H

#include <stdbool.h>
#include <stddef.h>
#include <stdint.h>

enum {
    TEXT_LONGEST = 65536, /* the most bytes that the program accepts */
    TEXT_DAY = 7,         /* numbers in one day */
    /* The program's setpoints of the frost index (M-106); its text has none. */
    TEXT_FIRST_SETPOINT = 56000,
    TEXT_SECOND_SETPOINT = 83000,
    /* Room that is enough for every output, and what the proved library asks for: at most 32,768
     * numbers make 4,681 days; it allows 168 bytes for a day's line and 53 for the last. */
    TEXT_ROOM = 4681 * 168 + 53,
    /* The same for `why`, whose two lines of a day are shorter than 400 bytes. */
    TEXT_WHY_ROOM = 4681 * 400 + 53
};

/* Writes the output of the n bytes at in to out, which has room for TEXT_ROOM bytes or more,
 * and returns how many bytes it wrote. An input longer than TEXT_LONGEST may be handed over
 * cut off anywhere past TEXT_LONGEST: it is refused for its length. */
typedef size_t balance_text(const unsigned char *in, size_t n, unsigned char *out, size_t room);

balance_text plain_text, fast_text;

/* The same of `why CELL SERIAL`, with room for TEXT_WHY_ROOM bytes or more; of `why CELL` where the
 * serial is TEXT_EVERY_DAY. `missed` comes back true where no day has the serial, and none was
 * refused. */
#define TEXT_EVERY_DAY UINT32_MAX
size_t plain_why_text(const unsigned char *in, size_t n, uint32_t cell, uint32_t serial,
                      unsigned char *out, size_t room, bool *missed);

#endif
