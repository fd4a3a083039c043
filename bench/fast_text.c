/* The program `balance` over fast_*, written apart from plain_text.c so that the two can be
 * compared: one pass over the bytes with the number under way in a few variables. */
#include "balance.h"
#include "text.h"

#include <assert.h>
#include <stdint.h>
#include <string.h>

enum { LONGEST_LINE = 200, CELLS = BALANCE_MAX_CELLS };

/* Appends a number and the byte after it. */
static unsigned char *append(unsigned char *to, uint64_t number, unsigned char after)
{
    unsigned char digits[20];
    size_t count = 0;

    do {
        digits[count++] = (unsigned char)('0' + number % 10);
        number /= 10;
    } while (number != 0);
    while (count > 0)
        *to++ = digits[--count];
    *to++ = after;
    return to;
}

static unsigned char *append_refusal(unsigned char *to, uint64_t refusal)
{
    memcpy(to, "refused ", 8);
    to = append(to + 8, refusal >> 32, ' ');
    memcpy(to, "at ", 3);
    return append(to + 3, refusal & UINT32_MAX, '\n');
}

static uint64_t refuse(uint64_t number, size_t place)
{
    return number << 32 | place;
}

/* Reads the numbers up to the end or the first bad token; returns how many, and says whether
 * all was good. A number with a minus is kept as its 32-bit complement: as an unsigned number
 * it is past the limits of every field. */
static size_t scan(const unsigned char *in, size_t n, uint32_t *number, int *good)
{
    enum { BETWEEN, MINUS, ZERO, DIGITS } state = BETWEEN;
    uint32_t value = 0;
    int digits = 0, negative = 0;
    size_t count = 0;

    *good = 0;
    for (size_t i = 0; i <= n; i++) {
        const int byte = i < n ? in[i] : ' '; /* the end parts like a blank */
        if (byte == ' ' || byte == '\n') {
            if (state == MINUS)
                return count;
            if (state != BETWEEN)
                number[count++] = negative ? 0u - value : value;
            state = BETWEEN;
        } else if (byte == '-') {
            if (state != BETWEEN)
                return count;
            state = MINUS;
        } else if (byte >= '0' && byte <= '9') {
            const uint32_t digit = (uint32_t)(byte - '0');
            switch (state) {
            case BETWEEN:
            case MINUS:
                negative = state == MINUS;
                if (digit == 0 && negative)
                    return count;
                state = digit == 0 ? ZERO : DIGITS;
                value = digit;
                digits = 1;
                break;
            case ZERO:
                return count;
            case DIGITS:
                if (++digits > 9)
                    return count;
                value = 10 * value + digit;
                break;
            }
        } else {
            return count;
        }
    }
    *good = 1;
    return count;
}

size_t fast_text(const unsigned char *in, size_t n, unsigned char *out, size_t room)
{
    static uint32_t numbers[TEXT_LONGEST / 2 + 1];
    static uint32_t direction[CELLS], cover[CELLS], group[CELLS], water[CELLS];
    static uint32_t soil[CELLS], snow[CELLS], memory[BALANCE_MEMORY], last, frost;
    static uint32_t result[5][CELLS];
    static uint64_t totals[BALANCE_TOTALS];
    unsigned char *to = out;
    uint64_t no = 0;

    assert(room >= TEXT_ROOM);
    if (n > TEXT_LONGEST)
        return (size_t)(append_refusal(to, refuse(11, 0)) - out);

    /* The tests that need no more than the count of numbers and the first five. */
    int good;
    const size_t count = scan(in, n, numbers, &good);
    const uint64_t width = numbers[0], height = numbers[1], entries = numbers[4];
    const uint64_t setup_count = 5 + 16 * entries + 4 * width * height;
    if (!good || count < 2)
        no = refuse(11, count);
    else if (width == 0 || height == 0 || width > CELLS || height > CELLS ||
             width * height > CELLS)
        no = refuse(1, 0);
    else if (count < 5)
        no = refuse(11, count);
    else if (entries == 0 || entries > BALANCE_MAX_COVERS)
        no = refuse(3, 0);
    else if (count < setup_count || (count - setup_count) % 7 != 0)
        no = refuse(11, count);
    if (no != 0)
        return (size_t)(append_refusal(to, no) - out);

    const struct recharge_site site = {.width = (uint32_t)width, .height = (uint32_t)height,
                                       .first_growing = numbers[2], .last_growing = numbers[3],
                                       .first_setpoint = TEXT_FIRST_SETPOINT,
                                       .second_setpoint = TEXT_SECOND_SETPOINT};
    const uint32_t *covers = numbers + 5;
    const size_t covers_len = 16 * entries, cells = site.width * site.height;
    const uint32_t *cell = covers + covers_len;
    size_t negative = cells; /* the lowest cell with a negative direction */
    for (size_t i = 0; i < cells; i++, cell += 4) {
        direction[i] = cell[0];
        cover[i] = cell[1];
        group[i] = cell[2];
        water[i] = cell[3];
        if (cell[0] > INT32_MAX && negative == cells)
            negative = i;
    }

    no = fast_fresh(site, covers, covers_len, direction, cells, cover, cells, group, cells, water,
                    cells, soil, cells, snow, cells, memory, &last, &frost);
    /* A negative direction is a 4 that the library does not know of: it gives way to any 1, 2
     * or 3 and to a 4 at a lower cell. */
    if (negative != cells && (no == 0 || no > refuse(4, negative)))
        no = refuse(4, negative);

    const uint32_t *day = cell;
    for (; no == 0 && day != numbers + count; day += 7) {
        const struct recharge_day_record record = {day[0], day[1], day[2], (int32_t)day[3],
                                                   (int32_t)day[4], (int32_t)day[5], day[6]};
        no = fast_day(site, covers, covers_len, direction, cells, cover, cells, group, cells, water,
                      cells, soil, cells, snow, cells, memory, &last, &frost, result[0], cells,
                      result[1], cells, result[2], cells, result[3], cells, result[4], cells,
                      totals, record);
        if (no != 0)
            break;
        assert((size_t)(to - out) + LONGEST_LINE <= room);
        to = append(to, day[0], ' ');
        for (int i = 0; i < BALANCE_TOTALS; i++)
            to = append(to, totals[i], i + 1 < BALANCE_TOTALS ? ' ' : '\n');
    }
    if (no != 0)
        return (size_t)(append_refusal(to, no) - out);
    memcpy(to, "end ", 4);
    to = append(to + 4, (uint64_t)(day - cell) / 7, '\n');
    return (size_t)(to - out);
}
