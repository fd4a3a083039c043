/* An Arc ASCII grid of whole numbers in; the same grid in its one written form out.
 *
 *     grid < GRID
 *
 * A text that is refused is answered with `refused 12 at P`, and status 1; a read or a write that fails is said on standard error, with status 2.
 * `run.sh` builds and tries it. */
#include "recharge.h"

#include <inttypes.h>
#include <stdio.h>
#include <stdlib.h>

static int32_t cells[RECHARGE_MAX_CELLS];
static uint8_t form[RECHARGE_GRID_TEXT];

static int failed(const char *what)
{
    perror(what);
    return 2;
}

/* All of standard input, whose length no rule limits; NULL where there is no memory for it. */
static uint8_t *read_all(size_t *length)
{
    size_t room = RECHARGE_GRID_TEXT;
    uint8_t *text = malloc(room);

    for (*length = 0; text != NULL; room *= 2) {
        *length += fread(text + *length, 1, room - *length, stdin);
        if (*length < room)
            break; /* the end, or a read that failed */
        uint8_t *longer = realloc(text, 2 * room);
        if (longer == NULL)
            free(text);
        text = longer;
    }
    return text;
}

int main(void)
{
    struct recharge_grid_header header;
    uint64_t written = 0;
    size_t length;
    uint8_t *text = read_all(&length);

    if (text == NULL || ferror(stdin))
        return failed("grid: standard input");
    uint64_t returned = recharge_read_grid(text, length, cells, RECHARGE_MAX_CELLS, &header);
    free(text);
    if (returned == 0)
        returned = recharge_write_grid(&header, cells, (size_t)header.columns * header.rows, form, sizeof form, &written);
    if (returned != 0)
        printf("refused %" PRIu32 " at %" PRIu32 "\n", RECHARGE_NUMBER(returned), RECHARGE_PLACE(returned));
    fwrite(form, 1, written, stdout);
    if (fflush(stdout) != 0 || ferror(stdout))
        return failed("grid: standard output");
    return returned == 0 ? 0 : 1;
}
