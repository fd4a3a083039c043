/* The program `setup` of M-101 over plain_grids.c, as plainly as it can be said: of a mapping desk's four grids, a cover file and a
 * weather file the text that `balance` reads.
 *
 *     plain_setup_text DIRECTION COVER GROUP WATER COVERS WEATHER
 *
 * Says what the proved program says, also on standard error, and by that program's name. */
#include "plain_text.h"

#include <errno.h>
#include <stdio.h>
#include <string.h>

enum {
    GRIDS = 4, /* the first files: direction, cover, group and water */
    COVERS = 4,
    WEATHER = 5,
    FILES = 6,
    LONGEST_NAME = 4096,
    LONGEST_GRID = 262144,
    LONGEST_OTHER = TEXT_LONGEST,
    /* The most bytes of the output: columns and rows, each file whole, and of each cell four numbers of up to nine digits with a minus
     * in front and a blank or a line feed behind. */
    ROOM = 12 + 2 * (LONGEST_OTHER + 1) + BALANCE_MAX_CELLS * GRIDS * 11
};

struct file {
    const char *name;
    unsigned char bytes[LONGEST_GRID + 1]; /* one more than the longest, to notice a longer one */
    size_t length;
};

struct map {
    uint32_t numbers[BALANCE_GRID_NUMBERS]; /* columns, rows, and how long each of the three texts is */
    int32_t no_data;
    uint8_t x_corner[BALANCE_MEASURE], y_corner[BALANCE_MEASURE], cell_size[BALANCE_MEASURE]; /* zeros behind the text */
    int32_t cells[BALANCE_MAX_CELLS];
};

static bool is_wrong(const char *name, const char *what)
{
    fprintf(stderr, "setup: %s: %s\n", name, what);
    return false;
}

/* ---------------------------------------------------------------- files */

static bool are_arguments(int argc, char **argv)
{
    if (argc != 1 + FILES) {
        fputs("usage: setup DIRECTION COVER GROUP WATER COVERS WEATHER\n", stderr);
        return false;
    }
    for (int i = 1; i < argc; i++)
        if (argv[i][0] == '\0' || strlen(argv[i]) > LONGEST_NAME) {
            fputs("setup: a file's name has more than 4096 bytes\n", stderr);
            return false;
        }
    return true;
}

static bool read_file(struct file *file, size_t longest)
{
    FILE *in = fopen(file->name, "r");

    if (in == NULL)
        return is_wrong(file->name, strerror(errno));
    file->length = fread(file->bytes, 1, longest + 1, in);
    if (ferror(in))
        return is_wrong(file->name, strerror(errno));
    fclose(in);
    if (file->length > longest)
        return is_wrong(file->name, longest == LONGEST_GRID ? "longer than 262144 bytes" : "longer than 65536 bytes");
    return true;
}

static bool read_files(struct file *files, char **names)
{
    for (int i = 0; i < FILES; i++) {
        files[i].name = names[i];
        if (!read_file(&files[i], i < GRIDS ? LONGEST_GRID : LONGEST_OTHER))
            return false;
    }
    return true;
}

/* ---------------------------------------------------------------- grids */

static bool read_maps(const struct file *files, struct map *maps)
{
    for (int i = 0; i < GRIDS; i++) {
        struct map *map = &maps[i];
        uint64_t no = plain_grid_read(files[i].bytes, files[i].length, map->cells, BALANCE_MAX_CELLS, map->numbers,
                                      &map->no_data, map->x_corner, map->y_corner, map->cell_size);
        if (no != 0) {
            fprintf(stderr, "setup: %s: refused %u at %u\n", files[i].name, (unsigned)(no >> 32), (unsigned)no);
            return false;
        }
    }
    return true;
}

/* Texts of other lengths differ too: what is behind a text is zeros, and no zero is in one. */
static bool is_same(const uint8_t *text, const uint8_t *other)
{
    return memcmp(text, other, BALANCE_MEASURE) == 0;
}

/* What of a map is another than of the first, or NULL. */
static const char *differs(const struct map *map, const struct map *first)
{
    if (map->numbers[0] != first->numbers[0] || map->numbers[1] != first->numbers[1])
        return "size";
    if (!is_same(map->x_corner, first->x_corner) || !is_same(map->y_corner, first->y_corner))
        return "corner";
    return is_same(map->cell_size, first->cell_size) ? NULL : "cell size";
}

static bool fit_the_first(const struct file *files, const struct map *maps)
{
    for (int i = 1; i < GRIDS; i++) {
        const char *what = differs(&maps[i], &maps[0]);
        if (what != NULL) {
            fprintf(stderr, "setup: %s: another %s than %s\n", files[i].name, what, files[0].name);
            return false;
        }
    }
    return true;
}

/* ---------------------------------------------------------------- the text */

/* A season, a count of covers from 1 to 64, and 16 words for each. Only the count is looked at. */
static bool is_cover_file(const struct file *file)
{
    size_t words = 0, start;
    int32_t count = 0;

    for (size_t at = 0; next_word(file->bytes, file->length, &at, &start); words++)
        if (words == 2 && !plain_number(file->bytes + start, at - start, &count))
            count = 0;
    if (count >= 1 && count <= BALANCE_MAX_COVERS && words == 3 + BALANCE_ENTRY * (size_t)count)
        return true;
    return is_wrong(file->name, "not a season, a count of covers and 16 numbers for each");
}

static void put_file(struct output *o, const struct file *file)
{
    for (size_t i = 0; i < file->length; i++)
        put_byte(o, (char)file->bytes[i]);
}

static void put_cell(struct output *o, int32_t number, char behind)
{
    if (number < 0)
        put_byte(o, '-');
    put_number(o, (uint64_t)(number < 0 ? -number : number));
    put_byte(o, behind);
}

static void put_text(struct output *o, const struct file *files, const struct map *maps)
{
    uint32_t columns = maps[0].numbers[0], rows = maps[0].numbers[1];

    put_number(o, columns);
    put_byte(o, ' ');
    put_number(o, rows);
    put_byte(o, '\n');
    put_file(o, &files[COVERS]);
    put_byte(o, '\n');
    for (uint32_t cell = 0; cell < columns * rows; cell++)
        for (int i = 0; i < GRIDS; i++)
            put_cell(o, maps[i].cells[cell], i + 1 < GRIDS ? ' ' : '\n');
    put_file(o, &files[WEATHER]);
}

int main(int argc, char **argv)
{
    static struct file files[FILES];
    static struct map maps[GRIDS];
    static unsigned char out[ROOM];
    struct output o = {out, sizeof out, 0};

    if (!are_arguments(argc, argv) || !read_files(files, argv + 1) || !read_maps(files, maps) || !fit_the_first(files, maps) ||
        !is_cover_file(&files[COVERS]))
        return 1;
    put_text(&o, files, maps);
    if (o.used > TEXT_LONGEST) {
        fprintf(stderr, "setup: the text would have %zu bytes, and balance reads 65536\n", o.used);
        return 1;
    }
    if (fwrite(out, 1, o.used, stdout) != o.used || fflush(stdout) != 0) {
        is_wrong("standard output", strerror(errno));
        return 1;
    }
    return 0;
}
