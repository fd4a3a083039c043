/* The program `sheet` over the plain C, as plainly as it can be said: a folder's grids, covers and weather, every day of it one after another by the plain C's own
 * day, and of all days the ten files of the sheet.
 *
 *     plain_sheet FOLDER OUT
 *
 * Writes the ten files into the folder OUT, which it makes where it is missing, and prints sheet.txt. Where something is wrong it writes nothing, says what the
 * proved program says on standard error, by that program's name, and ends with status 1. It does not write beside and rename. */
#include "plain_sheet.h"

#include <errno.h>
#include <stdio.h>
#include <string.h>
#include <sys/stat.h>

enum {
    GRIDS = 4, /* the first files: direction, cover, group and water */
    COVERS = 4,
    WEATHER = 5,
    FILES = 6,
    LONGEST_GRID = 262144,
    LONGEST_WEATHER = 524288,
    MOST_DAYS = 20000,
    LONGEST_PATH = 8192,
    ROOM = 1 << 22
};

static const char *const file_names[FILES] = {"direction.asc", "cover.asc", "group.asc", "water.asc", "covers.txt", "weather.txt"};

struct file {
    unsigned char bytes[LONGEST_WEATHER + 1]; /* one more than the longest, to notice a longer one */
    size_t length;
};

struct map {
    uint32_t numbers[BALANCE_GRID_NUMBERS]; /* columns, rows, and how long each of the three texts is */
    int32_t no_data;
    uint8_t x_corner[BALANCE_MEASURE], y_corner[BALANCE_MEASURE], cell_size[BALANCE_MEASURE]; /* zeros behind the text */
    int32_t cells[BALANCE_MAX_CELLS];
};

static const char *folder;
static struct file files[FILES];
static struct map maps[GRIDS];
static struct grid ground;
static int32_t days[MOST_DAYS * DAY_NUMBERS];
static uint64_t totals[MOST_DAYS * BALANCE_TOTALS];
static struct sheet sheet;

/* ---------------------------------------------------------------- what is said */

/* A path below a folder, which may be named with a slash behind it. */
static const char *path_of(const char *in, const char *name)
{
    static char path[LONGEST_PATH];
    size_t length = strlen(in);

    snprintf(path, sizeof path, "%s%s%s", in, length > 0 && in[length - 1] == '/' ? "" : "/", name);
    return path;
}

static void say_file(int file)
{
    fprintf(stderr, "sheet: %s: ", path_of(folder, file_names[file]));
}

static bool is_wrong(int file, const char *what)
{
    say_file(file);
    fprintf(stderr, "%s\n", what);
    return false;
}

/* The line of a word of a file, both being counted as people do for the line, and from 0 for the word. */
static unsigned line_of(int file, size_t word)
{
    size_t at = 0, start = 0;
    unsigned line = 1;

    for (size_t k = 0; next_word(files[file].bytes, files[file].length, &at, &start) && k < word;)
        k++;
    for (size_t i = 0; i < start; i++)
        line += files[file].bytes[i] == '\n';
    return line;
}

static bool is_wrong_at_word(int file, size_t word, size_t place, const char *what)
{
    say_file(file);
    fprintf(stderr, "line %u: refused 11 at %zu: %s\n", line_of(file, word), place, what);
    return false;
}

static unsigned row_of(uint32_t cell)
{
    return cell / sheet.width + 1;
}

static unsigned column_of(uint32_t cell)
{
    return cell % sheet.width + 1;
}

static bool is_wrong_at_cell(int file, unsigned number, uint32_t cell, const char *what)
{
    say_file(file);
    fprintf(stderr, "row %u, column %u: refused %u at %u: %s\n", row_of(cell), column_of(cell), number, (unsigned)cell, what);
    return false;
}

/* ---------------------------------------------------------------- files */

static size_t longest_of(int file)
{
    return file < GRIDS ? LONGEST_GRID : file == COVERS ? TEXT_LONGEST : LONGEST_WEATHER;
}

static bool read_file(int file)
{
    FILE *in = fopen(path_of(folder, file_names[file]), "r");
    size_t longest = longest_of(file);

    if (in == NULL)
        return is_wrong(file, strerror(errno));
    files[file].length = fread(files[file].bytes, 1, longest + 1, in);
    if (ferror(in))
        return is_wrong(file, strerror(errno));
    fclose(in);
    if (files[file].length <= longest)
        return true;
    say_file(file);
    fprintf(stderr, "longer than %zu bytes\n", longest);
    return false;
}

/* The weather is read when nothing is wrong with the others. */
static bool read_files(void)
{
    for (int i = 0; i < WEATHER; i++)
        if (!read_file(i))
            return false;
    return true;
}

/* ---------------------------------------------------------------- the setup */

static bool read_maps(void)
{
    for (int i = 0; i < GRIDS; i++) {
        struct map *map = &maps[i];
        uint64_t no = plain_grid_read(files[i].bytes, files[i].length, map->cells, BALANCE_MAX_CELLS, map->numbers,
                                      &map->no_data, map->x_corner, map->y_corner, map->cell_size);
        if (no != 0) {
            say_file(i);
            fprintf(stderr, "refused %u at %u\n", (unsigned)(no >> 32), (unsigned)no);
            return false;
        }
    }
    return true;
}

static bool is_same(const uint8_t *text, const uint8_t *other)
{
    return memcmp(text, other, BALANCE_MEASURE) == 0;
}

/* What of a map is another than of the first, or NULL. */
static const char *differs(const struct map *map, const struct map *first)
{
    if (map->numbers[0] != first->numbers[0] || map->numbers[1] != first->numbers[1])
        return "size";
    if (!is_same(map->x_corner, first->x_corner) || !is_same(map->y_corner, first->y_corner))
        return "corner";
    return is_same(map->cell_size, first->cell_size) ? NULL : "cell size";
}

static bool fit_the_first(void)
{
    for (int i = 1; i < GRIDS; i++) {
        const char *what = differs(&maps[i], &maps[0]);
        if (what != NULL) {
            say_file(i);
            fprintf(stderr, "another %s than %s\n", what, path_of(folder, file_names[0]));
            return false;
        }
    }
    return true;
}

/* A season, a count of covers from 1 to 64, and 16 words for each. Only the count is looked at. */
static bool is_cover_file(void)
{
    const struct file *file = &files[COVERS];
    size_t words = 0, start;
    int32_t count = 0;

    for (size_t at = 0; next_word(file->bytes, file->length, &at, &start); words++)
        if (words == 2 && !plain_number(file->bytes + start, at - start, &count))
            count = 0;
    if (count >= 1 && count <= BALANCE_MAX_COVERS && words == 3 + BALANCE_ENTRY * (size_t)count)
        return true;
    return is_wrong(COVERS, "not a season, a count of covers and 16 numbers for each");
}

static void put_cell(struct output *o, int32_t number, char behind)
{
    if (number < 0)
        put_byte(o, '-');
    put_number(o, (uint64_t)(number < 0 ? -number : number));
    put_byte(o, behind);
}

/* The text that `balance` begins with: width and height, the covers and the cells. */
static void put_setup(struct output *o)
{
    put_number(o, maps[0].numbers[0]);
    put_byte(o, ' ');
    put_number(o, maps[0].numbers[1]);
    put_byte(o, '\n');
    for (size_t i = 0; i < files[COVERS].length; i++)
        put_byte(o, (char)files[COVERS].bytes[i]);
    put_byte(o, '\n');
    for (uint32_t cell = 0; cell < maps[0].numbers[0] * maps[0].numbers[1]; cell++)
        for (int i = 0; i < GRIDS; i++)
            put_cell(o, maps[i].cells[cell], i + 1 < GRIDS ? ' ' : '\n');
}

static bool take_up_setup(void)
{
    static unsigned char text[ROOM];
    struct output o = {text, sizeof text, 0};

    put_setup(&o);
    if (o.used > TEXT_LONGEST) {
        say_file(COVERS);
        fprintf(stderr, "the setup would have %zu bytes, and 65536 are the most\n", o.used);
        return false;
    }
    uint64_t no = plain_take_up(text, o.used, &ground);
    size_t place = (size_t)(no & UINT32_MAX) - 2; /* width and height stand before the covers */
    return no == 0 || is_wrong_at_word(COVERS, place, place, "not a whole number of 1 to 9 digits");
}

/* ---------------------------------------------------------------- the weather */

static bool read_weather(void)
{
    const struct file *file = &files[WEATHER];
    size_t count = 0;

    if (!read_file(WEATHER))
        return false;
    for (size_t at = 0, start; next_word(file->bytes, file->length, &at, &start); count++) {
        int32_t number;
        if (!plain_number(file->bytes + start, at - start, &number))
            return is_wrong_at_word(WEATHER, count, count, "not a whole number of 1 to 9 digits");
        if (count == MOST_DAYS * DAY_NUMBERS)
            return is_wrong(WEATHER, "more than 20000 days");
        days[count] = number;
    }
    if (count % DAY_NUMBERS != 0)
        return is_wrong_at_word(WEATHER, count - count % DAY_NUMBERS, count, "the last day has fewer than 7 numbers");
    sheet.days = count / DAY_NUMBERS;
    return true;
}

/* ---------------------------------------------------------------- refusals of the setup and of a day */

/* Refusal 4: which of the cell's numbers is at fault. */
static bool is_wrong_cell(uint32_t cell)
{
    bool known = false;

    for (size_t i = 0; i < ground.covers_len; i += BALANCE_ENTRY)
        known = known || (int64_t)ground.covers[i] == maps[1].cells[cell];
    if (maps[0].cells[cell] < 0)
        return is_wrong_at_cell(0, 4, cell, "a direction below zero");
    if (!known)
        return is_wrong_at_cell(1, 4, cell, "the cover table has no entry for this cover");
    if (maps[2].cells[cell] < 1 || maps[2].cells[cell] > 4)
        return is_wrong_at_cell(2, 4, cell, "a soil group outside 1 to 4");
    return is_wrong_at_cell(3, 4, cell, "available water outside 0 to 600");
}

static bool is_wrong_setup(uint64_t no)
{
    uint32_t place = (uint32_t)(no & UINT32_MAX);

    switch (no >> 32) {
    case 3:
        say_file(COVERS);
        fprintf(stderr, "entry %u: refused 3 at %u: the order of the codes, or a figure of this cover outside its limits\n", (unsigned)place,
                (unsigned)place);
        return false;
    case 4: return is_wrong_cell(place);
    case 5: return is_wrong_at_cell(0, 5, place, "the directions lead round in a ring");
    default: return is_wrong(COVERS, "refused 6 at 0: the growing season is outside its limits");
    }
}

static bool is_wrong_day(size_t day, uint64_t no)
{
    uint32_t place = (uint32_t)(no & UINT32_MAX);

    say_file(WEATHER);
    fprintf(stderr, "line %u: refused %u at %u: ", line_of(WEATHER, day * DAY_NUMBERS), (unsigned)(no >> 32), (unsigned)place);
    switch (no >> 32) {
    case 7: fputs("a figure of this day is outside its limits\n", stderr); break;
    case 8: fputs("the serial does not follow that of the day before\n", stderr); break;
    default: fprintf(stderr, "the snow of row %u, column %u passes 1,000 inches of water\n", row_of(place), column_of(place));
    }
    return false;
}

/* ---------------------------------------------------------------- the run */

/* A number on its way to a field that takes none below 0. */
static uint32_t to_field(int32_t number)
{
    return number < 0 ? UINT32_MAX : (uint32_t)number;
}

static bool run_day(size_t day)
{
    const int32_t *d = &days[day * DAY_NUMBERS];

    ground.day[0] = (struct recharge_day_record){to_field(d[SERIAL]), to_field(d[DAY_OF_YEAR]), to_field(d[GROSS]), d[MINIMUM],
                                                 d[MEAN], d[MAXIMUM], to_field(d[POTENTIAL])};
    uint64_t no = plain_run_day(&ground, 0);
    if (no != 0)
        return is_wrong_day(day, no);
    memcpy(&totals[day * BALANCE_TOTALS], ground.totals, sizeof ground.totals);
    for (size_t cell = 0; cell < ground.cells; cell++) {
        sheet.sum[SUM_INTERCEPTED][cell] += ground.intercepted[cell];
        sheet.sum[SUM_OUTFLOW][cell] += ground.outflow[cell];
        sheet.sum[SUM_EVAPOTRANSPIRED][cell] += ground.evapotranspired[cell];
        sheet.sum[SUM_RECHARGED][cell] += ground.recharged[cell];
        sheet.sum[SUM_REJECTED][cell] += ground.rejected[cell];
    }
    return true;
}

static bool run_days(void)
{
    uint64_t no = plain_start(&ground);

    if (no != 0)
        return is_wrong_setup(no);
    for (size_t cell = 0; cell < ground.cells; cell++)
        sheet.stored_at_start += ground.soil[cell];
    for (size_t day = 0; day < sheet.days; day++)
        if (!run_day(day))
            return false;
    return true;
}

static void copy(uint32_t *to, const uint32_t *from)
{
    memcpy(to, from, ground.cells * sizeof *to);
}

/* What of the ground the sheet shows, before the run; and of its state, after it. */
static void lay_ground(void)
{
    sheet.width = ground.site.width;
    sheet.height = ground.site.height;
    sheet.cells = (uint32_t)ground.cells;
    sheet.first_growing = ground.site.first_growing;
    sheet.last_growing = ground.site.last_growing;
    memcpy(sheet.covers, ground.covers, sizeof sheet.covers);
    sheet.covers_len = ground.covers_len;
    copy(sheet.direction, ground.direction);
    copy(sheet.cover, ground.cover);
    copy(sheet.group, ground.group);
    copy(sheet.water, ground.water);
    sheet.day = days;
    sheet.totals = totals;
}

static void lay_state(void)
{
    copy(sheet.soil, ground.soil);
    copy(sheet.snow, ground.snow);
}

/* ---------------------------------------------------------------- the ten files */

static unsigned char text[ROOM];

static bool write_text(const char *out, const char *name, size_t length)
{
    FILE *to = fopen(path_of(out, name), "w");

    if (to != NULL && fwrite(text, 1, length, to) == length && fclose(to) == 0)
        return true;
    fprintf(stderr, "sheet: %s: %s\n", path_of(out, name), strerror(errno));
    return false;
}

/* With the header of the first grid; a depth could equal a number for no data that is not below zero. */
static bool write_depths(const char *out, const char *name, const uint64_t *units)
{
    const struct map *m = &maps[0];
    uint64_t written;

    if (plain_grid_inches(m->numbers, m->no_data < 0 ? m->no_data : -9999, m->x_corner, m->y_corner, m->cell_size, units, ground.cells,
                          text, sizeof text, &written) == 0)
        return write_text(out, name, written);
    fprintf(stderr, "sheet: %s: no grid\n", name);
    return false;
}

static bool write_store(const char *out, const char *name, const uint32_t *store)
{
    static uint64_t units[BALANCE_MAX_CELLS];

    for (size_t cell = 0; cell < ground.cells; cell++)
        units[cell] = store[cell];
    return write_depths(out, name, units);
}

static void put_days(struct output *o)
{
    for (size_t day = 0; day < sheet.days; day++) {
        put_number(o, (uint64_t)days[day * DAY_NUMBERS + SERIAL]);
        for (size_t i = 0; i < BALANCE_TOTALS; i++) {
            put_byte(o, ' ');
            put_number(o, totals[day * BALANCE_TOTALS + i]);
        }
        put_byte(o, '\n');
    }
    put_end(o, sheet.days);
}

static bool write_put(const char *out, const char *name, void put(struct output *o))
{
    struct output o = {text, sizeof text, 0};

    put(&o);
    return write_text(out, name, o.used);
}

static void put_sheet(struct output *o)
{
    plain_put_sheet(&sheet, o);
}

static void put_map(struct output *o)
{
    plain_put_map(&sheet, o);
}

static bool write_files(const char *out)
{
    mkdir(out, 0777); /* it may stand */
    return write_depths(out, "recharge.asc", sheet.sum[SUM_RECHARGED]) &&
           write_depths(out, "evapotranspiration.asc", sheet.sum[SUM_EVAPOTRANSPIRED]) &&
           write_depths(out, "outflow.asc", sheet.sum[SUM_OUTFLOW]) &&
           write_depths(out, "interception.asc", sheet.sum[SUM_INTERCEPTED]) &&
           write_depths(out, "rejected.asc", sheet.sum[SUM_REJECTED]) && write_store(out, "soil.asc", sheet.soil) &&
           write_store(out, "snow.asc", sheet.snow) && write_put(out, "days.txt", put_days) &&
           write_put(out, "sheet.txt", put_sheet) && write_put(out, "recharge.svg", put_map);
}

static bool print_sheet(void)
{
    struct output o = {text, sizeof text, 0};

    put_sheet(&o);
    if (fwrite(text, 1, o.used, stdout) == o.used && fflush(stdout) == 0)
        return true;
    fprintf(stderr, "sheet: standard output: %s\n", strerror(errno));
    return false;
}

int main(int argc, char **argv)
{
    if (argc != 3) {
        fputs("usage: plain_sheet FOLDER OUT\n", stderr);
        return 2;
    }
    folder = argv[1];
    if (!read_files() || !read_maps() || !fit_the_first() || !is_cover_file() || !take_up_setup())
        return 1;
    lay_ground();
    if (!read_weather() || !run_days())
        return 1;
    lay_state();
    return write_files(argv[2]) && print_sheet() ? 0 : 1;
}
