/* How long the whole command takes: the program `sheet` on a folder with the grid that is timed and a year of days, its start, its reading and its writing
 * included, against as many day calls of fast.c, which reads and writes nothing. */
#include "speed.h"

#include <fcntl.h>
#include <spawn.h>
#include <stdio.h>
#include <stdlib.h>
#include <sys/stat.h>
#include <sys/wait.h>

enum { LONGEST_NAME = 256 };

static FILE *opened(const char *folder, const char *name)
{
    char path[LONGEST_NAME];

    snprintf(path, sizeof path, "%s/%s", folder, name);
    FILE *file = fopen(path, "w");
    if (file == NULL) {
        perror(path);
        exit(1);
    }
    return file;
}

static void put_grid(const char *folder, const char *name, const uint32_t *cell)
{
    FILE *file = opened(folder, name);

    fprintf(file, "ncols %u\nnrows %u\nxllcorner 0\nyllcorner 0\ncellsize 30\nNODATA_value -9999\n", width, height);
    for (uint32_t i = 0; i < cells; i++)
        fprintf(file, "%u%c", cell[i], (i + 1) % width == 0 ? '\n' : ' ');
    fclose(file);
}

static void put_covers(const char *folder)
{
    FILE *file = opened(folder, "covers.txt");

    fprintf(file, "%u %u\n%u\n", site().first_growing, site().last_growing, (unsigned)COVERS);
    for (size_t i = 0; i < sizeof covers / sizeof covers[0]; i++)
        fprintf(file, "%u%c", covers[i], (i + 1) % BALANCE_ENTRY == 0 ? '\n' : ' ');
    fclose(file);
}

static void put_weather(const char *folder)
{
    FILE *file = opened(folder, "weather.txt");

    for (uint32_t n = 0; n < YEAR; n++) {
        const struct recharge_day_record d = day_of(n);
        fprintf(file, "%u %u %u %d %d %d %u\n", d.serial, d.day_of_year, d.gross, d.minimum, d.mean, d.maximum, d.potential);
    }
    fclose(file);
}

static void put_folder(const char *folder)
{
    mkdir(folder, 0777);
    put_grid(folder, "direction.asc", direction);
    put_grid(folder, "cover.asc", cover);
    put_grid(folder, "group.asc", group);
    put_grid(folder, "water.asc", water);
    put_covers(folder);
    put_weather(folder);
}

/* Without the files of the run before: to rename over an old file costs the system more than to rename. */
static void remove_sheet(const char *folder)
{
    static const char *const names[] = {"recharge.asc", "evapotranspiration.asc", "outflow.asc", "interception.asc", "rejected.asc",
                                        "soil.asc", "snow.asc", "days.txt", "sheet.txt", "recharge.svg"};
    char path[LONGEST_NAME];

    for (size_t i = 0; i < sizeof names / sizeof names[0]; i++) {
        snprintf(path, sizeof path, "%s/sheet/%s", folder, names[i]);
        remove(path);
    }
}

/* The program has no status of its own: that it made a sheet shows by what it printed. */
static double run_program(const char *program, const char *folder, const char *printed)
{
    char *const arguments[] = {(char *)program, (char *)folder, NULL};
    char *const environment[] = {NULL};
    posix_spawn_file_actions_t actions;
    struct stat shown;
    pid_t child;

    remove_sheet(folder);
    posix_spawn_file_actions_init(&actions);
    posix_spawn_file_actions_addopen(&actions, 1, printed, O_WRONLY | O_CREAT | O_TRUNC, 0666);
    double before = microseconds();
    if (posix_spawn(&child, program, &actions, NULL, arguments, environment) != 0 || waitpid(child, NULL, 0) != child) {
        perror(program);
        exit(1);
    }
    double spent = microseconds() - before;
    posix_spawn_file_actions_destroy(&actions);
    if (stat(printed, &shown) != 0 || shown.st_size == 0) {
        printf("%s made no sheet of %s\n", program, folder);
        exit(1);
    }
    return spent;
}

/* Turn and turn about; who begins changes from round to round. */
void measure_sheet(const char *name, const char *program, const char *folder, const char *printed, int rounds)
{
    static double ratios[MOST_ROUNDS];
    double least[2] = {1e30, 1e30};

    put_folder(folder);
    for (int n = -1; n < rounds; n++) { /* one round to warm up */
        double spent[2];
        for (int turn = 0; turn < 2; turn++) {
            int which = (n + turn) & 1;
            spent[which] = which == FAST ? fast_year() : run_program(program, folder, printed);
        }
        if (n < 0)
            continue;
        ratios[n] = spent[PROVED] / spent[FAST];
        for (int which = 0; which < 2; which++)
            least[which] = spent[which] < least[which] ? spent[which] : least[which];
    }
    print_line(name, least, ratios, rounds);
}
