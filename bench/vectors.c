/* The vectors: texts for the program `balance`, each made to reach one thing, with the output
 * that the plain C gives for it.
 *
 *     vectors PACK LIST [NAME TEXT]...
 *
 * writes PACK, which crates/vectors reads, and LIST for people: one line a vector with its number
 * (counted from 1), the bytes of its text and output, the last line, its name and why it is here.
 * A TEXT is a file that becomes a vector too, under the NAME before it.
 *
 * In PACK each vector is two lengths of six digits, "IIIIII OOOOOO" and a line feed, then the
 * input's bytes, then the output's.
 *
 * Each case says its own last line beforehand, or its last lines, worked out from documents 01 and
 * 02 apart from the C. A case that ends otherwise stops this program, so the expected outputs rest
 * on two readings of the paper. */
#include "cases.h"
#include "text.h"
#include "vectors.h"

#include <stdarg.h>
#include <stdio.h>
#include <stdlib.h>
#include <string.h>

enum { ROOM = 100000 };

static unsigned char text[ROOM], output[TEXT_ROOM];
static size_t used;
static FILE *pack, *list;
static unsigned number;

/* ---------------------------------------------------------------- one text */

void put(const char *format, ...)
{
    va_list arguments;

    va_start(arguments, format);
    int n = vsnprintf((char *)text + used, ROOM - used, format, arguments);
    va_end(arguments);
    if (n < 0 || used + (size_t)n >= ROOM) {
        fprintf(stderr, "vectors: a text is too long\n");
        exit(2);
    }
    used += (size_t)n;
}

void put_byte(int byte)
{
    text[used++] = (unsigned char)byte;
}

void pad_to(size_t length)
{
    while (used < length)
        put_byte(used % 80 == 79 ? '\n' : ' ');
}

void put_cover(int code, int water, int curve, int most, int growing, int dormant, int root)
{
    put("%d %d %d %d %d %d %d %d %d %d %d %d %d %d %d %d\n", code, water, curve, curve, curve,
        curve, most, most, most, most, growing, dormant, root, root, root, root);
}

void put_three_covers(void)
{
    put("3\n");
    put_cover(1, 0, 100, 100000, 0, 0, 0);
    put_cover(2, 0, 70, 6000, 500, 100, 200);
    put_cover(3, 1, 100, 0, 0, 0, 0);
}

/* ---------------------------------------------------------------- one vector */

/* Where the last line of the output starts; every output ends in one line feed. */
static const char *last_line(size_t n)
{
    size_t start = n - 1;

    while (start > 0 && output[start - 1] != '\n')
        start--;
    output[n - 1] = 0;
    return (const char *)output + start;
}

/* Is this the end of the output's n bytes, without the last line feed, from the start of a line on? */
static bool ends_in(size_t n, const char *ends)
{
    size_t length = strlen(ends);

    return length < n && strcmp((const char *)output + (n - 1 - length), ends) == 0 &&
           (length == n - 1 || output[n - 2 - length] == '\n');
}

void vector(const char *name, const char *ends, const char *reason)
{
    size_t n = plain_text(text, used, output, sizeof output);

    number++;
    fprintf(pack, "%06zu %06zu\n", used, n);
    fwrite(text, 1, used, pack);
    fwrite(output, 1, n, pack);
    const char *last = last_line(n);
    if (ends != NULL && !ends_in(n, ends)) {
        fprintf(stderr, "vectors: %s ends in '%s' and not in '%s':\n%s\n", name, last, ends, output);
        exit(1);
    }
    fprintf(list, "%03u\t%5zu\t%6zu\t%-18s\t%s: %s\n", number, used, n, last, name, reason);
    used = 0;
}

/* ---------------------------------------------------------------- the program */

static FILE *opened(const char *path, const char *mode)
{
    FILE *file = fopen(path, mode);

    if (file == NULL) {
        perror(path);
        exit(2);
    }
    return file;
}

static void from_file(const char *name, const char *path)
{
    FILE *file = opened(path, "rb");

    used = fread(text, 1, ROOM, file);
    fclose(file);
    vector(name, NULL, "a text of examples/");
}

/* Random texts, valid or damaged, from fuzz's own maker; the short ones among them. */
static void random_texts(unsigned count)
{
    static unsigned char made[CASE_TEXT_ROOM];
    char name[40];

    for (uint64_t seed = 1; count > 0; seed++) {
        start_random(~seed);
        size_t n = make_text(made);
        if (n > 3000)
            continue;
        memcpy(text, made, used = n);
        snprintf(name, sizeof name, "random text %llu", (unsigned long long)seed);
        vector(name, NULL, "seeded, valid or damaged, of fuzz.c's maker");
        count--;
    }
}

int main(int argc, char **argv)
{
    if (argc < 3 || argc % 2 == 0) {
        fprintf(stderr, "usage: vectors PACK LIST [NAME TEXT]...\n");
        return 2;
    }
    pack = opened(argv[1], "wb");
    list = opened(argv[2], "w");
    form_cases();
    limit_cases();
    grid_cases();
    weather_cases();
    for (int i = 3; i < argc; i += 2)
        from_file(argv[i], argv[i + 1]);
    random_texts(100);
    /* As they landed, so that the numbers before them are what they were. */
    frost_cases();
    melt_cases();
    rejected_cases();
    return fclose(pack) == 0 && fclose(list) == 0 ? 0 : 2;
}
