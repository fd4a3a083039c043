/* Texts: the outputs of all text functions are the same. */
#include "fuzz.h"

#include <inttypes.h>
#include <stdio.h>
#include <stdlib.h>
#include <string.h>

static unsigned char text_in[CASE_TEXT_ROOM], text_out[MOST_IMPLEMENTATIONS][TEXT_ROOM];

/* Counts the refusal of the last line, or an accepted end as 0. */
static void count_text(const unsigned char *out, size_t n)
{
    unsigned long long number = 0, place = 0;
    char last[100] = "";
    size_t start = n - 1; /* past the last line feed but one */

    if (n == 0 || out[n - 1] != '\n')
        fail("an output that does not end in a line feed");
    while (start > 0 && out[start - 1] != '\n')
        start--;
    for (size_t i = 0; i < start; i++)
        tally.text_days += out[i] == '\n';
    if (n - start >= sizeof last)
        fail("a last line that is too long");
    memcpy(last, out + start, n - start);
    if (sscanf(last, "refused %llu at %llu", &number, &place) == 2 && number >= 1 && number <= 11)
        tally.text[number]++;
    else if (sscanf(last, "end %llu", &place) == 1)
        tally.text[0]++;
    else
        fail("a last line of neither kind: %s", last);
}

/* The n bytes of text_in, by all. */
static void all_texts(size_t n)
{
    size_t used[MOST_IMPLEMENTATIONS] = {0};

    /* An exact copy, so that memory checkers see any reading past the end. */
    unsigned char *in = malloc(n == 0 ? 1 : n);
    if (in == NULL)
        fail("no memory");
    memcpy(in, text_in, n);
    for (size_t x = 0; x < texts_count; x++)
        used[x] = texts[x].run(in, n, text_out[x], TEXT_ROOM);
    free(in);
    for (size_t x = 1; x < texts_count; x++)
        if (used[x] != used[0] || memcmp(text_out[x], text_out[0], used[0]) != 0)
            fail("the outputs of %s and %s differ:\n%.*s---\n%.*s", texts[x].name, texts[0].name,
                 (int)used[x], (char *)text_out[x], (int)used[0], (char *)text_out[0]);
    count_text(text_out[0], used[0]);
}

void run_text(uint64_t seed)
{
    set_current("text", seed);
    start_random(~seed);
    all_texts(make_text(text_in));
}

void run_winter(uint64_t seed)
{
    set_current("winter", seed);
    start_random(~seed);
    all_texts(make_winter(text_in, &tally.winter_hits));
    tally.winters++;
}

void show_text(void)
{
    fwrite(text_out[0], 1, strlen((char *)text_out[0]), stdout);
}

static void write_file(const char *dir, uint64_t number, const char *ending,
                       const unsigned char *bytes, size_t n)
{
    char path[4096];

    snprintf(path, sizeof path, "%s/%05" PRIu64 ".%s", dir, number, ending);
    FILE *file = fopen(path, "wb");
    if (file == NULL || fwrite(bytes, 1, n, file) != n || fclose(file) != 0) {
        perror(path);
        exit(2);
    }
}

void write_vectors(const char *dir, uint64_t count, uint64_t seed)
{
    for (uint64_t i = 0; i < count; i++) {
        run_text(seed + i);
        start_random(~(seed + i));
        size_t n = make_text(text_in);
        write_file(dir, i, "in", text_in, n);
        write_file(dir, i, "out", text_out[0], texts[0].run(text_in, n, text_out[0], TEXT_ROOM));
    }
}
