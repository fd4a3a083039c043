/* The two plain texts, and their tokens put. */
#include "vectors_tokens.h"
#include "vectors.h"

const char *const example[] = {
    "2",  "1",  "120", "270", "1",
    "3",  "0",  "75",  "75",  "75",  "75",  "6000", "6000", "6000", "6000", "900", "0", "250", "250", "250", "250",
    "1",  "3",  "2",   "200", "0",   "3",   "2",    "200",
    "1",  "150", "30900", "600", "700", "800", "2000",
    "2",  "151", "0",     "600", "700", "800", "2000", NULL};

const char *const stream[] = {
    "3",  "2",  "120", "270", "3",
    "3",  "0",  "75",  "80",  "85",  "90",  "6000", "6000", "6000", "6000", "900", "0", "250", "200", "150", "100",
    "5",  "1",  "100", "100", "100", "100", "0",    "0",    "0",    "0",    "0",   "0", "0",   "0",   "0",   "0",
    "9",  "0",  "60",  "65",  "70",  "75",  "3000", "3000", "3000", "3000", "500", "100", "400", "400", "300", "300",
    "1",  "3",  "1",   "120", "1",   "3",   "2",    "200",  "4",    "9",    "3",   "280",
    "64", "9",  "4",   "360", "1",   "5",   "1",    "0",    "16",   "3",    "2",   "200",
    "7",  "150", "30900", "600", "700", "800", "2000",
    "8",  "151", "0",     "600", "700", "800", "2000",
    "9",  "152", "12000", "500", "600", "700", "1500", NULL};

static size_t count_of(const char *const *tokens)
{
    size_t n = 0;

    while (tokens[n] != NULL)
        n++;
    return n;
}

void put_tokens(const char *const *tokens, size_t from, size_t to, int at, const char *token)
{
    for (size_t i = from; i < to; i++)
        put("%s%c", (int)i == at ? token : tokens[i], i % 7 == 6 || i + 1 == to ? '\n' : ' ');
}

void replace(const char *const *tokens, const struct replaced *r)
{
    put_tokens(tokens, 0, count_of(tokens), r->at, r->token);
    vector(r->name, r->ends, r->reason);
}
