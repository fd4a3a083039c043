/* Texts made of tokens: nearly all vectors on the text itself are one of two plain texts with one
 * token put in place of another. */
#ifndef VECTORS_TOKENS_H
#define VECTORS_TOKENS_H

#include <stddef.h>

/* Document 01's worked example: tokens 0 to 4 grid and season, 5 to 20 the cover, 21 and 25 the
 * cells, 29 and 36 the days. */
extern const char *const example[];

/* A stream through a lake: three covers (entries at 5, 21 and 37; the second is open water), three
 * columns and two rows of cells (at 53, 57, .. 73), three days (at 77, 84, 91). */
extern const char *const stream[];

/* The tokens with some of them replaced: `at` counts from 0. */
struct replaced {
    int at;
    const char *token, *ends, *name, *reason;
};

/* Puts the tokens from..to, seven to a line, with one of them replaced (at < 0: none). */
void put_tokens(const char *const *tokens, size_t from, size_t to, int at, const char *token);

/* The vector of all the tokens with one replaced. */
void replace(const char *const *tokens, const struct replaced *r);

#endif
