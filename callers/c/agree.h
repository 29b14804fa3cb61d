/* One request, made of the library and of the model on equal memories, and what they leave compared. */
#ifndef AGREE_H
#define AGREE_H

#include "calls.h"

/* Pages that nothing else uses, between two that no one may touch; and what the model makes of the same bytes. */
struct pages {
    uint8_t *real, *model;
};

/* The bytes of `words` and of `other`, a memory each, are at the end of these pages or at their beginning. */
extern struct pages words_pages, other_pages;

enum { PAGES_BYTES = 4096 };

/* Where `count` words lie in these pages: at the end, so that a word more is behind it, or at the beginning. */
size_t place_of(const struct storage *storage, size_t count, bool at_end);

/* Maps both memories. */
void agree_begin(void);

/* Runs both, `words` and `other` at these places (of one memory where `in_one`), and tells whether status, answer and
   each byte of both memories are the same. Else it prints the request. */
bool agrees(const struct storage *storage, const struct request *request, size_t words_at, size_t other_at, bool in_one);

/* How many requests ended with each status. */
extern unsigned long ended[BITS_BAD_WIDTH + 1];

/* Numbers by chance, the same ones in each run with one seed. */
void chance_begin(uint64_t seed);
uint64_t chance(void);
size_t chance_below(size_t limit);

#endif
