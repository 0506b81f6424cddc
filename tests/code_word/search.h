/* What is right, found by search: which pattern of at most mode - 1 changes has a given syndrome, and which check
   semi-octets a data word has. Slow and plain, and written from document 01 and A.1.5 alone. */
#ifndef SEARCH_H
#define SEARCH_H

#include <stddef.h>
#include <stdint.h>

enum { LONGEST = 15, MOST_CHANGES = 3 };

typedef struct {
    unsigned count;
    unsigned place[MOST_CHANGES];
    uint8_t value[MOST_CHANGES];
} pattern;

/* Lists every pattern of at most mode - 1 changes of a word of 15 by its syndrome, for each mode.
   0 where memory ends or two patterns of one mode have one syndrome. */
int search_prepare(void);

/* The word's values at 2^1 .. 2^(2 mode - 2), four bits each, the first lowest. */
uint32_t search_syndrome(const uint8_t *word, size_t length, unsigned mode);

/* Whether at most mode - 1 changes inside a word of that length have this syndrome, and which. */
int search_changes(uint32_t syndrome, size_t length, unsigned mode, pattern *found);

/* The rest of the word, as a polynomial, on division by the generator: 2 mode - 2 semi-octets. */
void search_rest(const uint8_t *word, size_t length, unsigned mode, uint8_t rest[6]);

#endif
