/* The field's logarithms, each semi-octet's share of the syndromes and its ones, for the two hand-written correctors:
   closed.c and general.c. Call tables_prepare once, before any of theirs. */
#ifndef TABLES_H
#define TABLES_H

#include <stddef.h>
#include <stdint.h>

/* The logarithm of 0 leads to zeros: exponent[logarithm[a] + logarithm[b]] is the product of any two. */
enum { LOG_ZERO = 45 };
extern uint8_t exponent[2 * LOG_ZERO + 1], logarithm[16];

/* What semi-octet v at place k adds to the six syndromes, four bits each, S1 lowest. */
extern uint32_t syndrome_row[15][16];

/* The ones in a semi-octet. */
extern uint8_t ones[16];

void tables_prepare(void);

static inline uint8_t times(uint8_t a, uint8_t b)
{
    return exponent[logarithm[a] + logarithm[b]];
}

/* a / b for b other than 0. */
static inline uint8_t over(uint8_t a, uint8_t b)
{
    return exponent[logarithm[a] + 15 - logarithm[b]];
}

static inline int fits(size_t length, uint32_t mode)
{
    return mode >= 2 && mode <= 4 && length >= 2 * mode - 2 && length <= 15;
}

/* The bits of the 2 mode - 2 syndromes that a mode has. */
static inline uint32_t syndromes_of(uint32_t mode)
{
    return (1u << (8 * mode - 8)) - 1;
}

#endif
