/* The numbers, the counts and the buffers of cases.h. */
#include "cases.h"

#include <inttypes.h>
#include <stdio.h>
#include <stdlib.h>
#include <string.h>

#include "said.h"

enum { SHOWN = 5 };

static uint64_t state;
static unsigned long cases, all_cases;
unsigned long wrong;

void cases_start(const char *seed)
{
    state = seed != NULL ? strtoull(seed, NULL, 0) : 634;
    said(printf("seed %" PRIu64 "\n", state));
}

uint32_t next(void)
{
    uint64_t z = state += 0x9e3779b97f4a7c15u;
    z = (z ^ z >> 30) * 0xbf58476d1ce4e5b9u;
    z = (z ^ z >> 27) * 0x94d049bb133111ebu;
    return (uint32_t)(z >> 32);
}

uint32_t below(uint32_t n)
{
    return next() % n;
}

void random_bytes(uint8_t *bytes, size_t length)
{
    for (size_t k = 0; k < length; k++)
        bytes[k] = (uint8_t)next();
}

int case_shown(int right)
{
    cases++;
    return !right && wrong++ < SHOWN;
}

void group_ends(const char *name)
{
    said(printf("%-82s %9lu cases, %lu wrong\n", name, cases, wrong));
    all_said();
    if (cases == 0 || wrong > 0)
        exit(1);
    all_cases += cases;
    cases = 0;
}

void cases_end(void)
{
    said(printf("%lu cases, 0 wrong\n", all_cases));
    all_said();
}

uint8_t *guarded(buffer *b, const uint8_t *from, size_t length)
{
    memset(b->bytes, 0xa5, GUARD);
    if (length > 0)
        memcpy(b->bytes + GUARD, from, length);
    memset(b->bytes + GUARD + length, 0x5a, GUARD);
    return b->bytes + GUARD;
}

int same(const buffer *a, const buffer *b, size_t length)
{
    return memcmp(a->bytes, b->bytes, GUARD + length + GUARD) == 0;
}
