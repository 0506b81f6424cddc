/* What is right, found by search (see search.h). The field's product is the product of polynomials reduced by
   x^4 + x + 1; there are no logarithms here, and nothing is shared with hand.c. */
#include "search.h"

#include <stdlib.h>
#include <string.h>

/* Document 01's generating polynomials, lowest power first, for modes 2, 3 and 4. */
static const uint8_t generator[3][7] = {
    {8, 6, 1},
    {7, 8, 12, 13, 1},
    {12, 10, 12, 3, 9, 7, 1},
};

static uint8_t product(uint8_t a, uint8_t b)
{
    unsigned p = 0;
    for (unsigned i = 0; i < 4; i++)
        if (b >> i & 1)
            p ^= (unsigned)a << i;
    for (unsigned i = 7; i >= 4; i--)
        if (p >> i & 1)
            p ^= 0x13u << (i - 4);
    return (uint8_t)p;
}

static uint8_t power(uint8_t a, unsigned n)
{
    uint8_t p = 1;
    while (n-- > 0)
        p = product(p, a);
    return p;
}

/* What a change by `value` at `place` adds to the syndrome. */
static uint32_t share[LONGEST][16];

static uint32_t all_of(unsigned mode)
{
    return (1u << 4 * (2 * mode - 2)) - 1;
}

static void prepare_shares(void)
{
    for (unsigned place = 0; place < LONGEST; place++)
        for (unsigned value = 0; value < 16; value++)
            for (unsigned j = 1; j <= 6; j++)
                share[place][value] |= (uint32_t)product((uint8_t)value, power(power(2, j), place)) << 4 * (j - 1);
}

/* For each mode and syndrome: 0 where no pattern has it, else LISTED, the count and the changes. */
#define LISTED 0x80000000u
static uint32_t *patterns[3];

static uint32_t packed(const pattern *p)
{
    uint32_t x = LISTED | p->count << 24;
    for (unsigned i = 0; i < p->count; i++)
        x |= (p->place[i] << 4 | p->value[i]) << 8 * i;
    return x;
}

/* Lists the pattern and every one that changes further places behind its last. */
static int list_from(unsigned mode, pattern *p, unsigned first, uint32_t syndrome)
{
    uint32_t *entry = &patterns[mode - 2][syndrome & all_of(mode)];
    if (*entry != 0)
        return 0;
    *entry = packed(p);
    if (p->count == mode - 1)
        return 1;
    unsigned i = p->count++;
    for (unsigned place = first; place < LONGEST; place++)
        for (unsigned value = 1; value < 16; value++) {
            p->place[i] = place;
            p->value[i] = (uint8_t)value;
            if (!list_from(mode, p, place + 1, syndrome ^ share[place][value]))
                return 0;
        }
    p->count--;
    return 1;
}

int search_prepare(void)
{
    prepare_shares();
    for (unsigned mode = 2; mode <= 4; mode++) {
        pattern none = {0};
        patterns[mode - 2] = calloc((size_t)all_of(mode) + 1, sizeof(uint32_t));
        if (patterns[mode - 2] == NULL || !list_from(mode, &none, 0, 0))
            return 0;
    }
    return 1;
}

uint32_t search_syndrome(const uint8_t *word, size_t length, unsigned mode)
{
    uint32_t syndrome = 0;
    for (size_t place = 0; place < length; place++)
        syndrome ^= share[place][word[place]];
    return syndrome & all_of(mode);
}

int search_changes(uint32_t syndrome, size_t length, unsigned mode, pattern *found)
{
    uint32_t entry = patterns[mode - 2][syndrome];
    found->count = entry >> 24 & 3;
    for (unsigned i = 0; i < found->count; i++) {
        found->place[i] = entry >> (8 * i + 4) & 15;
        found->value[i] = entry >> 8 * i & 15;
        if (found->place[i] >= length)
            return 0;
    }
    return entry != 0;
}

void search_rest(const uint8_t *word, size_t length, unsigned mode, uint8_t rest[6])
{
    const uint8_t *g = generator[mode - 2];
    size_t degree = 2 * mode - 2;
    uint8_t left[LONGEST] = {0};
    memcpy(left, word, length);
    for (size_t top = length; top-- > degree;) {
        uint8_t factor = left[top];
        for (size_t k = 0; k <= degree; k++)
            left[top - degree + k] ^= product(factor, g[k]);
    }
    memcpy(rest, left, degree);
}
