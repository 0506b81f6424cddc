/* See damage.h. */
#include "damage.h"

#include "../code_word/search.h"
#include "../common/cases.h"
#include "reference.h"

void change_place(size_t size, size_t i, size_t k, uint8_t value, uint8_t *slot)
{
    size_t place = reference_place(size, i, k);
    slot[place / 2] ^= (uint8_t)(value << 4 * (place % 2));
}

/* A semi-octet with so many ones, or any but 0. */
static uint8_t random_change(unsigned ones)
{
    unsigned value;
    do
        value = 1 + below(15);
    while (ones != ANY_BITS && (unsigned)__builtin_popcount(value) != ones);
    return (uint8_t)value;
}

unsigned damage_word(size_t size, size_t i, unsigned changes, unsigned each, uint8_t *slot)
{
    size_t length = reference_length(size, i);
    uint8_t changed[LONGEST] = {0};
    unsigned bits = 0;
    while (changes > 0) {
        size_t k = below((uint32_t)length);
        if (changed[k])
            continue;
        changed[k] = random_change(each);
        change_place(size, i, k, changed[k], slot);
        bits += (unsigned)__builtin_popcount(changed[k]);
        changes--;
    }
    return bits;
}
