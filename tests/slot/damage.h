/* Damage to a slot, at places that reference.h says belong to a word. Rests on the random numbers of tests/common/cases.h. */
#ifndef DAMAGE_H
#define DAMAGE_H

#include <stddef.h>
#include <stdint.h>

/* Changes semi-octet k of word i by that value. */
void change_place(size_t size, size_t i, size_t k, uint8_t value, uint8_t *slot);

/* Changes that many different semi-octets of word i, each in `each` bits or, by ANY_BITS, in 1 to 4. The bits changed. */
enum { ANY_BITS = 0 };
unsigned damage_word(size_t size, size_t i, unsigned changes, unsigned each, uint8_t *slot);

#endif
