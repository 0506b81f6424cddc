/* The calls of the archive libword_calls.a (crate word_calls), as C sees them. Nothing checks these lines against the
   Rattle source: the tests beside this file do. A word is `length` semi-octets, one to a byte, the d - 1 = 2 mode - 2
   check semi-octets first. The numbers are document 01's. */
#ifndef WORD_CALLS_H
#define WORD_CALLS_H

#include <stddef.h>
#include <stdint.h>

typedef struct { uint8_t number, count, bits; } word_answer;

/* Writes the check semi-octets in front of the data. 0: made. 1: mode not 2 to 4, length below 2 mode - 2 or above 15,
   or a data element above 15; the word is then as it was lent. What stood in the check places is not looked at. */
uint8_t word_make(uint8_t *word, size_t length, uint32_t mode);

/* Corrects a word to the only valid one of its length within mode - 1 places. 0: corrected, with the count of changed
   semi-octets and that of changed bits. 3: there is no such word. 1: unsuitable, as above, any element above 15. On 3 and 1
   both counts are 0 and the word is as it was lent. */
word_answer word_correct(uint8_t *word, size_t length, uint32_t mode);

/* Corrects counts_len words that stand one after the other, as even in length as can be: each has words_len / counts_len
   semi-octets, and the first words_len % counts_len have one more. 0: counts[i] is the count of word i and bits[i] that of
   its bits, or `mode` and 0 where it has no valid word near; word i is then as it was lent. 1: no count, bits_len other than
   counts_len, a mode or a word's length out of range, or an element above 15; nothing is then changed. */
uint8_t word_correct_each(uint8_t *words, size_t words_len, uint32_t mode, uint8_t *counts, size_t counts_len,
                          uint8_t *bits, size_t bits_len);

#endif
