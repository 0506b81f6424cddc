/* Hand-written C with the meaning of word_calls.h: what the archive's speed is measured against. Two correctors: a
   general one, one code for every distance (Berlekamp and Massey, a search for roots, Forney), and one in closed form,
   written out for up to three changes. Call hand_prepare once, before any other. */
#ifndef HAND_H
#define HAND_H

#include "word_calls.h"

void hand_prepare(void);
uint8_t hand_make(uint8_t *word, size_t length, uint32_t mode);

word_answer general_correct(uint8_t *word, size_t length, uint32_t mode);
uint8_t general_correct_each(uint8_t *words, size_t words_len, uint32_t mode, uint8_t *counts, size_t counts_len,
                             uint8_t *bits, size_t bits_len);

word_answer closed_correct(uint8_t *word, size_t length, uint32_t mode);
uint8_t closed_correct_each(uint8_t *words, size_t words_len, uint32_t mode, uint8_t *counts, size_t counts_len,
                            uint8_t *bits, size_t bits_len);

/* The semi-octets and the bits that were changed in a word; `mode` and 0 where there is no valid word near. */
typedef struct { uint8_t count, bits; } word_changes;

/* What both calls in closed form rest on (change_call in correct_calls.h), for who has the syndrome already. */
word_changes closed_change(uint8_t *word, size_t length, uint32_t mode, uint32_t syndrome);

#endif
