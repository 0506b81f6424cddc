/* word_correct and word_correct_each (word_calls.h) over a function that finds and makes the changes of a suitable word
   that is not clean. The two hand-written correctors differ in that function alone. */
#ifndef CORRECT_CALLS_H
#define CORRECT_CALLS_H

#include "hand.h"
#include "tables.h"

typedef word_changes change_call(uint8_t *word, size_t length, uint32_t mode, uint32_t syndrome);

/* Changes the word at these places by these values. */
static inline word_changes make_changes(uint8_t *word, const uint8_t *places, const uint8_t *values, unsigned count)
{
    word_changes made = {(uint8_t)count, 0};
    for (unsigned i = 0; i < count; i++) {
        word[places[i]] ^= values[i];
        made.bits += ones[values[i]];
    }
    return made;
}

static inline word_answer correct_by(change_call *change, uint8_t *word, size_t length, uint32_t mode)
{
    if (!fits(length, mode))
        return (word_answer){1, 0, 0};
    uint32_t syndrome = 0;
    uint8_t any = 0;
    for (size_t k = 0; k < length; k++) {
        any |= word[k];
        syndrome ^= syndrome_row[k][word[k] & 15];
    }
    if (any > 15)
        return (word_answer){1, 0, 0};
    syndrome &= syndromes_of(mode);
    if (syndrome == 0)
        return (word_answer){0, 0, 0};
    word_changes made = change(word, length, mode, syndrome);
    return made.count < mode ? (word_answer){0, made.count, made.bits} : (word_answer){3, 0, 0};
}

static inline uint8_t correct_each_by(change_call *change, uint8_t *words, size_t words_len, uint32_t mode,
                                      uint8_t *counts, size_t counts_len, uint8_t *bits, size_t bits_len)
{
    if (counts_len == 0 || bits_len != counts_len)
        return 1;
    size_t shorter = words_len / counts_len, longer_ones = words_len % counts_len;
    if (!fits(shorter, mode) || (longer_ones > 0 && !fits(shorter + 1, mode)))
        return 1;
    uint8_t any = 0;
    for (size_t k = 0; k < words_len; k++)
        any |= words[k];
    if (any > 15)
        return 1;
    uint8_t *word = words;
    for (size_t i = 0; i < counts_len; i++) {
        size_t length = shorter + (i < longer_ones);
        uint32_t syndrome = 0;
        for (size_t k = 0; k < length; k++)
            syndrome ^= syndrome_row[k][word[k]];
        syndrome &= syndromes_of(mode);
        word_changes made = syndrome == 0 ? (word_changes){0, 0} : change(word, length, mode, syndrome);
        counts[i] = made.count;
        bits[i] = made.bits;
        word += length;
    }
    return 0;
}

#endif
