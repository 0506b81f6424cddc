/* The hand-written C behind the archive's names, with the fault number FAULT put in: check.c must pass it without a
   fault and refuse it with each. The script `faults` builds and runs them all. */
#include <string.h>

#include "hand.h"
#include "tables.h"

/* which of the two correctors stands in */
#ifdef GENERAL
#define hand_correct general_correct
#define hand_correct_each general_correct_each
#else
#define hand_correct closed_correct
#define hand_correct_each closed_correct_each
#endif

#ifndef FAULT
#define FAULT 0
#endif

__attribute__((constructor)) static void prepare(void)
{
    hand_prepare();
}

uint8_t word_make(uint8_t *word, size_t length, uint32_t mode)
{
    if (FAULT == 1 && length == 15) /* a length off by one */
        return 1;
    if (FAULT == 2) /* a mode narrowed on the way in */
        mode = (uint8_t)mode;
    if (FAULT == 3 && length >= 2 && mode - 2 < 3 && length <= 15 && word[0] > 15) /* looks at a check place */
        return 1;
    uint8_t answer = hand_make(word, length, mode);
    if (FAULT == 4 && answer == 0 && mode == 4 && length == 6) /* a wrong check semi-octet where there are no data */
        word[5] = 1;
    if (FAULT == 5 && answer == 0 && length < 15) /* writes past the end */
        word[length] = 0;
    return answer;
}

/* Bits counted in wrong ways, from the word as it was lent and as it was corrected. */
static uint8_t wrong_bits(const uint8_t *lent, const uint8_t *word, size_t length)
{
    unsigned bits = 0, changes = 0;
    for (size_t k = 0; k < length; k++) {
        if (word[k] == lent[k])
            continue;
        if (FAULT == 18) /* the ones of what the corrected word has there */
            bits += ones[word[k]];
        if (FAULT == 19 && changes++ == 0) /* those of the first place alone */
            bits += ones[word[k] ^ lent[k]];
    }
    return (uint8_t)bits;
}

word_answer word_correct(uint8_t *word, size_t length, uint32_t mode)
{
    uint8_t copy[16] = {0};
    if (FAULT == 6 && length <= 15) { /* corrects a shortened word past its end */
        memcpy(copy, word, length);
        word_answer a = hand_correct(copy, length < 13 ? length : 15, mode);
        if (a.number == 0)
            memcpy(word, copy, length);
        return a;
    }
    if (FAULT == 7 && length <= 15) { /* stops after the first place */
        memcpy(copy, word, length);
        word_answer a = hand_correct(word, length, mode);
        for (size_t k = 0, seen = 0; a.number == 0 && k < length; k++)
            if (word[k] != copy[k] && seen++ > 0)
                word[k] = copy[k];
        return a;
    }
    if (length > 0 && length <= 15)
        memcpy(copy, word, length);
    word_answer a = hand_correct(word, length, mode);
    if (FAULT == 8 && a.count == 3) /* a count that is one too low */
        a.count--;
    if (FAULT == 9 && a.number == 3) /* the word is not left as it was lent */
        word[length - 1] ^= 1;
    if (FAULT == 10 && a.number == 0 && a.count > 1) /* corrects one place at most */
        return (word_answer){3, 0, 0};
    if (FAULT == 11 && a.number == 1 && length == 15) /* another number */
        a.number = 3;
    if (FAULT == 12 && a.number == 3) /* a refusal with a count */
        a.count = (uint8_t)mode;
    if (FAULT == 17) /* bits counted as semi-octets */
        a.bits = a.count;
    if ((FAULT == 18 || FAULT == 19) && a.number == 0)
        a.bits = wrong_bits(copy, word, length);
    if (FAULT == 20) /* no bits */
        a.bits = 0;
    if (FAULT == 21 && a.number == 3) /* a refusal with bits */
        a.bits = 1;
    return a;
}

uint8_t word_correct_each(uint8_t *words, size_t words_len, uint32_t mode, uint8_t *counts, size_t counts_len,
                          uint8_t *bits, size_t bits_len)
{
    static uint8_t elsewhere[1 << 17];
    if (FAULT == 13 && counts_len > 1 && bits_len == counts_len) { /* forgets the last word */
        size_t fewer = words_len - words_len / counts_len;
        return hand_correct_each(words, fewer, mode, counts, counts_len - 1, bits, counts_len - 1);
    }
    if (FAULT == 14 && counts_len > 0) /* takes no word for longer than the last */
        words_len -= words_len % counts_len;
    if (FAULT == 22) /* bits left as they were lent */
        bits = elsewhere;
    if (FAULT == 23 && bits_len > counts_len) /* takes more places for bits than it needs */
        bits_len = counts_len;
    if (FAULT == 24 && bits_len < counts_len) /* takes fewer, and writes past their end */
        bits_len = counts_len;
    uint8_t answer = hand_correct_each(words, words_len, mode, counts, counts_len, bits, bits_len);
    if (FAULT == 15 && answer == 1 && counts_len > 0) /* clears the counts before it refuses */
        memset(counts, 0, counts_len);
    for (size_t i = 0; FAULT == 16 && answer == 0 && i < counts_len; i++) /* a word beyond repair counted as clean */
        if (counts[i] == mode)
            counts[i] = 0;
    if (FAULT == 25 && answer == 1 && bits_len > 0) /* clears the bits before it refuses */
        memset(bits, 0, bits_len);
    for (size_t i = 0; answer == 0 && i < counts_len; i++) {
        if (FAULT == 26) /* bits counted as semi-octets */
            bits[i] = counts[i] == mode ? 0 : counts[i];
        if (FAULT == 27 && i > 0) /* bits of the first word alone */
            bits[i] = 0;
        if (FAULT == 28) /* no bits */
            bits[i] = 0;
        if (FAULT == 29 && counts[i] == mode) /* a word beyond repair with bits */
            bits[i] = (uint8_t)(4 * mode);
        if (FAULT == 30 && i > 0 && counts[i] < mode) /* bits summed up from word to word */
            bits[i] = (uint8_t)(bits[i] + bits[i - 1]);
    }
    return answer;
}
