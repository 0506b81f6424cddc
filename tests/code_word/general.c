/* The general hand-written corrector (see hand.h), one code for every distance: the locator by Berlekamp and Massey,
   its roots among the word's places, the values by Forney, and a last check that they account for the whole syndrome. */
#include <string.h>

#include "correct_calls.h"
#include "hand.h"

enum { MOST = 3, TERMS = 2 * MOST + 2 };

/* The shortest locator 1 + l[1] x + .. of the n syndromes s[0] = S1, ..; its degree is returned. */
static unsigned locator(const uint8_t *s, unsigned n, uint8_t *l)
{
    uint8_t before[TERMS] = {1}, kept[TERMS], last = 1;
    unsigned degree = 0, gap = 1;
    memset(l, 0, TERMS);
    l[0] = 1;
    for (unsigned r = 0; r < n; r++, gap++) {
        uint8_t wrong = s[r];
        for (unsigned i = 1; i <= degree; i++)
            wrong ^= times(l[i], s[r - i]);
        if (wrong == 0)
            continue;
        uint8_t factor = over(wrong, last);
        memcpy(kept, l, TERMS);
        for (unsigned i = 0; i + gap < TERMS; i++)
            l[i + gap] ^= times(factor, before[i]);
        if (2 * degree <= r) {
            degree = r + 1 - degree;
            memcpy(before, kept, TERMS);
            last = wrong;
            gap = 0;
        }
    }
    return degree;
}

/* The polynomial's value at x, lowest power first. */
static uint8_t value(const uint8_t *p, unsigned terms, uint8_t x)
{
    uint8_t y = 0;
    while (terms-- > 0)
        y = times(y, x) ^ p[terms];
    return y;
}

/* The value of the change whose locator root is x: the evaluator over the locator's derivative. */
static uint8_t change_at(const uint8_t *s, const uint8_t *l, unsigned degree, uint8_t x)
{
    uint8_t evaluator[MOST] = {0}, below = 0, square = times(x, x), p = 1;
    for (unsigned i = 0; i < degree; i++)
        for (unsigned j = 0; j <= i; j++)
            evaluator[i] ^= times(s[i - j], l[j]);
    for (unsigned i = 1; i <= degree; i += 2, p = times(p, square))
        below ^= times(l[i], p);
    return below == 0 ? 0 : over(value(evaluator, degree, x), below);
}

static word_changes change(uint8_t *word, size_t length, uint32_t mode, uint32_t syndrome)
{
    uint8_t s[2 * MOST], l[TERMS], places[MOST], values[MOST];
    unsigned found = 0;
    for (unsigned j = 0; j < 2 * mode - 2; j++)
        s[j] = syndrome >> 4 * j & 15;
    unsigned degree = locator(s, 2 * mode - 2, l);
    if (degree >= mode)
        return (word_changes){(uint8_t)mode, 0};
    for (unsigned k = 0; k < length && found < degree; k++) {
        uint8_t x = exponent[15 - k];
        if (value(l, degree + 1, x) != 0)
            continue;
        values[found] = change_at(s, l, degree, x);
        syndrome ^= syndrome_row[k][values[found]];
        places[found++] = (uint8_t)k;
    }
    if (found < degree || (syndrome & syndromes_of(mode)) != 0)
        return (word_changes){(uint8_t)mode, 0};
    return make_changes(word, places, values, found);
}

word_answer general_correct(uint8_t *word, size_t length, uint32_t mode)
{
    return correct_by(change, word, length, mode);
}

uint8_t general_correct_each(uint8_t *words, size_t words_len, uint32_t mode, uint8_t *counts, size_t counts_len,
                             uint8_t *bits, size_t bits_len)
{
    return correct_each_by(change, words, words_len, mode, counts, counts_len, bits, bits_len);
}
