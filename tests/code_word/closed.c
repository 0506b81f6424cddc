/* The hand-written corrector in closed form (see hand.h): the locator of up to three changes by Cramer's rule
   (Peterson), its roots among the word's places, the values written out, and a last check that they account for the
   whole syndrome. */
#include "correct_calls.h"
#include "hand.h"

/* The locator x^v + l[0] x^(v-1) + .. from the syndromes s[0] = S1, ..; v is its degree, 0 where there is none. */
static unsigned locator(const uint8_t *s, unsigned most, uint8_t *l)
{
    uint8_t c = times(s[0], s[2]) ^ times(s[1], s[1]);
    if (most == 3) {
        uint8_t q = times(s[0], s[3]) ^ times(s[1], s[2]), p = times(s[1], s[3]) ^ times(s[2], s[2]);
        uint8_t d = times(p, s[2]) ^ times(q, s[3]) ^ times(c, s[4]);
        if (d != 0) {
            /* a S3 + b S2 + c S1 = S4 and the two rows below it, by Cramer's rule */
            uint8_t u = times(s[2], s[4]) ^ times(s[3], s[3]), v = times(s[1], s[4]) ^ times(s[2], s[3]);
            l[0] = over(times(c, s[5]) ^ times(q, s[4]) ^ times(p, s[3]), d);
            l[1] = over(times(q, s[5]) ^ times(times(s[0], s[4]) ^ times(s[2], s[2]), s[4]) ^ times(v, s[3]), d);
            l[2] = over(times(p, s[5]) ^ times(v, s[4]) ^ times(u, s[3]), d);
            return 3;
        }
    }
    if (most >= 2 && c != 0) {
        l[0] = over(times(s[0], s[3]) ^ times(s[1], s[2]), c);
        l[1] = over(times(s[1], s[3]) ^ times(s[2], s[2]), c);
        return 2;
    }
    if (s[0] == 0 || s[1] == 0)
        return 0;
    l[0] = over(s[1], s[0]);
    return 1;
}

/* The places below length at which the locator is 0, until there are v of them. */
static unsigned roots(const uint8_t *l, unsigned v, size_t length, uint8_t *places)
{
    unsigned found = 0;
    if (v == 1) {
        places[0] = logarithm[l[0]];
        return places[0] < length;
    }
    for (unsigned k = 0; k < length && found < v; k++) {
        uint8_t x = exponent[k], y = x ^ l[0];
        for (unsigned i = 1; i < v; i++)
            y = times(y, x) ^ l[i];
        if (y == 0)
            places[found++] = (uint8_t)k;
    }
    return found;
}

/* The value of the change at places[i], from the first v syndromes. */
static inline uint8_t value_at(const uint8_t *s, const uint8_t *places, unsigned v, unsigned i)
{
    uint8_t x = exponent[places[i]];
    if (v == 1)
        return over(s[0], x);
    uint8_t y = exponent[places[i == 0]];
    if (v == 2)
        return over(s[1] ^ times(y, s[0]), times(x, x ^ y));
    uint8_t z = exponent[places[i == 2 ? 1 : 2]];
    return over(s[2] ^ times(y ^ z, s[1]) ^ times(times(y, z), s[0]), times(x, times(x ^ y, x ^ z)));
}

word_changes closed_change(uint8_t *word, size_t length, uint32_t mode, uint32_t syndrome)
{
    uint8_t s[6], l[3], places[3], values[3];
    for (unsigned j = 0; j < 6; j++)
        s[j] = syndrome >> 4 * j & 15;
    unsigned v = locator(s, mode - 1, l);
    if (v == 0 || roots(l, v, length, places) < v)
        return (word_changes){(uint8_t)mode, 0};
    for (unsigned i = 0; i < v; i++) {
        values[i] = value_at(s, places, v, i);
        syndrome ^= syndrome_row[places[i]][values[i]];
    }
    if ((syndrome & syndromes_of(mode)) != 0)
        return (word_changes){(uint8_t)mode, 0};
    return make_changes(word, places, values, v);
}

word_answer closed_correct(uint8_t *word, size_t length, uint32_t mode)
{
    return correct_by(closed_change, word, length, mode);
}

uint8_t closed_correct_each(uint8_t *words, size_t words_len, uint32_t mode, uint8_t *counts, size_t counts_len,
                            uint8_t *bits, size_t bits_len)
{
    return correct_each_by(closed_change, words, words_len, mode, counts, counts_len, bits, bits_len);
}
