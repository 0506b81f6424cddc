/* A quick slot (see quick.h): one pass a step over semi-octets that stand one to a byte, and tables, made once, for the
   hashes, the check semi-octets and the syndromes. A word that is not clean is corrected in closed form
   (tests/code_word/closed.c). */
#include "quick.h"

#include <string.h>

#include "../code_word/hand.h"
#include "../code_word/tables.h"

enum { LONGEST = 15, MOST_BYTES = 400, MOST_CHECKS = 6, MODES = 3, SIGNED_WORDS = 6 };

/* ---- tables */

/* A hash's polynomial without its leading power, and the rest of b(x) x^degree for every b of eight bits. */
typedef struct { unsigned degree; uint32_t polynomial, row[256]; } hash;

static hash hash_14 = {14, 0x645, {0}};   /* A.21 */
static hash hash_22 = {22, 0x90f29, {0}}; /* A.22 */
static hash hash_16 = {16, 0xa2eb, {0}};  /* A.23 */

/* The check semi-octets, the first lowest, of a word with v at place k and 0 at all others. */
static uint32_t check_row[MODES][LONGEST][16];

/* A.46 to A.50 for modes 2, 3 and 4, and no signature. */
static const uint8_t signatures[MODES][LONGEST] = {
    {7, 15, 5, 6, 14, 9, 1, 3, 12, 10, 13, 3, 2, 0, 0},
    {7, 11, 14, 1, 2, 3, 12, 11, 6, 15, 7, 6, 12, 0, 0},
    {6, 15, 12, 2, 9, 15, 2, 8, 12, 3, 10, 5, 4, 0, 0},
};
static const uint8_t unsigned_word[LONGEST];

static void prepare_hash(hash *h)
{
    for (uint32_t b = 0; b < 256; b++) {
        uint32_t rest = b << (h->degree - 8);
        for (unsigned bit = 0; bit < 8; bit++)
            rest = rest << 1 ^ (rest >> (h->degree - 1) & 1) * (1u << h->degree | h->polynomial);
        h->row[b] = rest;
    }
}

static uint32_t checks_of(uint32_t mode, unsigned k, uint8_t v)
{
    uint8_t word[LONGEST] = {0};
    uint32_t checks = 0;
    word[k] = v;
    hand_make(word, LONGEST, mode);
    for (unsigned c = 0; c < 2 * mode - 2; c++)
        checks |= (uint32_t)word[c] << 4 * c;
    return checks;
}

void quick_prepare(void)
{
    hand_prepare();
    prepare_hash(&hash_14);
    prepare_hash(&hash_22);
    prepare_hash(&hash_16);
    for (uint32_t mode = 2; mode <= 4; mode++)
        for (unsigned k = 2 * mode - 2; k < LONGEST; k++)
            for (uint8_t v = 0; v < 16; v++)
                check_row[mode - 2][k][v] = checks_of(mode, k, v);
}

/* ---- sizes (A.7 to A.15) */
typedef struct {
    size_t words, shorter, longer_ones; /* the first words have one semi-octet more than the shorter ones */
    size_t checks;                      /* semi-octets of a word */
    size_t block;                       /* semi-octets of the partial concealment block */
    size_t first, second;               /* bytes of the two hashes, the request included */
    size_t frame;                       /* bytes */
    const hash *first_hash;
} sizes;

static inline size_t length_of(const sizes *s, size_t i)
{
    return s->shorter + (i < s->longer_ones);
}

/* A.11 in whole numbers. */
static size_t block_words(size_t size, uint32_t mode)
{
    if (size < 80 || mode == 2)
        return 0;
    return mode == 3 ? (539 * size - 8650) / 6700 : (4455 * size - 98500) / 67000;
}

/* 0 where the size or the mode is out of range. */
static int set_sizes(size_t size, uint32_t mode, sizes *s)
{
    if (size < 40 || size > MOST_BYTES || mode < 2 || mode > 4)
        return 0;
    s->words = (2 * size + 14) / 15;
    s->shorter = 2 * size / s->words;
    s->longer_ones = 2 * size % s->words;
    s->checks = 2 * mode - 2;
    size_t last = block_words(size, mode), before = s->words - last;
    s->block = last * (s->shorter - s->checks) + (s->longer_ones > before ? s->longer_ones - before : 0);
    s->first = size == 40 ? 2 : 3;
    s->second = size >= 80 && mode >= 3 ? 2 : 0;
    s->frame = size - s->first - s->second - s->words * s->checks / 2;
    s->first_hash = size == 40 ? &hash_14 : &hash_22;
    return 1;
}

/* ---- hashes (A.24, A.25) */

/* The rest once so many more bits have come, of the next lower powers. */
static inline uint32_t push(const hash *h, uint32_t rest, unsigned bits, uint32_t b)
{
    uint32_t kept = rest << bits & ((1u << h->degree) - 1);
    return kept ^ h->row[rest >> (h->degree - bits) ^ b];
}

/* The hash of a part of the frame. The highest power comes first: byte 0 on, the lower half of a byte before the upper;
   `from` and `to` count these halves. */
static uint32_t hash_of(const hash *h, const uint8_t *frame, size_t from, size_t to)
{
    uint32_t rest = 0;
    if (from % 2 == 1) {
        rest = push(h, rest, 4, frame[from / 2] >> 4);
        from++;
    }
    for (size_t j = from / 2; j < to / 2; j++)
        rest = push(h, rest, 8, (uint8_t)(frame[j] << 4 | frame[j] >> 4));
    if (to % 2 == 1)
        rest = push(h, rest, 4, frame[to / 2] & 15);
    return rest;
}

/* The first hash with the request above it, as it stands in the data. */
static uint32_t first_part(const sizes *s, const uint8_t *frame, uint32_t request)
{
    const hash *h = s->first_hash;
    return push(h, hash_of(h, frame, s->block, 2 * s->frame), 2, request) | request << h->degree;
}

static uint32_t second_part(const sizes *s, const uint8_t *frame)
{
    return s->second == 0 ? 0 : hash_of(&hash_16, frame, 0, s->block);
}

/* ---- data semi-octets (A.16 to A.37) */

/* The request changes places with the lowest two bits of word 0's last data semi-octet. */
static void swap_request(const sizes *s, uint8_t *data)
{
    uint8_t *one = &data[2 * s->first - 1], *other = &data[length_of(s, 0) - s->checks - 1];
    uint8_t differs = (*one >> 2 ^ *other) & 3;
    *one ^= (uint8_t)(differs << 2);
    *other ^= differs;
}

static void put_number(uint8_t *data, size_t count, uint32_t number)
{
    for (size_t k = 0; k < count; k++)
        data[k] = number >> 4 * k & 15;
}

static uint32_t take_number(const uint8_t *data, size_t count)
{
    uint32_t number = 0;
    for (size_t k = 0; k < count; k++)
        number |= (uint32_t)data[k] << 4 * k;
    return number;
}

static void put_data(const sizes *s, const uint8_t *frame, uint32_t request, uint8_t *data)
{
    put_number(data, 2 * s->first, first_part(s, frame, request));
    put_number(data + 2 * s->first, 2 * s->second, second_part(s, frame));
    uint8_t *at = data + 2 * (s->first + s->second);
    for (size_t j = s->frame; j-- > 0;) {
        *at++ = frame[j] >> 4;
        *at++ = frame[j] & 15;
    }
    swap_request(s, data);
}

/* The frame and the request of these data; 0 where a hash is another. */
static int take_data(const sizes *s, uint8_t *data, uint8_t *frame, uint32_t *request)
{
    swap_request(s, data);
    const uint8_t *at = data + 2 * (s->first + s->second);
    for (size_t j = s->frame; j-- > 0; at += 2)
        frame[j] = (uint8_t)(at[0] << 4 | at[1]);
    uint32_t first = take_number(data, 2 * s->first);
    *request = first >> s->first_hash->degree;
    return first == first_part(s, frame, *request)
           && take_number(data + 2 * s->first, 2 * s->second) == second_part(s, frame);
}

/* ---- words, signature and interleaving (A.38 to A.52): semi-octet k of word i is mixed[words * k + i] */

static const uint8_t *signature_of(uint32_t mode, size_t i)
{
    return i < SIGNED_WORDS ? signatures[mode - 2] : unsigned_word;
}

static void code_words(const sizes *s, uint32_t mode, const uint8_t *data, uint8_t *mixed)
{
    for (size_t i = 0; i < s->words; i++) {
        size_t length = length_of(s, i);
        const uint8_t *signature = signature_of(mode, i);
        uint8_t *at = mixed + i + s->words * s->checks;
        uint32_t checks = 0;
        for (size_t k = s->checks; k < length; k++, at += s->words) {
            checks ^= check_row[mode - 2][k][*data];
            *at = *data++ ^ signature[k];
        }
        at = mixed + i;
        for (size_t k = 0; k < s->checks; k++, at += s->words)
            *at = (checks >> 4 * k & 15) ^ signature[k];
    }
}

typedef struct { uint16_t semi_octets, bits; } changes;

/* Takes the words apart and corrects them, from the last to the first, so that a word's check semi-octets give way to the
   data of the word before it; the first ones stand before `data`. `all` gets the changes of all words; 0 where a word has
   no valid word near. */
static int correct_words(const sizes *s, uint32_t mode, const uint8_t *mixed, uint8_t *data, changes *all)
{
    changes so_far = {0, 0};
    uint8_t *word = data + 2 * (s->first + s->second + s->frame) - s->checks;
    for (size_t i = s->words; i-- > 0;) {
        size_t length = length_of(s, i);
        const uint8_t *signature = signature_of(mode, i), *at = mixed + i;
        uint32_t syndrome = 0;
        word -= length - s->checks;
        for (size_t k = 0; k < length; k++, at += s->words) {
            word[k] = *at ^ signature[k];
            syndrome ^= syndrome_row[k][word[k]];
        }
        syndrome &= syndromes_of(mode);
        if (syndrome == 0)
            continue;
        word_changes made = closed_change(word, length, mode, syndrome);
        if (made.count == mode)
            return 0;
        so_far.semi_octets += made.count;
        so_far.bits += made.bits;
    }
    *all = so_far;
    return 1;
}

/* ---- the three calls */

uint8_t quick_protect(size_t size, uint32_t mode, uint32_t request, const uint8_t *frame, size_t frame_len,
                      uint8_t *slot, size_t slot_len)
{
    sizes s;
    uint8_t data[2 * MOST_BYTES], mixed[2 * MOST_BYTES];
    if (!set_sizes(size, mode, &s) || request > 3)
        return SILBERLAUS_BAD_SETTING;
    if (frame_len != s.frame || slot_len != size)
        return SILBERLAUS_BAD_LENGTH;
    put_data(&s, frame, request, data);
    code_words(&s, mode, data, mixed);
    for (size_t j = 0; j < size; j++)
        slot[size - 1 - j] = (uint8_t)(mixed[2 * j] << 4 | mixed[2 * j + 1]);
    return SILBERLAUS_ACCEPTED;
}

/* What both calls below do with a slot: in the batch the sizes are there already. */
static inline silberlaus_unprotected unprotect_slot(const sizes *s, size_t size, uint32_t mode, const uint8_t *slot,
                                                    uint8_t *frame)
{
    uint8_t mixed[2 * MOST_BYTES], data[MOST_CHECKS + 2 * MOST_BYTES], found[MOST_BYTES];
    uint32_t request;
    changes all;
    for (size_t j = 0; j < size; j++) {
        mixed[2 * j] = slot[size - 1 - j] >> 4;
        mixed[2 * j + 1] = slot[size - 1 - j] & 15;
    }
    if (!correct_words(s, mode, mixed, data + MOST_CHECKS, &all))
        return (silberlaus_unprotected){SILBERLAUS_BEYOND_REPAIR, 0, 0, 0};
    if (!take_data(s, data + MOST_CHECKS, found, &request))
        return (silberlaus_unprotected){SILBERLAUS_FOREIGN, 0, 0, 0};
    memcpy(frame, found, s->frame);
    return (silberlaus_unprotected){SILBERLAUS_ACCEPTED, (uint8_t)request, all.semi_octets, all.bits};
}

silberlaus_unprotected quick_unprotect(size_t size, uint32_t mode, const uint8_t *slot, size_t slot_len, uint8_t *frame,
                                       size_t frame_len)
{
    sizes s;
    if (!set_sizes(size, mode, &s))
        return (silberlaus_unprotected){SILBERLAUS_BAD_SETTING, 0, 0, 0};
    if (slot_len != size || frame_len != s.frame)
        return (silberlaus_unprotected){SILBERLAUS_BAD_LENGTH, 0, 0, 0};
    return unprotect_slot(&s, size, mode, slot, frame);
}

uint8_t quick_unprotect_each(size_t size, uint32_t mode, const uint8_t *slots, size_t slots_len, uint8_t *numbers,
                             size_t numbers_len, uint8_t *requests, size_t requests_len, uint16_t *semi_octets,
                             size_t semi_octets_len, uint16_t *bits, size_t bits_len, uint8_t *frames, size_t frames_len)
{
    sizes s;
    if (!set_sizes(size, mode, &s))
        return SILBERLAUS_BAD_SETTING;
    size_t count = slots_len / size;
    if (slots_len % size != 0 || numbers_len != count || requests_len != count || semi_octets_len != count
        || bits_len != count || frames_len != count * s.frame)
        return SILBERLAUS_BAD_LENGTH;
    for (size_t i = 0; i < count; i++) {
        silberlaus_unprotected got = unprotect_slot(&s, size, mode, slots + i * size, frames + i * s.frame);
        numbers[i] = got.number;
        requests[i] = got.request;
        semi_octets[i] = got.semi_octets;
        bits[i] = got.bits;
    }
    return SILBERLAUS_ACCEPTED;
}
