/* What is right (see reference.h). The functions stand in the order of A.1, each with its formula numbers. Which valid
   word is near is said by search.c. */
#include "reference.h"

#include <string.h>

#include "../code_word/search.h"

/* ---- sizes (A.7 to A.15) */

size_t reference_words(size_t size)
{
    return (2 * size + 14) / 15;
}

size_t reference_length(size_t size, size_t i)
{
    return (2 * size - i - 1) / reference_words(size) + 1;
}

/* A.10 */
static size_t distance(uint32_t mode)
{
    return 2 * (size_t)mode - 1;
}

/* A.11; what is rounded down is above 0. */
static size_t concealment_words(size_t size, uint32_t mode)
{
    if (size < 80 || mode < 3)
        return 0;
    double n = (double)size;
    double words = mode == 3 ? 0.080447761194030 * n - 1.791044776119394 : 0.066492537313433 * n - 1.970149253731338;
    return (size_t)(words + 0.5);
}

/* A.12 */
static size_t concealment_block(size_t size, uint32_t mode)
{
    size_t words = reference_words(size), block = 0;
    for (size_t i = words - concealment_words(size, mode); i < words; i++)
        block += reference_length(size, i) - distance(mode) + 1;
    return block;
}

/* A.13 */
static size_t first_hash_bytes(size_t size)
{
    return size == 40 ? 2 : 3;
}

/* A.14 */
static size_t second_hash_bytes(size_t size, uint32_t mode)
{
    return size >= 80 && mode >= 3 ? 2 : 0;
}

static int settings_fit(size_t size, uint32_t mode)
{
    return 40 <= size && size <= 400 && 2 <= mode && mode <= 4;
}

/* A.15 */
size_t reference_frame_size(size_t size, uint32_t mode)
{
    if (!settings_fit(size, mode))
        return 0;
    return size - first_hash_bytes(size) - second_hash_bytes(size, mode)
           - reference_words(size) * (distance(mode) - 1) / 2;
}

size_t reference_data_size(size_t size, uint32_t mode)
{
    return 2 * (first_hash_bytes(size) + second_hash_bytes(size, mode) + reference_frame_size(size, mode));
}

/* ---- hashes (A.20 to A.25) */

/* The powers that a hash polynomial has, highest (its degree) first, down to 0. */
static const int hash_14[] = {14, 10, 9, 6, 2, 0};
static const int hash_22[] = {22, 19, 16, 11, 10, 9, 8, 5, 3, 0};
static const int hash_16[] = {16, 15, 13, 9, 7, 6, 5, 3, 1, 0};

/* The rest of the sum of bits[i] x^(i + degree) on division by the polynomial, as degree bits, lowest power first: long
   division, one bit after the other from the highest power. */
static void hash(const int *powers, const uint8_t *bits, size_t count, uint8_t *rest)
{
    static uint8_t left[4 * MOST_SEMI_OCTETS + 32];
    size_t degree = (size_t)powers[0];
    memset(left, 0, degree);
    memcpy(left + degree, bits, count);
    for (size_t top = degree + count; top-- > degree;)
        if (left[top])
            for (size_t i = 0; i == 0 || powers[i - 1] != 0; i++)
                left[top - degree + (size_t)powers[i]] ^= 1;
    memcpy(rest, left, degree);
}

/* ---- from the frame to the data words' semi-octets (A.16 to A.37) */

static void swap(uint8_t *a, uint8_t *b)
{
    uint8_t old = *a;
    *a = *b;
    *b = old;
}

/* A.32 to A.36: the request's bits change places with the lowest two of word 0's last data semi-octet. */
static void swap_request(size_t size, uint32_t mode, uint8_t *bits)
{
    size_t request_at = 8 * first_hash_bytes(size) - 2, k = 4 * (reference_length(size, 0) - distance(mode));
    swap(&bits[request_at], &bits[k]);
    swap(&bits[request_at + 1], &bits[k + 1]);
}

void reference_data(size_t size, uint32_t mode, uint32_t request, const uint8_t *frame, uint8_t *data)
{
    size_t h1 = first_hash_bytes(size), h2 = second_hash_bytes(size, mode), np = reference_frame_size(size, mode);
    size_t request_at = 8 * h1 - 2, frame_at = 8 * h1 + 8 * h2, frame_bits = 8 * np;
    size_t block_bits = 4 * concealment_block(size, mode), main_bits = frame_bits - block_bits;
    uint8_t bits[4 * MOST_SEMI_OCTETS], hashed[4 * MOST_SEMI_OCTETS];

    /* A.16, A.17, A.20: bytes from the last to the first, the upper half before the lower, each from its lowest bit */
    for (size_t k = 0; k < np; k++)
        for (size_t j = 0; j < 4; j++) {
            bits[frame_at + 8 * k + j] = frame[np - 1 - k] >> (4 + j) & 1;
            bits[frame_at + 8 * k + 4 + j] = frame[np - 1 - k] >> j & 1;
        }
    bits[request_at] = request & 1;
    bits[request_at + 1] = request >> 1 & 1;

    /* A.25: the first hash is over the request and all of the frame before the partial concealment block */
    memcpy(hashed, bits + request_at, 2);
    memcpy(hashed + 2, bits + frame_at, main_bits);
    hash(h1 == 2 ? hash_14 : hash_22, hashed, 2 + main_bits, bits);
    if (h2 > 0)
        hash(hash_16, bits + frame_at + main_bits, block_bits, bits + 8 * h1);

    swap_request(size, mode, bits);
    for (size_t k = 0; k < reference_data_size(size, mode); k++)
        data[k] = (uint8_t)(bits[4 * k] | bits[4 * k + 1] << 1 | bits[4 * k + 2] << 2 | bits[4 * k + 3] << 3);
}

/* The frame and the request that stand in these data semi-octets. */
static uint32_t read_data(size_t size, uint32_t mode, const uint8_t *data, uint8_t *frame)
{
    size_t h1 = first_hash_bytes(size), h2 = second_hash_bytes(size, mode), np = reference_frame_size(size, mode);
    uint8_t bits[4 * MOST_SEMI_OCTETS];
    for (size_t k = 0; k < reference_data_size(size, mode); k++)
        for (size_t j = 0; j < 4; j++)
            bits[4 * k + j] = data[k] >> j & 1;
    swap_request(size, mode, bits);
    for (size_t k = 0; k < np; k++) {
        uint8_t byte = 0;
        for (size_t j = 0; j < 4; j++)
            byte |= (uint8_t)(bits[8 * (h1 + h2 + k) + j] << (4 + j) | bits[8 * (h1 + h2 + k) + 4 + j] << j);
        frame[np - 1 - k] = byte;
    }
    return bits[8 * h1 - 2] | (uint32_t)bits[8 * h1 - 1] << 1;
}

/* ---- words, signature, interleaving, bytes (A.38 to A.52) */

/* A.46 to A.50, modes 2, 3 and 4. */
static const uint8_t signatures[3][LONGEST] = {
    {7, 15, 5, 6, 14, 9, 1, 3, 12, 10, 13, 3, 2, 0, 0},
    {7, 11, 14, 1, 2, 3, 12, 11, 6, 15, 7, 6, 12, 0, 0},
    {6, 15, 12, 2, 9, 15, 2, 8, 12, 3, 10, 5, 4, 0, 0},
};

static uint8_t signature(uint32_t mode, size_t i, size_t k)
{
    return i < 6 ? signatures[mode - 2][k] : 0;
}

size_t reference_place(size_t size, size_t i, size_t k)
{
    return 2 * size - reference_words(size) * k - i - 1;
}

void reference_code(size_t size, uint32_t mode, const uint8_t *data, uint8_t *slot)
{
    size_t checks = distance(mode) - 1;
    uint8_t places[MOST_SEMI_OCTETS];
    for (size_t i = 0; i < reference_words(size); i++) {
        size_t length = reference_length(size, i);
        uint8_t word[LONGEST] = {0}, rest[6];
        memcpy(word + checks, data, length - checks);
        data += length - checks;
        search_rest(word, length, mode, rest);
        memcpy(word, rest, checks);
        for (size_t k = 0; k < length; k++)
            places[reference_place(size, i, k)] = word[k] ^ signature(mode, i, k);
    }
    for (size_t j = 0; j < size; j++)
        slot[j] = (uint8_t)(places[2 * j] + 16 * places[2 * j + 1]);
}

uint8_t reference_protect(size_t size, uint32_t mode, uint32_t request, const uint8_t *frame, size_t frame_len,
                          uint8_t *sent, size_t sent_len)
{
    if (!settings_fit(size, mode) || request > 3)
        return 1;
    if (frame_len != reference_frame_size(size, mode) || sent_len != size)
        return 2;
    uint8_t data[MOST_SEMI_OCTETS];
    reference_data(size, mode, request, frame, data);
    reference_code(size, mode, data, sent);
    return 0;
}

/* ---- the receiver (A.53 to A.55, document 01's refusals 3 and 4) */

static uint8_t semi_octet(const uint8_t *slot, size_t place)
{
    return slot[place / 2] >> 4 * (place % 2) & 15;
}

/* The data semi-octets of all words, each corrected; 0 where a word has no valid word near. */
static int corrected_data(size_t size, uint32_t mode, const uint8_t *slot, uint8_t *data)
{
    size_t checks = distance(mode) - 1;
    for (size_t i = 0; i < reference_words(size); i++) {
        size_t length = reference_length(size, i);
        uint8_t word[LONGEST];
        pattern changes;
        for (size_t k = 0; k < length; k++)
            word[k] = semi_octet(slot, reference_place(size, i, k)) ^ signature(mode, i, k);
        if (!search_changes(search_syndrome(word, length, mode), length, mode, &changes))
            return 0;
        for (unsigned c = 0; c < changes.count; c++)
            word[changes.place[c]] ^= changes.value[c];
        memcpy(data, word + checks, length - checks);
        data += length - checks;
    }
    return 1;
}

slot_answer reference_unprotect(size_t size, uint32_t mode, const uint8_t *received, size_t received_len,
                                uint8_t *frame, size_t frame_len)
{
    if (!settings_fit(size, mode))
        return (slot_answer){1, 0, 0, 0};
    if (received_len != size || frame_len != reference_frame_size(size, mode))
        return (slot_answer){2, 0, 0, 0};
    uint8_t data[MOST_SEMI_OCTETS], corrected[MOST_BYTES], found[MOST_BYTES], made[MOST_BYTES];
    if (!corrected_data(size, mode, received, data))
        return (slot_answer){3, 0, 0, 0};
    /* accepted where protecting what stands in the corrected slot makes that slot again */
    uint32_t request = read_data(size, mode, data, found);
    reference_code(size, mode, data, corrected);
    reference_protect(size, mode, request, found, frame_len, made, size);
    if (memcmp(corrected, made, size) != 0)
        return (slot_answer){4, 0, 0, 0};
    slot_answer accepted = {0, (uint8_t)request, 0, 0};
    for (size_t place = 0; place < 2 * size; place++)
        accepted.semi_octets += semi_octet(received, place) != semi_octet(made, place);
    for (size_t bit = 0; bit < 8 * size; bit++)
        accepted.bits += (received[bit / 8] >> bit % 8 & 1) != (made[bit / 8] >> bit % 8 & 1);
    memcpy(frame, found, frame_len);
    return accepted;
}

/* ---- many slots (document 02, §6) */

uint8_t reference_unprotect_each(size_t size, uint32_t mode, const uint8_t *slots, size_t slots_len, uint8_t *numbers,
                                 size_t numbers_len, uint8_t *requests, size_t requests_len, uint16_t *semi_octets,
                                 size_t semi_octets_len, uint16_t *bits, size_t bits_len, uint8_t *frames, size_t frames_len)
{
    if (!settings_fit(size, mode))
        return 1;
    size_t count = slots_len / size, frame_size = reference_frame_size(size, mode);
    if (slots_len != count * size || numbers_len != count || requests_len != count || semi_octets_len != count
        || bits_len != count || frames_len != count * frame_size)
        return 2;
    for (size_t i = 0; i < count; i++) {
        slot_answer a = reference_unprotect(size, mode, slots + i * size, size, frames + i * frame_size, frame_size);
        numbers[i] = a.number;
        requests[i] = a.request;
        semi_octets[i] = a.semi_octets;
        bits[i] = a.bits;
    }
    return 0;
}
