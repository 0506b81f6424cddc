/* The reference behind the archive's names, with the fault number FAULT put in: check.c must pass it without a fault and
   refuse it with each. The script `faults` builds and runs them all; those of many slots start at 28. */
#include <string.h>

#include "reference.h"

#ifndef FAULT
#define FAULT 0
#endif

size_t silberlaus_frame_size(size_t size, uint32_t mode)
{
    if (FAULT == 1) /* a mode narrowed on the way in */
        mode = (uint8_t)mode;
    return reference_frame_size(size, mode);
}

uint8_t silberlaus_protect(size_t size, uint32_t mode, uint32_t request, const uint8_t *frame, size_t frame_len,
                           uint8_t *sent, size_t sent_len)
{
    if (FAULT == 2) /* a request narrowed on the way in */
        request = (uint8_t)request;
    if (FAULT == 3) /* a size narrowed on the way in */
        size = (uint32_t)size;
    if (FAULT == 4 && sent_len != size) /* 2 before 1 */
        return 2;
    uint8_t number = reference_protect(size, mode, request, frame, frame_len, sent, sent_len);
    if (FAULT == 5 && number == 2 && sent_len > 0) /* clears the slot before it refuses */
        memset(sent, 0, sent_len);
    if (FAULT == 6 && number == 0 && size == 400) /* a wrong semi-octet in the largest slot */
        sent[0] ^= 1;
    if (FAULT == 7 && number == 0) /* writes past the end */
        sent[sent_len] = 0;
    return number;
}

/* Bits counted in wrong ways, from the received slot and that of the accepted frame and request. */
static uint16_t wrong_bits(size_t size, uint32_t mode, const uint8_t *received, uint32_t request, const uint8_t *frame)
{
    uint8_t made[MOST_BYTES];
    unsigned bits = 0;
    reference_protect(size, mode, request, frame, reference_frame_size(size, mode), made, size);
    for (size_t i = 0; i < reference_words(size); i++)
        for (size_t k = 0; k < reference_length(size, i); k++) {
            size_t place = reference_place(size, i, k);
            unsigned corrected = made[place / 2] >> 4 * (place % 2) & 15;
            unsigned difference = corrected ^ (received[place / 2] >> 4 * (place % 2) & 15);
            if (FAULT == 20 && difference != 0) /* the ones of what the corrected slot has there */
                bits += (unsigned)__builtin_popcount(corrected);
            if ((FAULT == 21 && i == 0) /* those of the first word alone */
                || (FAULT == 22 && k >= 2 * mode - 2)) /* those of the data alone */
                bits += (unsigned)__builtin_popcount(difference);
        }
    return (uint16_t)bits;
}

slot_answer silberlaus_unprotect(size_t size, uint32_t mode, const uint8_t *received, size_t received_len,
                                 uint8_t *frame, size_t frame_len)
{
    slot_answer a = reference_unprotect(size, mode, received, received_len, frame, frame_len);
    if (FAULT == 8) /* refuses everything */
        return (slot_answer){3, 0, 0, 0};
    if (FAULT == 9 && a.number == 0 && a.semi_octets > 0) /* repairs nothing */
        return (slot_answer){4, 0, 0, 0};
    if (FAULT == 10 && a.number == 0 && a.semi_octets > 0) /* an invented count */
        a.semi_octets = 1;
    if (FAULT == 11 && a.number == 0 && a.semi_octets > 127) /* a count in 7 bits */
        a.semi_octets = 127;
    if (FAULT == 12 && a.number == 4) /* 3 for 4 */
        a.number = 3;
    if (FAULT == 13 && a.number == 4) /* writes before the last check */
        frame[0] ^= 1;
    if (FAULT == 14 && a.number == 3) /* a refusal with a request */
        a.request = 1;
    if (FAULT == 15 && a.number == 2 && received_len == size + 1) /* takes a slot that is one long */
        return reference_unprotect(size, mode, received, size, frame, frame_len);
    if (FAULT == 16 && a.number == 0 && size == 338 && mode == 4) /* a wrong byte in a delicate slot */
        frame[frame_len - 1] ^= 1;
    if (FAULT == 17 && a.number == 0 && size == 217 && mode == 3) /* a wrong request at a size that no list has */
        a.request ^= 1;
    if (FAULT == 18 && a.number == 4 && size == 217 && mode == 3) /* a foreign slot called clean there */
        return (slot_answer){0, 0, 0, 0};
    if (FAULT == 19) /* bits counted as semi-octets */
        a.bits = a.semi_octets;
    if (FAULT >= 20 && FAULT <= 22 && a.number == 0)
        a.bits = wrong_bits(size, mode, received, a.request, frame);
    if (FAULT == 23) /* no bits */
        a.bits = 0;
    if (FAULT == 24) /* the count of bits narrowed to 8 bits */
        a.bits = (uint8_t)a.bits;
    if (FAULT == 25 && a.bits > 511) /* the count of bits in 9 bits */
        a.bits = 511;
    if (FAULT == 26 && a.number == 4) /* a refusal with bits */
        a.bits = 1;
    if (FAULT == 27 && a.bits > 0 && size == 217 && mode == 3) /* a bit too few at a size that no list has */
        a.bits--;
    return a;
}

/* ---- many slots */
typedef struct {
    size_t size, n;
    uint32_t mode;
    const uint8_t *slots;
    uint8_t *numbers, *requests, *frames;
    uint16_t *semi_octets, *bits;
} batch;

/* Slot i, whose frame goes to that place. */
static slot_answer unprotect_one(const batch *b, size_t i, size_t place)
{
    size_t frame_size = reference_frame_size(b->size, b->mode);
    size_t taken = FAULT == 28 ? 0 : FAULT == 29 ? b->n - 1 - i : i; /* the first one for all; from the last one on */
    uint8_t *frame = b->frames + place * frame_size;
    slot_answer a = reference_unprotect(b->size, b->mode, b->slots + taken * b->size, b->size, frame, frame_size);
    if (FAULT == 30 && a.number != 0) /* clears the place of a refused slot */
        memset(frame, 0, frame_size);
    if (FAULT == 31 && a.number == 4) /* writes into it before the last check */
        frame[0] ^= 1;
    if (FAULT == 32 && a.number == 4) /* 3 for 4 */
        a.number = 3;
    if (FAULT == 33) /* bits counted as semi-octets */
        a.bits = a.semi_octets;
    if (FAULT == 34) /* the count of bits narrowed to 8 bits */
        a.bits = (uint8_t)a.bits;
    if (FAULT == 35 && i > 0) /* the first one's request for all */
        a.request = b->requests[0];
    if (FAULT == 36 && i > 0 && a.number != 0) /* a refused slot with the semi-octets of the one before */
        a.semi_octets = b->semi_octets[i - 1];
    if (FAULT == 37 && i > 0 && a.number != 0) /* and with its bits */
        a.bits = b->bits[i - 1];
    if (FAULT == 38 && i > 0 && a.number != 0) /* and with its request */
        a.request = b->requests[i - 1];
    if (FAULT == 39 && i > 0) /* counts that go on */
        a.semi_octets += b->semi_octets[i - 1];
    if (FAULT == 40 && i == 1 && b->size == 217 && b->mode == 3) /* a wrong request in a second slot that no list has */
        a.request ^= 1;
    return a;
}

/* The number of the whole. */
static uint8_t unprotect_slots(const batch *b)
{
    uint8_t number = 0;
    size_t packed = 0, n = FAULT == 41 ? (uint8_t)b->n : FAULT == 42 ? (uint16_t)b->n : b->n; /* counted in 8 and 16 bits */
    for (size_t i = 0; i < n; i++) {
        if (FAULT == 43 && i > 0 && i + 1 == n) /* the last one left out */
            break;
        slot_answer a = unprotect_one(b, i, FAULT == 44 ? packed : i); /* frames without gaps */
        packed += a.number == 0;
        b->numbers[i] = a.number;
        if (FAULT == 45 && a.number != 0) /* the other entries of a refused slot as lent */
            continue;
        b->requests[i] = a.request;
        if (FAULT != 46 || a.semi_octets > 0) /* a clean slot's count not written */
            b->semi_octets[i] = a.semi_octets;
        b->bits[i] = a.bits;
        if (FAULT == 47 && a.number != 0) /* ends at the first refusal */
            return 0;
        if (FAULT == 48 && a.number != 0) /* ends there, with its number */
            return a.number;
        if (FAULT == 49 || (FAULT == 50 && a.number > number)) /* the number of the last; the highest */
            number = a.number;
    }
    if (FAULT == 51) /* writes past the end */
        b->bits[n] = 0;
    if (FAULT == 52 && n > 0) /* writes into a slot */
        ((uint8_t *)b->slots)[0] ^= 1;
    return number;
}

/* A length passes where it is right; by a fault it does where it is too long, or one too short and not nothing. */
static int passes(size_t length, size_t right, int takes_long, int takes_short)
{
    return length == right || (takes_long && length > right) || (takes_short && length > 0 && length + 1 == right);
}

uint8_t silberlaus_unprotect_each(size_t size, uint32_t mode, const uint8_t *slots, size_t slots_len, uint8_t *numbers,
                                  size_t numbers_len, uint8_t *requests, size_t requests_len, uint16_t *semi_octets,
                                  size_t semi_octets_len, uint16_t *bits, size_t bits_len, uint8_t *frames, size_t frames_len)
{
    if (FAULT == 53) /* a mode narrowed on the way in */
        mode = (uint8_t)mode;
    if (FAULT == 54) /* a size narrowed on the way in */
        size = (uint32_t)size;
    if (FAULT == 55 && requests_len != numbers_len) /* 2 before 1 */
        return 2;
    size_t frame_size = reference_frame_size(size, mode);
    if (FAULT == 56 && frame_size == 0 && frames_len > 0) /* clears the frames before a 1 */
        memset(frames, 0, frames_len);
    if (frame_size == 0)
        return 1;
    size_t n = FAULT == 57 && slots_len > numbers_len * size ? numbers_len : slots_len / size; /* a slot more is taken */
    int right = (passes(slots_len, n * size, FAULT == 57, 0) || (FAULT == 58 && n > 0)) /* a part of a slot is left out */
                && passes(numbers_len, n, FAULT == 59, FAULT == 60) && passes(requests_len, n, FAULT == 61, FAULT == 62)
                && passes(semi_octets_len, n, FAULT == 63, FAULT == 64) && passes(bits_len, n, FAULT == 65, FAULT == 66)
                && passes(frames_len, n * frame_size, FAULT == 67, FAULT == 68);
    if (FAULT == 69 && !right && numbers_len > 0) /* writes before a 2 */
        numbers[0] = 0;
    if (!right || (FAULT == 70 && n == 0)) /* no slots are refused */
        return 2;
    return unprotect_slots(&(batch){size, n, mode, slots, numbers, requests, frames, semi_octets, bits});
}
