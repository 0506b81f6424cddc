/* What is right: protecting and unprotecting a slot, written from document 01 and Annex A.1 alone, step by step, plain
   and slow. The four calls have the meaning of include/silberlaus.h. Call search_prepare
   (tests/code_word/search.h) once, before any other. */
#ifndef REFERENCE_H
#define REFERENCE_H

#include "silberlaus.h"

typedef silberlaus_unprotected slot_answer;

/* A function with the parameters of silberlaus_unprotect_each. */
typedef uint8_t each_call(size_t, uint32_t, const uint8_t *, size_t, uint8_t *, size_t, uint8_t *, size_t, uint16_t *, size_t,
                          uint16_t *, size_t, uint8_t *, size_t);

enum { MOST_BYTES = 400, MOST_SEMI_OCTETS = 2 * MOST_BYTES, MOST_WORDS = 54 };

size_t reference_frame_size(size_t size, uint32_t mode);
uint8_t reference_protect(size_t size, uint32_t mode, uint32_t request, const uint8_t *frame, size_t frame_len,
                          uint8_t *sent, size_t sent_len);
slot_answer reference_unprotect(size_t size, uint32_t mode, const uint8_t *received, size_t received_len,
                                uint8_t *frame, size_t frame_len);
uint8_t reference_unprotect_each(size_t size, uint32_t mode, const uint8_t *slots, size_t slots_len, uint8_t *numbers,
                                 size_t numbers_len, uint8_t *requests, size_t requests_len, uint16_t *semi_octets,
                                 size_t semi_octets_len, uint16_t *bits, size_t bits_len, uint8_t *frames, size_t frames_len);

/* The parts below are for settings in range only. */

/* Number of words (A.7), and the length of word i (A.8). */
size_t reference_words(size_t size);
size_t reference_length(size_t size, size_t i);

/* The place in the slot of semi-octet k of word i (A.51); place 2 j is the lower half of byte j. */
size_t reference_place(size_t size, size_t i, size_t k);

/* The semi-octets that the data words are cut from (A.37), and their number. */
size_t reference_data_size(size_t size, uint32_t mode);
void reference_data(size_t size, uint32_t mode, uint32_t request, const uint8_t *frame, uint8_t *data);

/* The slot that carries these data semi-octets, whatever they are (A.38 to A.52). */
void reference_code(size_t size, uint32_t mode, const uint8_t *data, uint8_t *slot);

#endif
