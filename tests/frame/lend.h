/* Lends memory to a reader of frames and compares its answer with the one that is wanted: every field, both buffers
   and what stands around them. The frame lies beside a page that cannot be read, by turns after it and before it. */
#ifndef LEND_H
#define LEND_H

#include "reference.h"

/* Longest frame, and most entries of a buffer, that can be lent. */
enum { ROOM = 1024 };

/* A whole answer; the buffers count where the number is 0. */
typedef struct { silberlaus_frame fields; int32_t spectrum[MOST_LINES]; uint8_t residual[MOST_LINES]; } answer;

/* A reader: rate and duration, the frame, the spectrum and the residual, each with its length. */
typedef silberlaus_frame reader(uint32_t, uint32_t, const uint8_t *, size_t, int32_t *, size_t, uint8_t *, size_t);

/* A frame, and the lengths of the two buffers; a part that is nowhere is NULL, for a length of 0. */
typedef struct {
    uint32_t khz, quarters;
    const uint8_t *frame;
    size_t length, spectrum_length, residual_length;
    int frame_nowhere, spectrum_nowhere, residual_nowhere;
} request;

/* The reader that is lent to, and the pages of the frame; ends the program where there are none. Call it once, before any
   other. */
void lend_prepare(reader *read);

/* Reads it and compares: NULL where all is as wanted, else the name of the first thing that is not. */
const char *lend_and_compare(const request *r, const answer *want, silberlaus_frame *got);

/* The name of the first field in which the two differ, NULL where there is none. */
const char *lend_difference(const silberlaus_frame *one, const silberlaus_frame *other);

/* A request with buffers of the right lengths, and what the reference answers to it. */
request lend_right(uint32_t khz, uint32_t quarters, const uint8_t *frame, size_t length);
void lend_reference(const request *r, answer *want);

#endif
