/* Asks a writer for a frame, in lent memory, and compares its answer with the one that is wanted: number and residual bits, the
   frame, what was lent to be read, and what stands around all three. Each of them lies beside a page that cannot be touched, by
   turns after it and before it. */
#ifndef ASK_H
#define ASK_H

#include "../frame/lend.h"
#include "reference.h"

/* The most entries of a buffer and bytes of a frame that can be lent: so that a length narrowed to 16 bits would be right. */
enum { MOST_LENT = 65536 + 2 * MOST_BYTES };

/* What a writer is given; of a longer buffer only the first entries. A part that is nowhere is NULL, for a length of 0. */
typedef struct {
    uint32_t khz, quarters;
    silberlaus_frame fields;
    int32_t spectrum[MOST_LINES];
    uint8_t residual[MOST_LINES];
    size_t spectrum_length, residual_length, length;
    int spectrum_nowhere, residual_nowhere, frame_nowhere;
} asked;

/* A whole answer; the frame counts where the number is 0. */
typedef struct { silberlaus_written said; uint8_t frame[MOST_BYTES]; } written;

typedef silberlaus_written writer(uint32_t, uint32_t, silberlaus_frame, const int32_t *, size_t, const uint8_t *, size_t,
                                  uint8_t *, size_t);

/* The memory that is lent; ends the program where there is none. Call it once, before any other. */
void ask_prepare(void);

/* Asks and compares: NULL where all is as wanted, else the name of the first thing that is not. */
const char *ask_and_compare(writer *write, const asked *a, const written *want, silberlaus_written *got);

/* With buffers of the right lengths. */
asked ask_right(const settings *set, const answer *given, size_t length);

#endif
