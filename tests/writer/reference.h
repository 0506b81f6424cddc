/* What is right: writing one frame, from request 02 section 5 and clause 5.3.14 alone, step by step, with the clause's own
   coder: a cache, bytes that wait and a carry. The call has the meaning of silberlaus_write_frame (include/silberlaus.h). */
#ifndef WRITER_REFERENCE_H
#define WRITER_REFERENCE_H

#include "../frame/reference.h"

/* Where a call ended: at the settings and the fields, the lengths of the two buffers, the lines and residual bits, the room, or
   not before the end. */
enum { AT_FIELDS, AT_LENGTHS, AT_LINES, AT_ROOM, AT_END, STEPS };

/* What a call did: where it ended; from the room on what was left for residual bits and how many symbols it had, and at the
   end how the arithmetic code came about. */
typedef struct {
    int step;
    int32_t left;       /* bits, before any residual bit; below 0 where the frame is too small */
    uint32_t symbols;
    uint32_t carries;   /* that went into bytes put out before */
    uint32_t through;   /* the most waiting bytes that one of them went through */
    uint32_t waited;    /* the most bytes that waited at once */
    uint32_t end_bits;  /* of the ending, 1 to 9 */
    int end_carried;    /* the ending made a carry */
    int end_longer;     /* it took a bit more than the range's place, so all that were counted */
    int no_cache;       /* a byte waited before there was a cache */
    int shared;         /* the two streams end in one byte */
} trail;

silberlaus_written reference_write_frame(uint32_t khz, uint32_t quarters, silberlaus_frame fields,
                                         const int32_t *spectrum, size_t spectrum_len,
                                         const uint8_t *residual, size_t residual_len, uint8_t *frame, size_t frame_len);

/* Of the last call. */
const trail *reference_trail(void);

#endif
