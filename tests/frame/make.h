/* Makes a frame from what its reader has to give back, at any setting: clause 5.3.14's order and arithmetic coder, the carries
   taken in one long number. Beside what an encoder writes it makes LSB mode 1, escapes that are not needed, and what a reader
   refuses. */
#ifndef MAKE_H
#define MAKE_H

#include "lend.h"

enum { EVERY_SYMBOL_GOOD = UINT16_MAX, TOO_MANY_ESCAPES = 14 };

/* What is to be sent. Fields that are not sent are 0; the residual has a bit for each line that is not 0. A field above its
   range, as far as its bits go, makes its cause. */
typedef struct {
    answer sent;
    uint8_t escapes[MOST_LINES / 2]; /* that a pair has at least; TOO_MANY_ESCAPES: cause 5 */
    uint16_t bad_from;               /* cause 4 at the first symbol from this one on whose range leaves a gap for it */
} plan;

/* `known`: the frame holds all of it, and `want` is the answer to it. Where it does not, the two streams overlap. */
typedef struct { int known; int32_t used; /* bits, before the residual */ answer want; } made;

/* Bits of the frame that are not written stay as they are. */
void make_frame(const settings *set, const plan *p, uint8_t *frame, size_t length, made *m);

#endif
