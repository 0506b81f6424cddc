/* Frames to try at every setting, judged by the reference (judge.h): random ones, those whose streams meet, and those of the
   lists (list.h), damaged. */
#ifndef TRIES_H
#define TRIES_H

#include "judge.h"

/* Flips so many bits, the same one perhaps twice. */
void tries_flip(uint8_t *frame, size_t length, unsigned flips);

/* Every setting and length, so many turns each: random bytes; side information in range with random symbols, with runs of
   one byte, and with the last lines at which the two streams meet. */
void tries_random(unsigned turns);

/* The frames of the lists with up to 64 bits flipped, so many turns each; with each of their bits flipped alone; those
   that want bytes past their end, with the last bytes changed; and the accepted ones at every setting, cut short. */
void tries_listed(unsigned turns);

/* From what has occurred so far, however seldom, a few bits on: so many turns for each setting and cause. */
void tries_near_causes(unsigned turns);

#endif
