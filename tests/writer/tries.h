/* Frames to ask for at every setting, all that is given in range: the answer is known from tests/frame/make.c (judge.h). */
#ifndef WRITER_TRIES_H
#define WRITER_TRIES_H

#include "judge.h"

/* Random fields and lines, in range; the plan of a frame to read (tests/frame/plans.h), but in LSB mode 0. */
void tries_fields(const settings *set, answer *given);

/* A residual bit for each line that is not 0, and what a writer does not look at. */
void tries_complete(answer *given);

/* Random fields and lines, so many turns at each setting: a frame of any length, and those of the length that just holds all
   but residual bits, a byte shorter and a byte longer. */
void tries_random(unsigned turns);

/* The same with an arithmetic code that runs along round numbers (steer.h). */
void tries_steered(unsigned turns);

/* The most and the least that can be given: all lines as large as can be, none but the last, none at all. */
void tries_extremes(void);

#endif
