/* Refusals 1 and 2, alone, at their boundaries, and two at once. What is in range is said here once more, as bounds of each
   field, apart from the reference. */
#ifndef WRITER_REFUSALS_H
#define WRITER_REFUSALS_H

#include "judge.h"

/* Rates, durations and lengths of the frame in range and out, with right buffers and wrong ones; each buffer of a wrong length;
   and buffers as long as those of another setting. */
void refusals_of_settings(void);
void refusals_of_lengths(void);

/* Each field about its bounds, those of a byte at every value; lines, residual bits and their number about theirs. */
void refusals_of_fields(void);
void refusals_of_lines(void);

/* Any two refusals at once: 1 for fields, then 2, then 1 for lines, then 8. */
void refusals_in_order(void);

#endif
