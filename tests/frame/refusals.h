/* Refusals 1 and 2, alone and at once: settings, lengths and buffers in range and out. */
#ifndef REFUSALS_H
#define REFUSALS_H

#include "judge.h"

enum { KHZ_TRIED = 15, QUARTERS_TRIED = 22 };

/* In range and out; some are in range once they are narrowed to 8 or 16 bits. */
extern const uint32_t refusals_khz[KHZ_TRIED], refusals_quarters[QUARTERS_TRIED];

/* All of these with all lengths and buffers; the settings and lengths of the lists with all buffers; every length from 0 to
   1,024 bytes, a frame of random bytes each, at every setting; and buffers as long as those of another setting. */
void refusals_tried(void);
void refusals_listed(void);
void refusals_of_lengths(void);
void refusals_of_other_settings(void);

#endif
