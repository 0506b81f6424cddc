/* What any reader is held to, as the answer is known beforehand: the two lists, the lines of every rate and duration, the
   refusals, and frames that are made. */
#ifndef HELD_H
#define HELD_H

#include "lend.h"

/* The lines of a rate and a duration. */
typedef size_t line_counter(uint32_t khz, uint32_t quarters);

/* Lends to that reader from here on. `folder`: where the lists stand. A group for each; the program ends with status 1 at the
   end of the first group with a wrong answer. */
void held_to_known(line_counter *count, reader *read, const char *folder);

#endif
