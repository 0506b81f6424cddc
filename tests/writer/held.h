/* What any writer is held to, as the answer is known beforehand. */
#ifndef WRITER_HELD_H
#define WRITER_HELD_H

#include "ask.h"

/* The list, the refusals, frames of an encoder and of the reader's lists that are written again, and what is given at random, so
   many turns of each kind at each setting. `folder`: where write_frames.txt stands; those of tests/frame stand beside it, in
   ../frame. A group for each; the program ends with status 1 at the end of the first group with a wrong answer. Whether every
   kind of case occurred. */
int held_to_known(writer *write, reader *read, const char *folder, unsigned turns);

#endif
