/* Frames that are made (make.h) from random plans at every setting. The answer to them is known beforehand; but where a frame
   cannot hold its plan, so that the two streams overlap, only the reference can say what it is. Each is read, and read again
   with a few bits flipped. */
#ifndef MADE_H
#define MADE_H

#include "judge.h"

/* Every field in its range: accepted, or a bit too short and so cause 7. */
void made_in_range(void);

/* With a cause, in some frames with two. */
void made_with_causes(void);

/* A table of the answers that were known. Whether they were enough: 2,000 accepted frames at each setting, and every cause but
   6, which takes streams that overlap; if not, standard error says so. */
int made_enough(void);

#endif
