/* Writing again what was read. An encoder that writes as the clause does gave the same bytes. */
#ifndef AGAIN_H
#define AGAIN_H

#include "ask.h"

/* What to ask for, and the answer with these bytes. A residual bit that was not sent may be either. Whether it can be asked for:
   the frame is read, and in LSB mode 0. */
int again_asked(reader *read, const settings *set, const uint8_t *frame, size_t length, asked *a, written *want);

#endif
