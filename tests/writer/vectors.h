/* The list write_frames.txt: what is given to a line, and the answer to it (README.md). */
#ifndef VECTORS_H
#define VECTORS_H

#include "ask.h"

enum { MOST_VECTORS = 1024 };

typedef struct { asked given; written want; } vector;

extern vector vectors[MOST_VECTORS];
extern size_t vectors_length;

/* Reads it; ends the program where it cannot be read whole, or a line is not as README.md says. */
void vectors_read(const char *folder);

#endif
