/* Lists of cases: a frame to a line, its settings, and the answer to it (README.md). */
#ifndef LIST_H
#define LIST_H

#include "lend.h"

enum { MOST_LISTED = 1024 };

typedef struct { uint32_t khz, quarters; size_t length; uint8_t frame[ROOM]; answer want; } listed;

extern listed list[MOST_LISTED];
extern size_t list_length;

/* Reads a list, behind those that were read before. Its frames are of that duration; where it is 0, each line names its own.
   Ends the program where the list cannot be read whole, or a line is not as README.md says. */
void list_read(const char *folder, const char *name, uint32_t quarters);

/* Whether the line's settings and length are in range; then they are settings of the reference. */
const settings *list_settings(const listed *c);

#endif
