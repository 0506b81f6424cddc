/* The lists of cases (README.md), line by line. */
#ifndef LIST_H
#define LIST_H

#include <stdio.h>

#include "reference.h"

/* Room for the bytes of a field. */
enum { ROOM = 1024 };

/* Opens a list; where that is not possible the program ends with status 2. */
FILE *list_open(const char *folder, const char *name);

/* Ends the program with status 2: a line of that list is not as README.md says. */
void malformed(const char *name);

/* The bytes of a field in hex; `-` is none. */
size_t from_hex(const char *text, uint8_t *bytes);

/* A line of unprotect.txt or unprotect_bits.txt. A slot has another length than its size exactly where the number is 2, and
   there is a frame exactly where it is 0. */
typedef struct {
    size_t size, slot_len;
    uint32_t mode;
    slot_answer want;
    uint8_t slot[ROOM], frame[ROOM];
} received;

/* The next such line; 0 at the end of the list. */
int next_received(FILE *list, const char *name, received *line);

#endif
