/* Records to try: lists of entries, in and out of range, which the reference writes in either form. */
#ifndef RECORD_MADE_H
#define RECORD_MADE_H

#include "both.h"

/* More than any record has, so that lists that are too long can be made too. */
enum { LISTED = MOST_ENTRIES + 8 };
extern entry_place list[LISTED];

/* Random bytes, in which the frames of a list start. To be called once, after cases_start. */
void made_start(void);

/* Bits that an entry of that count can have, in one of eight unknown. */
uint32_t some_bits(uint32_t count);

/* Fills the list with so many entries that are in range, with frames of 20 to `longest` bytes. */
void list_some(size_t entries, uint32_t longest);

/* The same with frames of so many bytes in all, of lengths that differ by one at most; they are in range where the
   total is. */
void list_total(size_t entries, size_t total);

/* The record of the list's first entries in both buffers, the rest of which is full of one byte. Its length. */
size_t write_both(uint32_t form, size_t entries);

/* The frames' bytes in a record of so many entries and of that length. */
size_t frames_in(uint32_t form, size_t entries, size_t used);

/* The groups of cases, in moves.c and in lines.c; `folder`: where form2.txt stands. */
void move_groups(void);
void line_groups(const char *folder);

#endif
