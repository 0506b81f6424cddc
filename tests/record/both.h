/* Each call of the record through both, the archive and the reference, which have to answer the same and leave the same
   bytes in and around every lent buffer. What the reference answers is counted as a kind (kinds.h). */
#ifndef RECORD_BOTH_H
#define RECORD_BOTH_H

#include "reference.h"

/* The room of a lent buffer, which is longer than any record, and the longest frame lent. */
enum { ROOM = 70000, LONGEST_FRAME = 512 };

/* The archive's buffer and the reference's, with known bytes on both sides; the frame that is added. */
extern uint8_t *const ours, *const theirs, frame[LONGEST_FRAME];

/* Counts a case, and shows the first wrong ones of a group. */
void judge(int right, const char *what, size_t used);

void both_full_of(uint8_t byte);
void theirs_as_ours(void);
void random_frame(void);

/* A new record of the form, in both. The number. */
uint8_t both_new(uint32_t form, size_t capacity);

/* An entry added to both. What the archive answers. */
silberlaus_added both_add(size_t capacity, size_t used, size_t frame_len, uint32_t request, uint32_t count, uint32_t bits,
                          uint32_t length);

/* A frame of that length, added with settings in range. The new used length. */
size_t both_grow(size_t capacity, size_t used, uint32_t length, uint32_t request, uint32_t count, uint32_t bits);

/* Both read the first bytes of `ours` under any form, and under both forms, of which at most one may take them. */
void both_read_as(uint32_t form, size_t used);
void both_read(size_t used);

/* The first bytes of `ours` moved to form 1 or 2, into buffers of that capacity, full of one byte. What is moved stands in
   `moved`. What the archive answers. */
extern uint8_t *const moved;
silberlaus_added both_move(uint32_t to, size_t used, size_t capacity);

#endif
