/* Judging the reader that memory is lent to (lend.h), and what has occurred: how often each cause, by setting, and frames of
   each to go on from. */
#ifndef JUDGE_H
#define JUDGE_H

#include "lend.h"

/* Cause 0: accepted. */
enum { CAUSES = 9 };

/* Counts a case, and shows the first wrong ones of a group on standard error: what differs, the two answers, and the frame. */
void judge(const char *difference, const request *r, silberlaus_frame want, silberlaus_frame got);

/* Reads it, and judges by the answer that is wanted. */
void judge_answer(const request *r, const answer *want);

/* The same with a frame of right settings, which is counted and kept: by the answer that is wanted, and by what document 01
   says of every accepted frame; and by the answer of the reference. */
void judge_frame(const settings *set, const uint8_t *frame, size_t length, const answer *want);
void judge_by_reference(const settings *set, const uint8_t *frame, size_t length);

/* A frame of that setting and cause that has occurred, NULL where none has. */
typedef struct { size_t length; uint8_t frame[MOST_BYTES]; } kept_frame;
const kept_frame *judge_kept(const settings *set, unsigned cause);

/* Counts by setting and cause, and their table. Whether each cause but `but` occurred that can occur at a setting, and no
   other; where one did not, standard error says so. `but` 0: every cause. */
typedef unsigned long tally[SETTINGS][CAUSES];
int judge_table(const char *title, tally times, unsigned but);

/* The table of all that has occurred. */
int judge_causes(void);

#endif
