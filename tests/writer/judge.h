/* Judging the writer that is tested, and what has occurred: how often each kind of case, by setting. */
#ifndef WRITER_JUDGE_H
#define WRITER_JUDGE_H

#include "ask.h"

/* The writer that is tested, and the reader that reads its frames back. Call it once, before any other. */
void judge_prepare(writer *write, reader *read);

/* Asks for the frame and judges by the answer that is wanted; so is the reference judged, by which the case is counted. What is
   accepted is read back: the fields and lines that were given, the residual bits that were sent, and zeros. */
void judge_answer(const asked *a, const written *want);

/* The answer is that number, and the frame stays. */
void judge_refused(const asked *a, uint8_t number);

/* All that is given is in range: wanted is the frame that tests/frame/make.c makes, which takes the arithmetic code as one long
   number, or number 8 where it counts more bits than the frame has. */
void judge_in_range(const settings *set, const asked *a);

/* The tables of what has occurred. Whether every kind did that can: at each setting, and each ending; if not, standard error
   says so. */
int judge_kinds(void);

#endif
