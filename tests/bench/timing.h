/* What the parts of the benchmark share: passes timed side by side, rows of a table, and what is slower. */
#ifndef TIMING_H
#define TIMING_H

#include <stddef.h>

/* The archive, the C from the papers, and a third that some work has. */
enum { ARCHIVE, PAPERS, THIRD, MOST_SIDES, MOST_LOTS = 9, RUNS = 300 };

/* Work in lots, of each of which every side makes passes. `before` comes before a side's turn and is in no time; NULL where
   there is nothing to do. */
typedef struct {
    unsigned lots, sides;
    void (*before)(unsigned side);
    size_t (*pass)(unsigned lot, unsigned side); /* how many calls it made */
    void (*compare)(unsigned lot);               /* fails where the sides did not leave what they should */
} work;

/* Nanoseconds a call. */
typedef struct { double of[MOST_SIDES]; } ns;

/* The best of RUNS passes for each lot and side. The archive and the C take turns, first one and then the other first, and
   all lots are compared after each two; a third follows, alone, so that neither of them comes after it. A turn goes through
   all lots. */
void time_work(const work *w, ns *best);

/* Ends the program with status 1. */
void fails(const char *why);

/* Three cells of a row: the archive's time, that of the C, their ratio, which is kept under that name for the end. */
void print_cells(const ns *best, const char *name);

/* Says which ratios are above 1.5, and which above 1. */
void print_slower(void);

#endif
