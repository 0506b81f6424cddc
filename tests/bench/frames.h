/* The frames that are timed, read and written, by setting and length: those of 10 ms, and those of the shorter durations. A lot
   is a setting. */
#ifndef FRAMES_H
#define FRAMES_H

#include "../frame/reference.h"
#include "timing.h"

enum { MOST_FRAMES = 512, LOTS = 6, TIMED_LENGTHS = 5 };
extern const size_t timed_lengths[TIMED_LENGTHS];

typedef struct { unsigned lot; size_t length; uint8_t bytes[MOST_BYTES]; } frame;
typedef struct { unsigned lots; const settings *sets[LOTS]; size_t count; frame all[MOST_FRAMES]; } table;

/* Those of 10 ms are the frames of bench_frames.txt: real ones of all lengths at every rate, all accepted. The others are made
   from their fields and lines. */
extern table of_10_ms, shorter;

/* Fills the tables. `folder`: where bench_frames.txt stands. Those of the last length are not among the shorter ones: so many
   bytes are never full with real lines. */
void frames_prepare(const char *folder);

/* Adds shorter frames of that length to a table that has the settings of the shorter ones. They are in LSB mode 0, with lines
   that are doubled as often as there is room for. */
void frames_add_full(table *t, size_t length);

frame *frames_add(table *t);

/* A row up to the ratio: bytes, the duration but of 10 ms, rate, symbols of a frame on average, and both times. */
void print_frame_row(const char *what, const settings *set, size_t length, double symbols, const ns *best);

#endif
