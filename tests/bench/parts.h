/* The parts of the benchmark. Each times its work, prints a table and notes its ratios (timing.h). */
#ifndef PARTS_H
#define PARTS_H

void bench_slots(void);

/* After the slots, which prepare what these rest on too. */
void bench_batches(void);

/* The frames of frames.h, which are prepared before. */
void bench_reading(void);
void bench_writing(void);

void bench_records(void);

#endif
