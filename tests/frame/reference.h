/* What is right: reading one frame, written from document 01, request 02 section 3 and clause 5.4 alone, step by step. The two
   calls have the meaning of silberlaus_line_count and silberlaus_read_frame (include/silberlaus.h). */
#ifndef REFERENCE_H
#define REFERENCE_H

#include "silberlaus.h"

enum { LEAST_BYTES = 20, MOST_BYTES = 400, MOST_LINES = 400, RATES = 5, DURATIONS = 4, SETTINGS = DURATIONS * RATES };

/* 10 ms in quarter milliseconds, and the place of its first setting: by duration, then by rate, it has the last ones. */
enum { TEN_MS = 40, AT_TEN_MS = SETTINGS - RATES };

/* A joint index from here on is cause 3, with the shape's mode bit 0 and 1. */
enum { JOINT_LIMIT_0 = 33460056, JOINT_LIMIT_1 = 16708096 };

/* What a rate and a duration settle. */
typedef struct {
    uint32_t khz, quarters;
    uint16_t lines;           /* NE */
    uint16_t weighting_below; /* the weighting row is 1 where the frame has fewer bits */
    uint16_t offset_above;    /* the rate offset is 512 where it has more */
    uint8_t index, bandwidth_bits, last_pair_bits;
    uint8_t two_filters_from; /* the bandwidth from which on there are two TNS filters */
    uint8_t most_order;       /* the highest TNS order */
} settings;
extern const settings reference_settings[SETTINGS];

/* NULL where the rate or the duration is out of range. */
const settings *reference_settings_of(uint32_t khz, uint32_t quarters);

size_t reference_line_count(uint32_t khz, uint32_t quarters);
silberlaus_frame reference_read_frame(uint32_t khz, uint32_t quarters, const uint8_t *frame, size_t frame_len,
                                      int32_t *spectrum, size_t spectrum_len, uint8_t *residual, size_t residual_len);

#endif
