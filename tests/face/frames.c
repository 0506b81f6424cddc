/* The frames' calls: line count; read_frame, which refuses with 1, 2, then 5; read_entry, which refuses with the 1 of form, rate
   and duration, 2, 7, the place's 1, then 5. What is read in the samples is compared field by field; tests/frame has the rest. */
#include <string.h>

#include "check.h"

static buffer in, out_spectrum, out_residual;
static uint8_t paint[ROOM];

/* Durations that are none, 1.25 ms among them; some are in range once they are narrowed. */
static const uint32_t no_durations[] = {0, 5, 9, 11, 25, 41, 50, 256 + 10, 256 + 40, 65536 + 20, 0x80000028u, 4294967295u};

static void line_counts(void)
{
    static const uint32_t rates[] = {8, 16, 24, 32, 48}, durations[] = {10, 20, 30, 40};
    static const uint32_t no_rates[] = {0, 7, 9, 12, 44, 49, 96, 256 + 8, 65536 + 48, 4294967295u};
    for (size_t k = 0; k < COUNT(rates) * COUNT(durations); k++) {
        size_t i = k % COUNT(rates), q = k / COUNT(rates);
        EXPECT(silberlaus_line_count(rates[i], durations[q]) == 20 * (q + 1) * (i + 1));
    }
    for (size_t k = 0; k < COUNT(no_rates) * COUNT(durations); k++)
        EXPECT(silberlaus_line_count(no_rates[k / COUNT(durations)], durations[k % COUNT(durations)]) == 0);
    for (size_t k = 0; k < COUNT(no_durations) * COUNT(rates); k++)
        EXPECT(silberlaus_line_count(rates[k % COUNT(rates)], no_durations[k / COUNT(rates)]) == 0);
    EXPECT(silberlaus_line_count(4294967295u, 4294967295u) == 0);
    EXPECT(silberlaus_line_count(48, 40) == SILBERLAUS_LINES_MAX);
}

/* What is asked of a reader beside the frame: rate and duration, and the lengths of the two buffers. */
typedef struct { uint32_t khz, quarters; size_t lines, bits; } asked;

static const asked ten_ms = {48, 40, 400, 400};

static asked asked_of(const sample *s)
{
    size_t lines = silberlaus_line_count(s->khz, s->quarters);
    return (asked){s->khz, s->quarters, lines, lines};
}

/* Both buffers, `lines` and `bits` entries long and full of paint; the spectrum's bytes stand at a multiple of 4. */
static int32_t *lend_spectrum(size_t lines) { return (int32_t *)(void *)lend(&out_spectrum, paint, lines * sizeof(int32_t)); }
static uint8_t *lend_residual(size_t bits) { return lend(&out_residual, paint, bits); }

static void fields_are(const silberlaus_frame *got, const silberlaus_frame *want)
{
    for (size_t k = 0; k < FRAME_FIELDS; k++) {
        size_t at = frame_fields[k].at;
        EXPECT(memcmp((const uint8_t *)got + at, (const uint8_t *)want + at, frame_fields[k].width) == 0);
    }
}

/* Accepted, every entry is written, and those past the last line and past the residual bits are 0. */
static void buffers_are_read(const silberlaus_frame *f, const int32_t *spectrum, const uint8_t *residual, size_t lines)
{
    for (size_t k = 0; k < lines; k++) {
        EXPECT(k < f->last_line ? -32767 <= spectrum[k] && spectrum[k] <= 32767 : spectrum[k] == 0);
        EXPECT(k < f->residual_bits ? residual[k] <= 1 : residual[k] == 0);
    }
}

/* The answer wanted, and the buffers: read, or as they were lent. */
static void answers(silberlaus_frame got, const silberlaus_frame *want, const int32_t *spectrum, const uint8_t *residual,
                    size_t lines)
{
    fields_are(&got, want);
    EXPECT(untouched(&in));
    EXPECT(guards_hold(&out_spectrum));
    EXPECT(guards_hold(&out_residual));
    if (want->number == SILBERLAUS_ACCEPTED) {
        buffers_are_read(&got, spectrum, residual, lines);
        return;
    }
    EXPECT(untouched(&out_spectrum));
    EXPECT(untouched(&out_residual));
}

static const silberlaus_frame setting = {.number = SILBERLAUS_BAD_SETTING}, length = {.number = SILBERLAUS_BAD_LENGTH},
                              no_record = {.number = SILBERLAUS_NOT_A_RECORD};

static void read_answers(asked a, const uint8_t *bytes, size_t count, const silberlaus_frame *want)
{
    const uint8_t *from = lend(&in, bytes, count);
    int32_t *spectrum = lend_spectrum(a.lines);
    uint8_t *residual = lend_residual(a.bits);
    silberlaus_frame got = silberlaus_read_frame(a.khz, a.quarters, from, count, spectrum, a.lines, residual, a.bits);
    answers(got, want, spectrum, residual, a.lines);
}

static void read_samples(void)
{
    uint8_t bytes[SILBERLAUS_FRAME_MAX];
    for (size_t k = 0; k < SAMPLES; k++)
        read_answers(asked_of(&samples[k]), bytes, sample_bytes(&samples[k], bytes), &samples[k].fields);
}

/* What is asked, the length of the frame, and the number wanted; the frame has cause 1. */
typedef struct { asked a; size_t length; uint8_t number; } reading;

static const reading readings[] = {
    {{44, 40, 400, 400}, 20, SILBERLAUS_BAD_SETTING},
    {{256 + 48, 40, 400, 400}, 20, SILBERLAUS_BAD_SETTING},
    {{48, 40, 400, 400}, 19, SILBERLAUS_BAD_SETTING},
    {{48, 40, 400, 400}, 401, SILBERLAUS_BAD_SETTING},
    {{48, 40, 400, 400}, 0, SILBERLAUS_BAD_SETTING},
    {{48, 10, 100, 100}, 19, SILBERLAUS_BAD_SETTING},
    /* 1 before 2 */
    {{44, 40, 399, 399}, 20, SILBERLAUS_BAD_SETTING},
    {{48, 40, 0, 0}, 19, SILBERLAUS_BAD_SETTING},
    {{48, 40, 399, 400}, 20, SILBERLAUS_BAD_LENGTH},
    {{48, 40, 401, 400}, 20, SILBERLAUS_BAD_LENGTH},
    {{48, 40, 400, 399}, 20, SILBERLAUS_BAD_LENGTH},
    {{48, 40, 400, 401}, 20, SILBERLAUS_BAD_LENGTH},
    {{48, 40, 80, 80}, 20, SILBERLAUS_BAD_LENGTH},
    {{48, 40, 0, 0}, 20, SILBERLAUS_BAD_LENGTH},
    /* buffers of 10 ms at the other durations */
    {{48, 10, 400, 400}, 20, SILBERLAUS_BAD_LENGTH},
    {{48, 20, 400, 200}, 20, SILBERLAUS_BAD_LENGTH},
    {{48, 30, 300, 400}, 20, SILBERLAUS_BAD_LENGTH},
};

static void read_refuses(void)
{
    static uint8_t bytes[ROOM];
    sample_bytes(&samples[FIRST_REFUSED], bytes);
    for (size_t k = 0; k < COUNT(readings); k++)
        read_answers(readings[k].a, bytes, readings[k].length, &(silberlaus_frame){.number = readings[k].number});
    for (size_t k = 0; k < COUNT(no_durations); k++) {
        read_answers((asked){48, no_durations[k], 400, 400}, bytes, 20, &setting);
        read_answers((asked){48, no_durations[k], 0, 0}, bytes, 20, &setting);
    }
}

/* A record of all samples, each at its place: in form 2, and moved to form 1. */
static uint8_t records[3][ROOM];
static size_t lengths[3];

static void record_of_samples(void)
{
    uint8_t bytes[SILBERLAUS_FRAME_MAX];
    uint32_t used = SILBERLAUS_RECORD_MIN_2;
    EXPECT(silberlaus_record_new(2, records[2], ROOM) == SILBERLAUS_ACCEPTED);
    for (uint32_t k = 0; k < SAMPLES; k++) {
        size_t length = sample_bytes(&samples[k], bytes);
        used = silberlaus_record_add(records[2], ROOM, used, bytes, length, k % 4, k, 2 * k, (uint32_t)length).used;
        EXPECT(used > 0);
    }
    lengths[2] = used;
    lengths[1] = silberlaus_record_to_form_1(records[2], used, records[1], ROOM).used;
    EXPECT(lengths[1] == lengths[2] - 2 * SAMPLES - 1);
}

/* The record in this form, its first `used` bytes, is read as one of the form told. */
static void told_answers(uint32_t told, uint32_t form, size_t used, size_t place, asked a, const silberlaus_frame *want)
{
    const uint8_t *from = lend(&in, records[form], used);
    int32_t *spectrum = lend_spectrum(a.lines);
    uint8_t *residual = lend_residual(a.bits);
    silberlaus_frame got =
        silberlaus_read_entry(told, from, used, place, a.khz, a.quarters, spectrum, a.lines, residual, a.bits);
    answers(got, want, spectrum, residual, a.lines);
}

static void entry_answers(uint32_t form, size_t used, size_t place, asked a, const silberlaus_frame *want)
{
    told_answers(form, form, used, place, a, want);
}

/* An entry reads as its frame does; 1, 2, 7, 1 and 5, each although what would be refused later is wrong too. */
static void read_entries(uint32_t form)
{
    size_t used = lengths[form];
    for (size_t k = 0; k < SAMPLES; k++) {
        asked right = asked_of(&samples[k]), wrong = right;
        wrong.khz++;
        entry_answers(form, used, k, right, &samples[k].fields);
        entry_answers(form, used, k, wrong, &setting);
    }
    for (size_t k = 0; k < COUNT(no_durations); k++) {
        entry_answers(form, used, 0, (asked){48, no_durations[k], 400, 400}, &setting);
        entry_answers(form, used - 1, SAMPLES, (asked){48, no_durations[k], 1, 1}, &setting);
    }
    entry_answers(form, used, 0, (asked){48, 40, 400, 399}, &length);
    entry_answers(form, used, 0, (asked){48, 40, 399, 400}, &length);
    entry_answers(form, used, 0, (asked){48, 40, 0, 0}, &length);
    entry_answers(form, used, 0, (asked){48, 20, 400, 400}, &length);
    entry_answers(form, used - 1, SAMPLES, (asked){44, 40, 1, 1}, &setting);
    entry_answers(form, used - 1, SAMPLES, (asked){48, 40, 400, 1}, &length);
    entry_answers(form, used - 1, SAMPLES, ten_ms, &no_record);
    entry_answers(form, 0, 0, ten_ms, &no_record);
    entry_answers(form, SILBERLAUS_RECORD_MAX + 1, 0, ten_ms, &no_record);
    entry_answers(form, used, SAMPLES, ten_ms, &setting);
    entry_answers(form, used, SIZE_MAX, ten_ms, &setting);
    told_answers(3 - form, form, used, 0, ten_ms, &no_record);
}

/* Any other form is 1, whatever else is wrong. */
static void read_no_form(uint32_t told)
{
    for (uint32_t form = 1; form <= 2; form++) {
        told_answers(told, form, lengths[form], 0, ten_ms, &setting);
        told_answers(told, form, lengths[form], 0, (asked){48, 40, 399, 400}, &setting);
        told_answers(told, form, lengths[form] - 1, SAMPLES, ten_ms, &setting);
        told_answers(told, form, 0, 0, (asked){44, 5, 0, 0}, &setting);
    }
}

void frame_calls(void)
{
    memset(paint, 0x7d, ROOM);
    line_counts();
    read_samples();
    read_refuses();
    record_of_samples();
    read_entries(1);
    read_entries(2);
    for (size_t k = 0; k < COUNT(no_forms); k++)
        read_no_form(no_forms[k]);
}
