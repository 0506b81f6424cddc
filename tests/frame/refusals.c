/* Refusals 1 and 2 (see refusals.h). */
#include "refusals.h"

#include "../common/cases.h"
#include "list.h"

const uint32_t refusals_khz[KHZ_TRIED] = {0, 7, 8, 9, 16, 24, 32, 44, 48, 49, 255, 256 + 8, 65536 + 48, 0x80000010u,
                                          4294967295u};
/* 5 is 1.25 ms */
const uint32_t refusals_quarters[QUARTERS_TRIED] = {0, 1, 5, 9, 10, 11, 15, 20, 25, 30, 35, 40, 41, 45, 50, 80, 255, 256 + 10,
                                                    256 + 40, 65536 + 20, 0x8000001eu, 4294967295u};
static const size_t lengths_tried[] = {0, 1, 19, 20, 60, 400, 401, 256 + 20, 512 + 400};

/* Lengths of a lent buffer: right, one short, one long, none, none and nowhere, one that is right in 8 bits, and half. */
enum { LENGTHS = 7, NOWHERE = 4 };

static size_t lent_length(size_t right, unsigned which)
{
    const size_t lengths[LENGTHS] = {right, right - 1, right + 1, 0, 0, right + 256, right / 2};
    return lengths[which];
}

/* A frame that is accepted at that setting where one of that length is listed, else random bytes. */
static const uint8_t *frame_to_refuse(uint32_t khz, uint32_t quarters, size_t length, uint8_t *bytes)
{
    for (size_t i = 0; i < list_length; i++)
        if (list[i].khz == khz && list[i].quarters == quarters && list[i].length == length && list[i].want.fields.number == 0)
            return list[i].frame;
    random_bytes(bytes, length);
    return bytes;
}

/* 1 where a setting is out of range, whatever the buffers are; else 2 where one of them has not NE entries; else what
   the reference answers. */
static void refusals_at(uint32_t khz, uint32_t quarters, size_t length)
{
    uint8_t bytes[ROOM];
    const uint8_t *frame = frame_to_refuse(khz, quarters, length, bytes);
    size_t lines = reference_line_count(khz, quarters);
    for (unsigned which = 0; which < LENGTHS * LENGTHS; which++) {
        unsigned s = which / LENGTHS, e = which % LENGTHS;
        /* out of range there is no right length: a plausible one stands in */
        request r = {.khz = khz, .quarters = quarters, .frame = frame, .length = length, .frame_nowhere = length == 0 && s % 2,
                     .spectrum_length = lent_length(lines > 0 ? lines : 80, s), .spectrum_nowhere = s == NOWHERE,
                     .residual_length = lent_length(lines > 0 ? lines : 80, e), .residual_nowhere = e == NOWHERE};
        answer want = {.fields = {.number = lines == 0 || length < LEAST_BYTES || length > MOST_BYTES ? 1 : 2}};
        if (want.fields.number == 2 && s == 0 && e == 0)
            lend_reference(&r, &want);
        judge_answer(&r, &want);
    }
}

void refusals_tried(void)
{
    for (size_t q = 0; q < QUARTERS_TRIED; q++)
        for (size_t i = 0; i < KHZ_TRIED; i++)
            for (size_t n = 0; n < COUNT(lengths_tried); n++)
                refusals_at(refusals_khz[i], refusals_quarters[q], lengths_tried[n]);
    group_ends("refusals 1 and 2, alone and at once: settings, lengths and buffers, all combined");
}

void refusals_listed(void)
{
    for (size_t i = 0; i < list_length; i++)
        refusals_at(list[i].khz, list[i].quarters, list[i].length);
    group_ends("refusals 1 and 2: each buffer of a wrong length, settings and lengths of the lists");
}

void refusals_of_lengths(void)
{
    uint8_t bytes[ROOM];
    for (size_t length = 0; length <= ROOM; length++)
        for (const settings *set = reference_settings; set < reference_settings + SETTINGS; set++) {
            random_bytes(bytes, length);
            request r = lend_right(set->khz, set->quarters, bytes, length);
            answer want;
            lend_reference(&r, &want);
            judge_answer(&r, &want);
        }
    group_ends("every length from 0 to 1,024 bytes at every setting: 1 outside 20 to 400");
}

/* One buffer of them or both: 2, where the number of lines is another. */
void refusals_of_other_settings(void)
{
    uint8_t frame[60];
    for (unsigned k = 0; k < 3 * SETTINGS * SETTINGS; k++) {
        const settings *set = &reference_settings[k / 3 / SETTINGS], *other = &reference_settings[k / 3 % SETTINGS];
        random_bytes(frame, sizeof frame);
        request r = lend_right(set->khz, set->quarters, frame, sizeof frame);
        r.spectrum_length = k % 3 == 1 ? r.spectrum_length : other->lines;
        r.residual_length = k % 3 == 2 ? r.residual_length : other->lines;
        answer want = {.fields = {.number = 2}};
        if (set->lines == other->lines)
            lend_reference(&r, &want);
        judge_answer(&r, &want);
    }
    group_ends("refusal 2: buffers as long as those of another setting");
}
