/* Frames to ask for (see tries.h). */
#include "tries.h"

#include <string.h>

#include "../common/cases.h"
#include "../frame/plans.h"
#include "steer.h"

void tries_complete(answer *given)
{
    silberlaus_frame *f = &given->fields;
    uint16_t count = 0;
    memset(given->residual, 0, sizeof given->residual);
    for (unsigned k = 0; k < f->last_line; k++)
        if (given->spectrum[k] != 0)
            given->residual[count++] = (uint8_t)below(2);
    f->residual_bits = count;
    f->number = (uint8_t)next();
    f->cause = (uint8_t)next();
    f->symbols = (uint16_t)next();
}

/* ---- lengths */

static void ask_for(const settings *set, const answer *given, size_t length)
{
    asked a = ask_right(set, given, length);
    if (length >= LEAST_BYTES && length <= MOST_BYTES)
        judge_in_range(set, &a);
}

/* That length, and those about the one that just holds it: there all residual bits fit, some, none, or not even the rest. The
   bits that it takes are known from the first. */
static void ask_for_lengths(const settings *set, const answer *given, size_t length)
{
    ask_for(set, given, length);
    size_t tight = (size_t)(8 * (int32_t)length - reference_trail()->left + 7) / 8;
    ask_for(set, given, tight - 1);
    ask_for(set, given, tight);
    ask_for(set, given, tight + 1);
}

static size_t any_length(void)
{
    return LEAST_BYTES + below(below(2) ? MOST_BYTES - LEAST_BYTES + 1 : 60);
}

/* ---- fields and lines */

void tries_fields(const settings *set, answer *given)
{
    static plan p;
    plan_frame(set, &p);
    *given = p.sent;
    given->fields.lsb_mode = 0;
    tries_complete(given);
}

void tries_random(unsigned turns)
{
    answer given;
    for (const settings *set = reference_settings; set < reference_settings + SETTINGS; set++)
        for (unsigned turn = 0; turn < turns; turn++) {
            tries_fields(set, &given);
            ask_for_lengths(set, &given, any_length());
        }
    group_ends("every setting: random fields and lines; any length, and tight ones");
}

/* As many pairs as may fit. */
static void steered(const settings *set, size_t length, answer *given)
{
    uint32_t pairs = set->lines / 2u, most = (uint32_t)length / 2 < pairs ? (uint32_t)length / 2 : pairs;
    tries_fields(set, given);
    given->fields.last_line = (uint16_t)(2 + 2 * below(most));
    memset(given->spectrum, 0, sizeof given->spectrum);
    steer_symbols(set, length, given);
    tries_complete(given);
}

void tries_steered(unsigned turns)
{
    answer given;
    for (const settings *set = reference_settings; set < reference_settings + SETTINGS; set++)
        for (unsigned turn = 0; turn < turns; turn++) {
            size_t length = any_length();
            steered(set, length, &given);
            ask_for_lengths(set, &given, length);
        }
    group_ends("every setting: code that runs along round numbers; any length, and tight ones");
}

/* ---- the most and the least */

static void extremes_at(const settings *set, int32_t magnitude, unsigned from)
{
    answer given;
    tries_fields(set, &given);
    given.fields.last_line = set->lines;
    memset(given.spectrum, 0, sizeof given.spectrum);
    for (unsigned k = from; k < set->lines; k++)
        given.spectrum[k] = below(2) ? magnitude : -magnitude;
    tries_complete(&given);
    ask_for_lengths(set, &given, MOST_BYTES);
    ask_for(set, &given, LEAST_BYTES);
}

void tries_extremes(void)
{
    static const int32_t magnitudes[] = {0, 1, 3, 4, 7, 8, 16383, 16384, 32767};
    for (const settings *set = reference_settings; set < reference_settings + SETTINGS; set++)
        for (size_t k = 0; k < COUNT(magnitudes); k++) {
            extremes_at(set, magnitudes[k], 0);
            extremes_at(set, magnitudes[k], set->lines - 1u);
            extremes_at(set, magnitudes[k], set->lines - 2u);
        }
    group_ends("every setting: all lines alike up to 32,767, or none but the last");
}
