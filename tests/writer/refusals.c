/* Refusals (see refusals.h). */
#include "refusals.h"

#include <string.h>

#include "../common/cases.h"
#include "tries.h"

/* ---- fields, and the bounds that each has beside the others */
enum { BANDWIDTH, LAST_LINE, LSB_MODE, GAIN, FLAG_0, FLAG_1, PITCH, LOW, HIGH, MODE, SHAPE_GAIN, SIGN, JOINT, FILTER, INDEX,
       NOISE, ORDER_0, ORDER_1, ONES, COEFFICIENTS_0 = ONES, COEFFICIENTS_1 = COEFFICIENTS_0 + 8, FIELDS = COEFFICIENTS_1 + 8 };

#define FIELD(name) {offsetof(silberlaus_frame, name), sizeof((silberlaus_frame *)0)->name}
static const struct { size_t at, width; } places[ONES] = {
    [BANDWIDTH] = FIELD(bandwidth), [LAST_LINE] = FIELD(last_line), [LSB_MODE] = FIELD(lsb_mode), [GAIN] = FIELD(gain),
    [FLAG_0] = FIELD(tns_flag_0), [FLAG_1] = FIELD(tns_flag_1), [PITCH] = FIELD(pitch_present), [LOW] = FIELD(shape_low),
    [HIGH] = FIELD(shape_high), [MODE] = FIELD(shape_mode), [SHAPE_GAIN] = FIELD(shape_gain), [SIGN] = FIELD(shape_sign),
    [JOINT] = FIELD(shape_joint), [FILTER] = FIELD(filter_flag), [INDEX] = FIELD(pitch_index), [NOISE] = FIELD(noise_level),
    [ORDER_0] = FIELD(tns_order_0), [ORDER_1] = FIELD(tns_order_1),
};

static size_t width_of(unsigned field)
{
    return field < ONES ? places[field].width : 1;
}

static uint8_t *place_of(silberlaus_frame *f, unsigned field)
{
    if (field < ONES)
        return (uint8_t *)f + places[field].at;
    return (field < COEFFICIENTS_1 ? f->tns_coefficients_0 : f->tns_coefficients_1) + (field - COEFFICIENTS_0) % 8;
}

/* Numbers stand with the low byte first, as everywhere on x86-64. */
static void put(silberlaus_frame *f, unsigned field, uint32_t value)
{
    memcpy(place_of(f, field), &value, width_of(field));
}

static uint32_t value_of(const silberlaus_frame *given, unsigned field)
{
    silberlaus_frame f = *given;
    uint32_t value = 0;
    memcpy(&value, place_of(&f, field), width_of(field));
    return value;
}

typedef struct { uint32_t least, most; } bounds;

/* A coefficient below the order, and from it on. */
static bounds bounds_of_coefficient(const silberlaus_frame *f, unsigned field)
{
    unsigned k = (field - COEFFICIENTS_0) % 8, order = field < COEFFICIENTS_1 ? f->tns_order_0 : f->tns_order_1;
    return (bounds){0, k < order ? 16 : 0};
}

static bounds bounds_of(const settings *set, const silberlaus_frame *f, unsigned field)
{
    int two_filters = set->quarters > 10 && f->bandwidth >= 3;
    const bounds all[ONES] = {
        [BANDWIDTH] = {0, set->index}, [LAST_LINE] = {2, set->lines}, [LSB_MODE] = {0, 0}, [GAIN] = {0, 255},
        [FLAG_0] = {0, 1}, [FLAG_1] = {0, two_filters ? 1 : 0}, [PITCH] = {0, 1}, [LOW] = {0, 31}, [HIGH] = {0, 31},
        [MODE] = {0, 1}, [SHAPE_GAIN] = {0, f->shape_mode ? 3 : 1}, [SIGN] = {0, 1},
        [JOINT] = {0, f->shape_mode ? 16708095 : 33460055}, [FILTER] = {0, f->pitch_present ? 1 : 0},
        [INDEX] = {0, f->pitch_present ? 511 : 0}, [NOISE] = {0, 7},
        [ORDER_0] = {f->tns_flag_0 ? 1 : 0, !f->tns_flag_0 ? 0 : set->quarters <= 20 ? 4 : 8},
        [ORDER_1] = {f->tns_flag_1 ? 1 : 0, !f->tns_flag_1 ? 0 : set->quarters <= 20 ? 4 : 8},
    };
    return field < ONES ? all[field] : bounds_of_coefficient(f, field);
}

static int fields_in_range(const settings *set, const silberlaus_frame *f)
{
    for (unsigned field = 0; field < FIELDS; field++) {
        bounds b = bounds_of(set, f, field);
        uint32_t value = value_of(f, field);
        if (value < b.least || value > b.most || (field == LAST_LINE && value % 2 != 0))
            return 0;
    }
    return 1;
}

static int lines_in_range(const asked *a)
{
    unsigned not_0 = 0;
    for (unsigned k = 0; k < a->spectrum_length; k++) {
        int64_t most = k < a->fields.last_line ? 32767 : 0, line = a->spectrum[k];
        if (line > most || -line > most)
            return 0;
        not_0 += line != 0;
    }
    for (unsigned k = 0; k < a->residual_length; k++)
        if (a->residual[k] > (k < not_0))
            return 0;
    return a->fields.residual_bits == not_0;
}

/* Settings and lengths are right. */
static void judge_bounds(const settings *set, const asked *a)
{
    if (fields_in_range(set, &a->fields) && lines_in_range(a))
        judge_in_range(set, a);
    else
        judge_refused(a, 1);
}

/* What is accepted, before something is changed; at least two lines are not sent. */
static asked right_one(const settings *set)
{
    answer given;
    tries_fields(set, &given);
    if (given.fields.last_line == set->lines)
        given.fields.last_line = (uint16_t)(set->lines - 2);
    memset(given.spectrum + given.fields.last_line, 0, sizeof given.spectrum - given.fields.last_line * sizeof given.spectrum[0]);
    tries_complete(&given);
    return ask_right(set, &given, MOST_BYTES);
}

/* ---- settings and lengths */
static const uint32_t rates_tried[] = {0, 7, 8, 9, 16, 24, 32, 44, 48, 49, 255, 256 + 8, 65536 + 48, 0x80000010u, 4294967295u};
/* 5 is 1.25 ms */
static const uint32_t durations_tried[] = {0, 1, 5, 9, 10, 11, 15, 20, 25, 30, 35, 40, 41, 45, 50, 80, 255, 256 + 10, 256 + 40,
                                           65536 + 20, 0x8000001eu, 4294967295u};
static const size_t lengths_tried[] = {0, 1, 19, 20, 60, 400, 401, 512 + 20, 65536 + 20, 65536 + 400};

/* Lengths of a lent buffer: right, one short, one long, none, none and nowhere, half, double, and right in 8 and in 16 bits. */
enum { LENGTHS = 9, NOWHERE = 4 };

static void lend_lengths(asked *a, size_t right, unsigned spectrum, unsigned residual)
{
    const size_t lengths[LENGTHS] = {right, right - 1, right + 1, 0, 0, right / 2, 2 * right, right + 256, right + 65536};
    a->spectrum_length = lengths[spectrum];
    a->spectrum_nowhere = spectrum == NOWHERE;
    a->residual_length = lengths[residual];
    a->residual_nowhere = residual == NOWHERE;
}

/* Out of range there is no right length of a buffer: that of some setting stands in. */
static void settings_tried(uint32_t khz, uint32_t quarters, size_t length)
{
    const settings *set = reference_settings_of(khz, quarters);
    int in_range = set != NULL && length >= LEAST_BYTES && length <= MOST_BYTES;
    const settings *some = set != NULL ? set : &reference_settings[below(SETTINGS)];
    asked a = right_one(some);
    a.khz = khz;
    a.quarters = quarters;
    a.length = length;
    a.frame_nowhere = length == 0 && below(2);
    if (in_range)
        judge_in_range(set, &a);
    else
        judge_refused(&a, 1);
    lend_lengths(&a, some->lines, 1 + below(LENGTHS - 1), below(LENGTHS));
    judge_refused(&a, in_range ? 2 : 1);
}

void refusals_of_settings(void)
{
    for (size_t q = 0; q < COUNT(durations_tried); q++)
        for (size_t i = 0; i < COUNT(rates_tried); i++)
            for (size_t n = 0; n < COUNT(lengths_tried); n++)
                settings_tried(rates_tried[i], durations_tried[q], lengths_tried[n]);
    group_ends("refusals 1 and 2: rates, durations and lengths, all combined");
}

static void lengths_at(const settings *set)
{
    for (unsigned which = 1; which < LENGTHS * LENGTHS; which++) {
        asked a = right_one(set);
        lend_lengths(&a, set->lines, which / LENGTHS, which % LENGTHS);
        judge_refused(&a, 2);
    }
    for (const settings *other = reference_settings; other < reference_settings + SETTINGS; other++) {
        asked a = right_one(set);
        a.spectrum_length = other->lines;
        a.residual_length = below(2) ? other->lines : set->lines;
        if (set->lines != other->lines)
            judge_refused(&a, 2);
    }
}

void refusals_of_lengths(void)
{
    for (const settings *set = reference_settings; set < reference_settings + SETTINGS; set++)
        lengths_at(set);
    group_ends("refusal 2: each buffer of a wrong length, and of another setting's");
}

/* ---- fields about their bounds */

/* The n-th value to try of a field of more than a byte: about both bounds, about each power of two, and any. */
static uint32_t value_tried(bounds b, unsigned n)
{
    if (n < 16)
        return (n < 8 ? b.least : b.most) + n % 8 - 4;
    if (n < 16 + 3 * 32)
        return (1u << (n - 16) / 3) + (n - 16) % 3 - 1;
    return n % 2 ? next() : below(b.most + 4);
}

static void field_tried(const settings *set, unsigned field)
{
    for (unsigned n = 0; n < 256; n++) {
        asked a = right_one(set);
        put(&a.fields, field, width_of(field) == 1 ? n : value_tried(bounds_of(set, &a.fields, field), n));
        judge_bounds(set, &a);
    }
}

void refusals_of_fields(void)
{
    for (const settings *set = reference_settings; set < reference_settings + SETTINGS; set++)
        for (unsigned field = 0; field < FIELDS; field++)
            field_tried(set, field);
    group_ends("refusal 1: each field about its bounds, those of a byte at every value");
}

/* ---- lines and residual bits about their bounds */

/* With as many residual bits as it then has lines that are not 0, or as it had. */
static void line_tried(const settings *set, unsigned k, int32_t line)
{
    asked a = right_one(set);
    int before = a.spectrum[k] != 0;
    a.spectrum[k] = line;
    if (below(4) != 0)
        a.fields.residual_bits = (uint16_t)(a.fields.residual_bits - before + (line != 0));
    a.residual[a.fields.residual_bits] = 0;
    judge_bounds(set, &a);
}

static void lines_tried(const settings *set)
{
    static const int32_t lines[] = {0, 1, -1, 32766, -32766, 32767, -32767, 32768, -32768, 32769, -32769, 65535, 65536, -65536,
                                    65537, 0x40000000, INT32_MAX, -INT32_MAX, INT32_MIN};
    for (size_t n = 0; n < COUNT(lines); n++)
        for (unsigned k = 0; k < set->lines; k += 1 + below(8))
            line_tried(set, k, lines[n]);
}

/* Before the last residual bit and after it. */
static void residual_tried(const settings *set)
{
    static const uint8_t entries[] = {0, 1, 2, 3, 4, 8, 128, 129, 255};
    for (size_t n = 0; n < COUNT(entries) * 16; n++) {
        asked a = right_one(set);
        unsigned count = a.fields.residual_bits, k = n % 2 ? count : count > 0 ? count - 1 : 0;
        a.residual[n % 4 < 2 ? k : below(set->lines)] = entries[n / 16];
        judge_bounds(set, &a);
    }
}

static void number_tried(const settings *set)
{
    static const uint16_t others[] = {1, 2, 255, 256, 512, 32768, 65535, 65534, 65280};
    for (size_t n = 0; n < COUNT(others) * 8; n++) {
        asked a = right_one(set);
        a.fields.residual_bits = (uint16_t)(a.fields.residual_bits + others[n / 8]);
        judge_bounds(set, &a);
    }
}

void refusals_of_lines(void)
{
    for (const settings *set = reference_settings; set < reference_settings + SETTINGS; set++) {
        lines_tried(set);
        residual_tried(set);
        number_tried(set);
    }
    group_ends("the second refusal 1: lines, residual bits and their number about their bounds");
}

/* ---- two at once */

/* A field above its bounds, or below. */
static void wrong_field(const settings *set, asked *a, unsigned field)
{
    bounds b = bounds_of(set, &a->fields, field);
    uint32_t above = field == GAIN ? b.most : b.most + 1 + below(field == LAST_LINE ? 8 : 2);
    put(&a->fields, field, b.least > 0 && below(2) ? b.least - 1 : above);
    /* every gain is in range: LSB mode 1 stands in */
    a->fields.lsb_mode = field == GAIN ? 1 : a->fields.lsb_mode;
}

static void wrong_setting(const settings *set, asked *a, unsigned which)
{
    a->khz = which == 0 ? 256 + set->khz : a->khz;
    a->quarters = which == 1 ? set->quarters + 1 : a->quarters;
    a->length = which == 2 ? LEAST_BYTES - 1 : which == 3 ? MOST_BYTES + 1 : a->length;
}

static void wrong_length(const settings *set, asked *a, unsigned which)
{
    lend_lengths(a, set->lines, which < LENGTHS ? which : 0, which < LENGTHS ? 0 : which - LENGTHS + 1);
}

static void wrong_line(const settings *set, asked *a, unsigned which)
{
    uint8_t *behind = &a->residual[a->fields.residual_bits];
    if (which == 0)
        a->spectrum[below(a->fields.last_line)] = 32768;
    else if (which == 1)
        a->spectrum[below(a->fields.last_line)] = -32768;
    else if (which == 2)
        a->spectrum[a->fields.last_line + below(2)] = 1;
    else if (which == 3)
        a->fields.residual_bits++;
    else if (which == 4)
        a->residual[below(a->fields.residual_bits + 1u)] = 2;
    else
        *(below(2) ? behind : &a->residual[set->lines - 1]) = 1;
}

/* More than 20 bytes, whatever the setting: 14 bits of each line are not in the arithmetic code. */
static void no_room(const settings *set, asked *a, unsigned which)
{
    answer given = {.fields = a->fields};
    given.fields.last_line = (uint16_t)(set->lines - 2);
    for (unsigned k = 0; k < given.fields.last_line; k++)
        given.spectrum[k] = which % 2 ? -32767 : 32767;
    tries_complete(&given);
    *a = ask_right(set, &given, LEAST_BYTES);
}

/* In the order of the refusals. */
static const struct {
    uint8_t number;
    void (*put)(const settings *set, asked *a, unsigned which);
    unsigned ways;
} wrongs[] = {
    {1, wrong_setting, 4}, {1, wrong_field, FIELDS}, {2, wrong_length, 2 * LENGTHS - 2}, {1, wrong_line, 6}, {8, no_room, 2},
};

/* The later refusal is put first, as it changes what the earlier one looks at. */
static void two_at_once(const settings *set, unsigned first, unsigned second)
{
    for (unsigned way = 0; way < wrongs[first].ways; way++)
        for (unsigned other = 0; other < wrongs[second].ways; other++) {
            asked a = right_one(set);
            wrongs[second].put(set, &a, other + (second == 2));
            if (first != second)
                wrongs[first].put(set, &a, way + (first == 2));
            judge_refused(&a, wrongs[first].number);
        }
}

void refusals_in_order(void)
{
    for (const settings *set = reference_settings; set < reference_settings + SETTINGS; set++)
        for (unsigned k = 0; k < COUNT(wrongs) * COUNT(wrongs); k++)
            if (k % COUNT(wrongs) >= k / COUNT(wrongs))
                two_at_once(set, k / COUNT(wrongs), k % COUNT(wrongs));
    group_ends("any two refusals at once: 1 for fields, 2, 1 for lines, 8");
}
