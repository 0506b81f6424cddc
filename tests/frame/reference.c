/* What is right (see reference.h). The functions stand in the clause's order of reading. A step answers 0 or the cause of
   a bit error; a symbol or a side bit answers its value, or minus the cause. Reading goes into a spectrum of its own, and
   the lent buffers are written after the last check. */
#include "reference.h"

#include <string.h>

#include "tables.h"

enum { MOST_LEVEL = 14, ESCAPE = 16 };
enum cause { BANDWIDTH = 1, LAST_LINE, JOINT_INDEX, ARITHMETIC_VALUE, ESCAPES, OUTSIDE, NONE_LEFT, TNS_ORDER };

/* ---- settings
   Of the rate index i: the bandwidth bits (Table 5.21) and the bits above which the rate offset is 512 (5.3.11.5). Of i and
   the duration q: NE (formula 7 of 5.3.4.3, at most 40 lines a millisecond) and the last-pair bits w (Table 5.19). Of q: the
   bandwidth from which on there are two TNS filters (Table 5.24), the highest TNS order (5.4.2.7), and the bits below which
   the weighting row is 1 (formula 69 of 5.3.9.2, whose 480 is the 12 q of 10 ms). */
#define SETTING(i, khz, bandwidth_bits, q, w, two_from, order) \
    {khz, q, 2 * q * (i + 1), 12 * q, 160 + 160 * i, i, bandwidth_bits, w, two_from, order}
#define DURATION(q, w0, w1, w2, w3, w4, two_from, order) \
    SETTING(0, 8, 0, q, w0, two_from, order), SETTING(1, 16, 1, q, w1, two_from, order), \
    SETTING(2, 24, 2, q, w2, two_from, order), SETTING(3, 32, 2, q, w3, two_from, order), \
    SETTING(4, 48, 3, q, w4, two_from, order)

/* above every bandwidth */
enum { NEVER = 5 };

/* q; w at the five rates; two filters from; highest order */
const settings reference_settings[SETTINGS] = {
    DURATION(10, 4, 5, 5, 6, 6, NEVER, 4),
    DURATION(20, 5, 6, 6, 7, 7, 3, 4),
    DURATION(30, 5, 6, 7, 7, 8, 3, 8),
    DURATION(40, 6, 7, 7, 8, 8, 3, 8),
};

const settings *reference_settings_of(uint32_t khz, uint32_t quarters)
{
    if (quarters < 10 || quarters > TEN_MS || quarters % 10 != 0)
        return NULL;
    const settings *set = &reference_settings[(quarters / 10 - 1) * RATES];
    for (unsigned i = 0; i < RATES; i++)
        if (set[i].khz == khz)
            return &set[i];
    return NULL;
}

size_t reference_line_count(uint32_t khz, uint32_t quarters)
{
    const settings *set = reference_settings_of(khz, quarters);
    return set == NULL ? 0 : set->lines;
}

/* ---- the two streams: side bits from the last byte backwards, arithmetic symbols from the front */
typedef struct {
    const uint8_t *frame;
    int32_t length;
    int32_t side_used; /* the next side bit is bit side_used % 8 of byte length - 1 - side_used / 8 */
    int32_t bp;        /* the next byte of the arithmetic stream */
    uint32_t low, range;
    uint32_t symbols;
} streams;

/* The byte of the next side bit; -1 when all are used. */
static inline int32_t side_byte(const streams *s)
{
    return s->length - 1 - (s->side_used >> 3);
}

static inline int side_bit(streams *s)
{
    int32_t side = side_byte(s);
    if (side < 0)
        return -OUTSIDE;
    int bit = s->frame[side] >> (s->side_used & 7) & 1;
    s->side_used++;
    return bit;
}

/* A field of side information, lowest bit first; the side information is inside any frame of 20 bytes. */
static uint32_t side_field(streams *s, unsigned bits)
{
    uint32_t value = 0;
    for (unsigned k = 0; k < bits; k++)
        value |= (uint32_t)side_bit(s) << k;
    return value;
}

static void start_arithmetic(streams *s)
{
    s->low = (uint32_t)s->frame[0] << 16 | (uint32_t)s->frame[1] << 8 | s->frame[2];
    s->range = 0xffffff;
    s->bp = 3;
}

/* A symbol of a row with these cumulative frequencies; the last is 1024, where the search ends at the latest. */
static inline int take_symbol(streams *s, const uint16_t *cum)
{
    uint32_t t = s->range >> 10, low = s->low;
    if (low >= t << 10)
        return -ARITHMETIC_VALUE;
    int v = 0;
    while (t * cum[v + 1] <= low)
        v++;
    uint32_t range = t * (uint32_t)(cum[v + 1] - cum[v]);
    low -= t * cum[v];
    while (range < 65536) {
        if (s->bp == s->length)
            return -OUTSIDE;
        low = low << 8 | s->frame[s->bp++];
        range <<= 8;
    }
    s->low = low;
    s->range = range;
    s->symbols++;
    return v;
}

/* ---- side information (steps 1 to 5) */

static int read_shape(streams *s, silberlaus_frame *f)
{
    f->shape_low = (uint8_t)side_field(s, 5);
    f->shape_high = (uint8_t)side_field(s, 5);
    f->shape_mode = (uint8_t)side_field(s, 1);
    f->shape_gain = (uint8_t)side_field(s, f->shape_mode ? 2 : 1);
    f->shape_sign = (uint8_t)side_field(s, 1);
    f->shape_joint = side_field(s, f->shape_mode ? 24 : 25);
    return f->shape_joint >= (f->shape_mode ? JOINT_LIMIT_1 : JOINT_LIMIT_0) ? JOINT_INDEX : 0;
}

static int read_side_information(streams *s, const settings *set, silberlaus_frame *f)
{
    f->bandwidth = (uint8_t)side_field(s, set->bandwidth_bits);
    if (f->bandwidth > set->index)
        return BANDWIDTH;
    f->last_line = (uint16_t)(2 * (side_field(s, set->last_pair_bits) + 1));
    if (f->last_line > set->lines)
        return LAST_LINE;
    f->lsb_mode = (uint8_t)side_field(s, 1);
    f->gain = (uint8_t)side_field(s, 8);
    f->tns_flag_0 = (uint8_t)side_field(s, 1);
    f->tns_flag_1 = f->bandwidth >= set->two_filters_from ? (uint8_t)side_field(s, 1) : 0;
    f->pitch_present = (uint8_t)side_field(s, 1);
    int cause = read_shape(s, f);
    if (cause != 0)
        return cause;
    if (f->pitch_present) {
        f->filter_flag = (uint8_t)side_field(s, 1);
        f->pitch_index = (uint16_t)side_field(s, 9);
    }
    f->noise_level = (uint8_t)side_field(s, 3);
    return 0;
}

/* ---- TNS filters (step 7) */

static int read_filter(streams *s, const settings *set, uint8_t *order, uint8_t *coefficients)
{
    int weighting = 8 * s->length < set->weighting_below, symbol = take_symbol(s, order_cumulative[weighting]);
    if (symbol < 0)
        return -symbol;
    *order = (uint8_t)(1 + symbol);
    if (*order > set->most_order)
        return TNS_ORDER;
    for (int k = 0; k < *order; k++) {
        symbol = take_symbol(s, coefficient_cumulative[k]);
        if (symbol < 0)
            return -symbol;
        coefficients[k] = (uint8_t)symbol;
    }
    return 0;
}

static int read_filters(streams *s, const settings *set, silberlaus_frame *f)
{
    int cause = f->tns_flag_0 ? read_filter(s, set, &f->tns_order_0, f->tns_coefficients_0) : 0;
    if (cause == 0 && f->tns_flag_1)
        cause = read_filter(s, set, &f->tns_order_1, f->tns_coefficients_1);
    return cause;
}

/* ---- pairs (step 8) */
typedef struct { uint32_t first, second, level, symbol; } magnitudes;

/* The escapes of a pair with their low bits, and its last symbol. */
static inline int read_magnitudes(streams *s, int lsb_mode, const uint8_t *lookup, magnitudes *m)
{
    *m = (magnitudes){0};
    for (;;) {
        uint32_t level = m->level;
        int symbol = take_symbol(s, spectrum_cumulative[lookup[1024 * (level < 3 ? level : 3)]]);
        if (symbol < ESCAPE) {
            m->symbol = (uint32_t)symbol;
            return symbol < 0 ? -symbol : 0;
        }
        if (level > 0 || !lsb_mode) {
            int first = side_bit(s), second = side_bit(s);
            if (first < 0 || second < 0)
                return OUTSIDE;
            m->first |= (uint32_t)first << level;
            m->second |= (uint32_t)second << level;
        }
        m->level++;
        if (m->level == MOST_LEVEL)
            return ESCAPES;
    }
}

static inline int read_sign(streams *s, uint32_t magnitude, int32_t *line)
{
    *line = (int32_t)magnitude;
    if (magnitude == 0)
        return 0;
    int sign = side_bit(s);
    if (sign < 0)
        return OUTSIDE;
    *line = sign ? -*line : *line;
    return 0;
}

static inline uint32_t next_context(uint32_t context, uint32_t sum, uint32_t level)
{
    uint32_t l = level < 3 ? level : 3;
    return (context & 15) * 16 + (l <= 1 ? 1 + sum * (l + 1) : 12 + l);
}

/* The lines up to the last line, and each pair's level. */
static int read_pairs(streams *given, const settings *set, const silberlaus_frame *f, int32_t *lines, uint8_t *levels)
{
    streams s = *given;
    uint32_t context = 0, offset = 8 * s.length > set->offset_above ? 512 : 0;
    for (uint32_t k = 0; k < f->last_line; k += 2) {
        magnitudes m;
        uint32_t base = context + offset + (k > set->lines / 2u ? 256 : 0);
        int cause = read_magnitudes(&s, f->lsb_mode, spectrum_lookup + base, &m);
        if (cause != 0)
            return cause;
        uint32_t a = m.symbol % 4, b = m.symbol / 4;
        if (read_sign(&s, m.first + (a << m.level), &lines[k]) != 0)
            return OUTSIDE;
        if (read_sign(&s, m.second + (b << m.level), &lines[k + 1]) != 0)
            return OUTSIDE;
        context = next_context(context, a + b, m.level);
        levels[k / 2] = (uint8_t)m.level;
        if (s.bp - side_byte(&s) > 3)
            return OUTSIDE;
    }
    *given = s;
    return 0;
}

/* ---- what is left for the residual (step 9), below 0 where both streams used more than the frame has */

static int32_t bits_left(const streams *s)
{
    int32_t log2 = 16;
    while (s->range >> (log2 + 1) != 0)
        log2++;
    return 8 * s->length - s->side_used - (8 * (s->bp - 3) + 25 - log2);
}

/* ---- residual bits and late low bits (step 10) */

static uint16_t read_residual(streams *s, int32_t left, const int32_t *lines, uint32_t last_line, uint8_t *residual)
{
    int32_t taken = 0;
    for (uint32_t k = 0; k < last_line && taken < left; k++)
        if (lines[k] != 0)
            residual[taken++] = (uint8_t)side_bit(s);
    return (uint16_t)taken;
}

/* The late low bit of one line; what is left after it, or -1 where nothing was left to read it or its sign from. */
static int32_t read_late_bit(streams *s, int32_t left, int32_t *line)
{
    if (left == 0)
        return -1;
    if (side_bit(s) == 0)
        return left - 1;
    if (*line != 0) {
        *line += *line > 0 ? 1 : -1;
        return left - 1;
    }
    if (left == 1)
        return -1;
    *line = side_bit(s) ? -1 : 1;
    return left - 2;
}

static void read_late_bits(streams *s, int32_t left, const uint8_t *levels, uint32_t last_line, int32_t *lines)
{
    for (uint32_t k = 0; k < last_line && left >= 0; k++)
        if (levels[k / 2] > 0)
            left = read_late_bit(s, left, &lines[k]);
}

/* ---- the whole frame */

static silberlaus_frame refused(uint8_t number, int cause)
{
    return (silberlaus_frame){.number = number, .cause = (uint8_t)cause};
}

/* Steps 1 to 9: 0 with what is left for the residual, or the cause. */
static int read_checked(streams *s, const settings *set, silberlaus_frame *f, int32_t *lines, uint8_t *levels,
                        int32_t *left)
{
    int cause = read_side_information(s, set, f);
    if (cause != 0)
        return cause;
    start_arithmetic(s);
    cause = read_filters(s, set, f);
    if (cause != 0)
        return cause;
    cause = read_pairs(s, set, f, lines, levels);
    if (cause != 0)
        return cause;
    *left = bits_left(s);
    return *left < 0 ? NONE_LEFT : 0;
}

silberlaus_frame reference_read_frame(uint32_t khz, uint32_t quarters, const uint8_t *frame, size_t frame_len,
                                      int32_t *spectrum, size_t spectrum_len, uint8_t *residual, size_t residual_len)
{
    const settings *set = reference_settings_of(khz, quarters);
    if (set == NULL || frame_len < LEAST_BYTES || frame_len > MOST_BYTES)
        return refused(1, 0);
    if (spectrum_len != set->lines || residual_len != set->lines)
        return refused(2, 0);
    int32_t lines[MOST_LINES], left;
    uint8_t levels[MOST_LINES / 2];
    streams s = {.frame = frame, .length = (int32_t)frame_len};
    silberlaus_frame f = {0};
    int cause = read_checked(&s, set, &f, lines, levels, &left);
    if (cause != 0)
        return refused(5, cause);
    f.symbols = (uint16_t)s.symbols;
    if (f.lsb_mode)
        read_late_bits(&s, left, levels, f.last_line, lines);
    else
        f.residual_bits = read_residual(&s, left, lines, f.last_line, residual);
    memset(residual + f.residual_bits, 0, residual_len - f.residual_bits);
    memcpy(spectrum, lines, f.last_line * sizeof lines[0]);
    memset(spectrum + f.last_line, 0, (spectrum_len - f.last_line) * sizeof lines[0]);
    return f;
}
