/* What is right (see reference.h). The functions stand in the order of the refusals, then in the clause's order of writing.
   Writing goes into bytes of its own, each stream up to the frame's other end; the lent frame is written when it is known that
   the two do not meet. */
#include "reference.h"

#include <stdlib.h>
#include <string.h>

#include "../frame/tables.h"

enum { ESCAPE = 16, NO_CACHE = -1, LARGEST_LINE = 32767 };

/* ---- refusal 1: fields */

static int shape_fits(const silberlaus_frame *f)
{
    return f->shape_low <= 31 && f->shape_high <= 31 && f->shape_mode <= 1 && f->shape_gain <= (f->shape_mode ? 3 : 1)
           && f->shape_sign <= 1 && f->shape_joint < (f->shape_mode ? JOINT_LIMIT_1 : JOINT_LIMIT_0);
}

static int pitch_fits(const silberlaus_frame *f)
{
    return f->pitch_present <= 1 && f->filter_flag <= f->pitch_present && f->pitch_index <= (f->pitch_present ? 511 : 0);
}

static int filter_fits(unsigned flag, unsigned most_order, unsigned order, const uint8_t *coefficients)
{
    if (flag ? order < 1 || order > most_order : order != 0)
        return 0;
    for (unsigned k = 0; k < 8; k++)
        if (coefficients[k] > (k < order ? 16 : 0))
            return 0;
    return 1;
}

static int fields_fit(const settings *set, const silberlaus_frame *f)
{
    unsigned second = f->bandwidth >= set->two_filters_from;
    return f->bandwidth <= set->index && f->last_line % 2 == 0 && f->last_line >= 2 && f->last_line <= set->lines
           && f->lsb_mode == 0 && f->tns_flag_0 <= 1 && f->tns_flag_1 <= second && shape_fits(f) && pitch_fits(f)
           && f->noise_level <= 7 && filter_fits(f->tns_flag_0, set->most_order, f->tns_order_0, f->tns_coefficients_0)
           && filter_fits(f->tns_flag_1, set->most_order, f->tns_order_1, f->tns_coefficients_1);
}

/* ---- the second refusal 1: lines and residual bits */

static int lines_fit(const settings *set, const silberlaus_frame *f, const int32_t *spectrum)
{
    uint32_t not_0 = 0;
    for (uint32_t k = 0; k < set->lines; k++) {
        if (spectrum[k] < -LARGEST_LINE || spectrum[k] > LARGEST_LINE || (k >= f->last_line && spectrum[k] != 0))
            return 0;
        not_0 += spectrum[k] != 0;
    }
    return f->residual_bits == not_0;
}

static int residual_fits(const settings *set, const silberlaus_frame *f, const uint8_t *residual)
{
    for (uint32_t k = 0; k < set->lines; k++)
        if (residual[k] > (k < f->residual_bits ? 1 : 0))
            return 0;
    return 1;
}

/* ---- the two streams: side bits from the last byte backwards, arithmetic symbols from the front */
typedef struct {
    uint8_t *bytes;
    int32_t length;
    int32_t side_used; /* the next side bit is bit side_used % 8 of byte length - 1 - side_used / 8 */
    int32_t bp;        /* the next byte of the arithmetic stream */
    int32_t cache;
    uint32_t low, range, carry, waiting;
    trail seen;
} streams;

static inline void put_side_bit(streams *s, uint32_t bit)
{
    int32_t side = s->length - 1 - (s->side_used >> 3);
    if (side >= 0)
        s->bytes[side] |= (uint8_t)(bit << (s->side_used & 7));
    s->side_used++;
}

/* A field of side information, lowest bit first. */
static void put_side(streams *s, unsigned bits, uint32_t value)
{
    for (unsigned k = 0; k < bits; k++)
        put_side_bit(s, value >> k & 1);
}

static inline void put_byte(streams *s, uint32_t byte)
{
    if (s->bp < s->length)
        s->bytes[s->bp] = (uint8_t)byte;
    s->bp++;
}

/* A carry goes through all bytes that wait, into the cache. */
static inline void note_carry(streams *s)
{
    s->seen.carries++;
    if (s->waiting > s->seen.through)
        s->seen.through = s->waiting;
}

/* A byte 0xff waits: a carry may still make it 0, and the one before it one more. */
static inline void hold_back(streams *s)
{
    s->waiting++;
    s->seen.no_cache |= s->cache == NO_CACHE;
    if (s->waiting > s->seen.waited)
        s->seen.waited = s->waiting;
}

static inline void shift(streams *s)
{
    if (s->low < 0xff0000 || s->carry == 1) {
        if (s->carry == 1)
            note_carry(s);
        if (s->cache != NO_CACHE)
            put_byte(s, (uint32_t)s->cache + s->carry);
        for (; s->waiting > 0; s->waiting--)
            put_byte(s, 0xff + s->carry);
        s->cache = (int32_t)(s->low >> 16);
        s->carry = 0;
    } else {
        hold_back(s);
    }
    s->low = s->low << 8 & 0xffffff;
}

/* A symbol of a row with these cumulative frequencies. */
static inline void put_symbol(streams *s, const uint16_t *cum, uint32_t symbol)
{
    uint32_t t = s->range >> 10;
    s->low += t * cum[symbol];
    s->carry |= s->low >> 24;
    s->low &= 0xffffff;
    s->range = t * (uint32_t)(cum[symbol + 1] - cum[symbol]);
    s->seen.symbols++;
    while (s->range < 0x10000) {
        s->range <<= 8;
        shift(s);
    }
}

/* ---- side information */

static void put_shape(streams *s, const silberlaus_frame *f)
{
    put_side(s, 5, f->shape_low);
    put_side(s, 5, f->shape_high);
    put_side(s, 1, f->shape_mode);
    put_side(s, f->shape_mode ? 2 : 1, f->shape_gain);
    put_side(s, 1, f->shape_sign);
    put_side(s, f->shape_mode ? 24 : 25, f->shape_joint);
}

static void put_side_information(streams *s, const settings *set, const silberlaus_frame *f)
{
    put_side(s, set->bandwidth_bits, f->bandwidth);
    put_side(s, set->last_pair_bits, f->last_line / 2u - 1);
    put_side(s, 1, f->lsb_mode);
    put_side(s, 8, f->gain);
    put_side(s, 1, f->tns_flag_0);
    if (f->bandwidth >= set->two_filters_from)
        put_side(s, 1, f->tns_flag_1);
    put_side(s, 1, f->pitch_present);
    put_shape(s, f);
    if (f->pitch_present) {
        put_side(s, 1, f->filter_flag);
        put_side(s, 9, f->pitch_index);
    }
    put_side(s, 3, f->noise_level);
}

/* ---- TNS filters */

static void put_filter(streams *s, const settings *set, unsigned order, const uint8_t *coefficients)
{
    int weighting = 8 * s->length < set->weighting_below;
    if (order > 0)
        put_symbol(s, order_cumulative[weighting], order - 1);
    for (unsigned k = 0; k < order; k++)
        put_symbol(s, coefficient_cumulative[k], coefficients[k]);
}

/* ---- pairs */

static inline const uint16_t *row_of(const uint8_t *lookup, uint32_t level)
{
    return spectrum_cumulative[lookup[1024 * (level < 3 ? level : 3)]];
}

/* A pair; what it adds to the next context. */
static inline uint32_t put_pair(streams *s, const uint8_t *lookup, int32_t first, int32_t second)
{
    uint32_t a = (uint32_t)abs(first), b = (uint32_t)abs(second), level = 0;
    while (a >= 4 || b >= 4) {
        put_symbol(s, row_of(lookup, level), ESCAPE);
        put_side_bit(s, a & 1);
        put_side_bit(s, b & 1);
        a >>= 1;
        b >>= 1;
        level++;
    }
    put_symbol(s, row_of(lookup, level), a + 4 * b);
    if (first != 0)
        put_side_bit(s, first < 0);
    if (second != 0)
        put_side_bit(s, second < 0);
    return level <= 1 ? 1 + (a + b) * (level + 1) : 12 + (level < 3 ? level : 3);
}

static void put_pairs(streams *given, const settings *set, uint32_t last_line, const int32_t *spectrum)
{
    streams s = *given;
    uint32_t context = 0, offset = 8 * s.length > set->offset_above ? 512 : 0;
    for (uint32_t k = 0; k < last_line; k += 2) {
        const uint8_t *lookup = spectrum_lookup + context + offset + (k > set->lines / 2u ? 256 : 0);
        context = (context & 15) * 16 + put_pair(&s, lookup, spectrum[k], spectrum[k + 1]);
    }
    *given = s;
}

/* ---- what is left for residual bits, below 0 where the rest needs more than the frame has */

static int32_t bits_left(const streams *s)
{
    int32_t log2 = 16;
    while (s->range >> (log2 + 1) != 0)
        log2++;
    int32_t digits = s->bp + (s->cache != NO_CACHE) + (int32_t)s->waiting;
    return 8 * s->length - s->side_used - (8 * digits + 25 - log2);
}

/* ---- the ending */

/* The top bits of a byte, alone: the side stream may end in the same one. */
static void put_top_bits(streams *s, uint32_t byte, int bits)
{
    s->bytes[s->bp] |= (uint8_t)(byte & (0xff00u >> bits));
    s->seen.shared = s->length - 1 - (s->side_used - 1) / 8 == s->bp;
}

/* The fewest bits of a number at or above low after which it stays below low + range, whatever follows; low becomes it. */
static int round_up(streams *s)
{
    int bits = 1;
    while (s->range >> (24 - bits) == 0)
        bits++;
    uint32_t mask = 0xffffffu >> bits, value = s->low + mask, high = s->low + s->range;
    uint32_t over_value = value >> 24, over_high = high >> 24;
    value = value & 0xffffff & ~mask;
    if (over_value == over_high && value + mask >= (high & 0xffffff)) {
        bits++;
        mask >>= 1;
        value = (s->low + mask) & 0xffffff & ~mask;
        s->seen.end_longer = 1;
    }
    if (over_value == over_high && value < s->low)
        s->carry = s->seen.end_carried = 1;
    s->low = value;
    return bits;
}

static void finish(streams *s)
{
    int bits = round_up(s);
    s->seen.end_bits = (uint32_t)bits;
    for (; bits > 0; bits -= 8)
        shift(s);
    bits += 8;
    if (s->waiting == 0) {
        put_top_bits(s, (uint32_t)s->cache, bits);
        return;
    }
    put_byte(s, (uint32_t)s->cache);
    for (; s->waiting > 1; s->waiting--)
        put_byte(s, 0xff);
    put_top_bits(s, 0xffu >> (8 - bits), bits);
}

/* ---- the whole frame */
static trail last;

const trail *reference_trail(void)
{
    return &last;
}

static silberlaus_written refused(uint8_t number, int step)
{
    last.step = step;
    return (silberlaus_written){.number = number};
}

/* All up to the residual bits; what is left for them. */
static int32_t put_checked(streams *s, const settings *set, const silberlaus_frame *f, const int32_t *spectrum)
{
    put_side_information(s, set, f);
    put_filter(s, set, f->tns_order_0, f->tns_coefficients_0);
    put_filter(s, set, f->tns_order_1, f->tns_coefficients_1);
    put_pairs(s, set, f->last_line, spectrum);
    return bits_left(s);
}

silberlaus_written reference_write_frame(uint32_t khz, uint32_t quarters, silberlaus_frame fields,
                                         const int32_t *spectrum, size_t spectrum_len,
                                         const uint8_t *residual, size_t residual_len, uint8_t *frame, size_t frame_len)
{
    const settings *set = reference_settings_of(khz, quarters);
    last = (trail){0};
    if (set == NULL || frame_len < LEAST_BYTES || frame_len > MOST_BYTES || !fields_fit(set, &fields))
        return refused(1, AT_FIELDS);
    if (spectrum_len != set->lines || residual_len != set->lines)
        return refused(2, AT_LENGTHS);
    if (!lines_fit(set, &fields, spectrum) || !residual_fits(set, &fields, residual))
        return refused(1, AT_LINES);
    uint8_t bytes[MOST_BYTES] = {0};
    streams s = {.bytes = bytes, .length = (int32_t)frame_len, .cache = NO_CACHE, .range = 0xffffff};
    int32_t left = put_checked(&s, set, &fields, spectrum);
    s.seen.left = left;
    last = s.seen;
    if (left < 0)
        return refused(8, AT_ROOM);
    uint16_t sent = left < fields.residual_bits ? (uint16_t)left : fields.residual_bits;
    for (unsigned k = 0; k < sent; k++)
        put_side_bit(&s, residual[k]);
    finish(&s);
    s.seen.step = AT_END;
    last = s.seen;
    memcpy(frame, bytes, frame_len);
    return (silberlaus_written){.residual_bits = sent};
}
