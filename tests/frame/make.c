/* Making frames (see make.h). The functions stand in the order of writing, which is that of reading. Where a cause is made,
   writing ends, since reading ends there: whatever follows in the frame is not looked at. */
#include "make.h"

#include <stdlib.h>
#include <string.h>

#include "tables.h"

/* ---- the two streams */

/* More than 74 bits of side information, 14 escapes with two bits each and two signs a pair, and 400 residual bits; and than
   two digits for each of 18 symbols and 15 a pair. */
enum { MOST_BITS = 8192, MOST_DIGITS = 8192, ESCAPE = 16 };

typedef struct {
    uint8_t side[MOST_BITS];          /* a bit each */
    uint8_t digits[MOST_DIGITS];      /* the arithmetic code, one number to base 256 of 3 + shifts digits */
    uint8_t levels[MOST_LINES / 2];
    uint32_t side_bits, shifts, range, symbols, bad_from;
    int cause;
} writer;

static void stop_if(writer *w, int cause, int holds)
{
    if (holds && w->cause == 0)
        w->cause = cause;
}

static void put_side(writer *w, unsigned bits, uint32_t value)
{
    for (unsigned k = 0; k < bits && w->cause == 0; k++)
        w->side[w->side_bits++] = value >> k & 1;
}

static void add(writer *w, uint32_t value)
{
    for (uint32_t k = w->shifts + 3; value > 0; value >>= 8) {
        value += w->digits[--k];
        w->digits[k] = (uint8_t)value;
    }
}

/* A symbol; or the gap above the last one, where the range is no multiple of 1024. */
static void put_symbol(writer *w, const uint16_t *cum, uint32_t symbol)
{
    uint32_t t = w->range >> 10, gap = w->range & 1023;
    if (w->cause != 0)
        return;
    stop_if(w, 4, w->symbols >= w->bad_from && gap > 0);
    add(w, w->cause != 0 ? t << 10 : t * cum[symbol]);
    w->range = w->cause != 0 ? gap : t * (uint32_t)(cum[symbol + 1] - cum[symbol]);
    w->symbols++;
    for (; w->range < 65536; w->range <<= 8)
        w->shifts++;
}

/* ---- side information */

static void write_shape(writer *w, const silberlaus_frame *f)
{
    put_side(w, 5, f->shape_low);
    put_side(w, 5, f->shape_high);
    put_side(w, 1, f->shape_mode);
    put_side(w, f->shape_mode ? 2 : 1, f->shape_gain);
    put_side(w, 1, f->shape_sign);
    put_side(w, f->shape_mode ? 24 : 25, f->shape_joint);
    stop_if(w, 3, f->shape_joint >= (f->shape_mode ? JOINT_LIMIT_1 : JOINT_LIMIT_0));
}

static void write_side_information(writer *w, const settings *set, const silberlaus_frame *f)
{
    put_side(w, set->bandwidth_bits, f->bandwidth);
    stop_if(w, 1, f->bandwidth > set->index);
    put_side(w, set->last_pair_bits, f->last_line / 2u - 1);
    stop_if(w, 2, f->last_line > set->lines);
    put_side(w, 1, f->lsb_mode);
    put_side(w, 8, f->gain);
    put_side(w, 1, f->tns_flag_0);
    put_side(w, f->bandwidth >= set->two_filters_from ? 1 : 0, f->tns_flag_1);
    put_side(w, 1, f->pitch_present);
    write_shape(w, f);
    put_side(w, f->pitch_present ? 1 : 0, f->filter_flag);
    put_side(w, f->pitch_present ? 9 : 0, f->pitch_index);
    put_side(w, 3, f->noise_level);
}

/* ---- TNS filters: none where the order is 0 */

static void write_filter(writer *w, const settings *set, size_t length, unsigned order, const uint8_t *coefficients)
{
    if (order == 0)
        return;
    put_symbol(w, order_cumulative[8 * length < set->weighting_below], order - 1);
    stop_if(w, 8, order > set->most_order);
    for (unsigned k = 0; k < order; k++)
        put_symbol(w, coefficient_cumulative[k], coefficients[k]);
}

/* ---- pairs */

/* The escapes of a pair with their low bits, but for those that come late; the pair's level. */
static uint32_t write_escapes(writer *w, const plan *p, uint32_t k, const uint8_t *lookup)
{
    uint32_t one = (uint32_t)abs(p->sent.spectrum[k]), two = (uint32_t)abs(p->sent.spectrum[k + 1]), level = 0;
    while ((one | two) >> level > 3 || level < p->escapes[k / 2]) {
        put_symbol(w, spectrum_cumulative[lookup[1024 * (level < 3 ? level : 3)]], ESCAPE);
        put_side(w, level == 0 && p->sent.fields.lsb_mode ? 0 : 1, one >> level);
        put_side(w, level == 0 && p->sent.fields.lsb_mode ? 0 : 1, two >> level);
        level++;
        stop_if(w, 5, level == TOO_MANY_ESCAPES);
    }
    return level;
}

/* A pair; the context after it. */
static uint32_t write_pair(writer *w, const plan *p, uint32_t k, uint32_t context, const uint8_t *lookup)
{
    const int32_t *line = &p->sent.spectrum[k];
    uint32_t level = write_escapes(w, p, k, lookup + context), row = level < 3 ? level : 3;
    int32_t a = abs(line[0]) >> level, b = abs(line[1]) >> level;
    put_symbol(w, spectrum_cumulative[lookup[context + 1024 * row]], (uint32_t)(a + 4 * b));
    /* with a late low bit a line of 1 is still a 0 here, and has no sign */
    int32_t unsigned_up_to = p->sent.fields.lsb_mode && level > 0 ? 1 : 0;
    put_side(w, abs(line[0]) > unsigned_up_to ? 1 : 0, line[0] < 0);
    put_side(w, abs(line[1]) > unsigned_up_to ? 1 : 0, line[1] < 0);
    w->levels[k / 2] = (uint8_t)level;
    return context % 16 * 16 + (row < 2 ? 1 + (uint32_t)(a + b) * (row + 1) : 12 + row);
}

static void write_pairs(writer *w, const settings *set, size_t length, const plan *p)
{
    const uint8_t *lookup = spectrum_lookup + (8 * length > set->offset_above ? 512 : 0);
    uint32_t context = 0;
    for (uint32_t k = 0; k < p->sent.fields.last_line && w->cause == 0; k += 2)
        context = write_pair(w, p, k, context, lookup + (k > set->lines / 2u ? 256 : 0));
}

/* ---- residual bits and late low bits: as many as fit; the answer keeps what was sent */

static void write_residual(writer *w, int32_t left, answer *want)
{
    int32_t sent = 0;
    for (uint32_t k = 0; k < want->fields.last_line && sent < left; k++)
        if (want->spectrum[k] != 0)
            put_side(w, 1, want->residual[sent++]);
    memset(want->residual + sent, 0, sizeof want->residual - (size_t)sent);
    want->fields.residual_bits = (uint16_t)sent;
}

/* The low bit of one line, and the sign that a line of 1 still wants; how many bits are left. */
static int32_t write_late_bit(writer *w, int32_t left, int32_t *line)
{
    int32_t magnitude = abs(*line), wanted = magnitude == 1 ? 2 : 1;
    put_side(w, left > 0 ? 1 : 0, (uint32_t)magnitude);
    put_side(w, left >= wanted ? (unsigned)wanted - 1 : 0, *line < 0);
    if (left < wanted)
        *line -= *line % 2;
    return left > wanted ? left - wanted : 0;
}

static void write_late_bits(writer *w, int32_t left, answer *want)
{
    for (uint32_t k = 0; k < want->fields.last_line; k++)
        if (w->levels[k / 2] > 0)
            left = write_late_bit(w, left, &want->spectrum[k]);
}

/* ---- the end of the arithmetic code, and the frame */

static uint32_t log2_of(uint32_t value)
{
    uint32_t log2 = 0;
    while (value >> (log2 + 1) != 0)
        log2++;
    return log2;
}

static uint32_t rounded_up(uint32_t value, uint32_t log2)
{
    return (value + (1u << log2) - 1) >> log2 << log2;
}

/* The fewest bits after which the number stays in the range whatever follows; how many bits of it that makes. */
static uint32_t finish(writer *w)
{
    const uint8_t *last = w->digits + w->shifts;
    uint32_t low = (uint32_t)last[0] << 16 | (uint32_t)last[1] << 8 | last[2], step = log2_of(w->range);
    if (rounded_up(low, step) + (1u << step) > low + w->range)
        step--;
    add(w, rounded_up(low, step) - low);
    return 8 * w->shifts + 24 - step;
}

static void put_bit(uint8_t *byte, unsigned place, unsigned bit)
{
    *byte = (uint8_t)((*byte & ~(1u << place)) | bit << place);
}

static void put_streams(const writer *w, uint32_t code_bits, uint8_t *frame, size_t length)
{
    for (uint32_t k = 0; k < code_bits && k < 8 * length; k++)
        put_bit(&frame[k / 8], 7 - k % 8, w->digits[k / 8] >> (7 - k % 8) & 1);
    for (uint32_t k = 0; k < w->side_bits && k < 8 * length; k++)
        put_bit(&frame[length - 1 - k / 8], k % 8, w->side[k]);
}

void make_frame(const settings *set, const plan *p, uint8_t *frame, size_t length, made *m)
{
    static writer w;
    const silberlaus_frame *f = &p->sent.fields;
    w = (writer){.range = 0xffffff, .bad_from = p->bad_from};
    write_side_information(&w, set, f);
    write_filter(&w, set, length, f->tns_order_0, f->tns_coefficients_0);
    write_filter(&w, set, length, f->tns_order_1, f->tns_coefficients_1);
    write_pairs(&w, set, length, p);
    m->used = (int32_t)(w.side_bits + 8 * w.shifts + 25 - log2_of(w.range));
    m->want = p->sent;
    int32_t left = 8 * (int32_t)length - m->used;
    /* one bit too many is counted where the end needs one fewer: both streams are whole, and nothing is left */
    stop_if(&w, 7, left < 0);
    if (w.cause == 0 && f->lsb_mode)
        write_late_bits(&w, left, &m->want);
    else if (w.cause == 0)
        write_residual(&w, left, &m->want);
    m->want.fields.symbols = (uint16_t)w.symbols;
    uint32_t code_bits = finish(&w);
    m->known = code_bits + w.side_bits <= 8 * length;
    if (w.cause != 0)
        m->want = (answer){.fields = {.number = 5, .cause = (uint8_t)w.cause}};
    put_streams(&w, code_bits, frame, length);
}
