/* Steering symbols (see steer.h). It is a reader of the number that chooses: its symbol is the one in whose part of the range
   the number lies, where that one may be chosen. */
#include "steer.h"

#include "../common/cases.h"
#include "../frame/tables.h"

enum { ESCAPE = 16, MOST_LEVEL = 13, EVERY = 0x1ffff };

/* The coder, its low modulo 2^24, and how far above it the number is that it runs along; 0 for none. One in `seldom` symbols
   goes past it. */
typedef struct { uint32_t low, range, ahead, seldom; } steering;

/* The next number with a last byte of 0, or one a little below the top of the range. */
static void aim(steering *s)
{
    uint32_t most = s->range >> 10 << 10, ahead = 0x10000 - (s->low & 0xffff);
    if (below(8) == 0)
        ahead = most - 1 - below(most / 64);
    s->ahead = ahead < most ? ahead : 0;
}

static int one_of(uint32_t allowed)
{
    int symbol = (int)below(ESCAPE + 1);
    while ((allowed >> symbol & 1) == 0)
        symbol = (int)below(ESCAPE + 1);
    return symbol;
}

/* The one in whose part the number lies, and not at its start: ESCAPE + 1 where there is none. */
static int symbol_ahead(const steering *s, const uint16_t *cum, uint32_t allowed)
{
    uint32_t t = s->range >> 10;
    int symbol = 0;
    while (symbol <= ESCAPE && ((allowed >> symbol & 1) == 0 || s->ahead <= t * cum[symbol] || s->ahead >= t * cum[symbol + 1]))
        symbol++;
    return symbol;
}

static void take(steering *s, const uint16_t *cum, int symbol, int stays)
{
    uint32_t t = s->range >> 10;
    s->low = (s->low + t * cum[symbol]) & 0xffffff;
    s->ahead = stays ? s->ahead - t * cum[symbol] : 0;
    for (s->range = t * (uint32_t)(cum[symbol + 1] - cum[symbol]); s->range < 0x10000; s->range <<= 8) {
        s->low = s->low << 8 & 0xffffff;
        s->ahead <<= 8;
    }
}

/* The next symbol, of those that are allowed; bit k is symbol k. */
static uint32_t steer(steering *s, const uint16_t *cum, uint32_t allowed)
{
    if (s->ahead == 0)
        aim(s);
    int symbol = s->ahead > 0 ? symbol_ahead(s, cum, allowed) : ESCAPE + 1, stays = symbol <= ESCAPE;
    uint32_t above = stays ? allowed >> (symbol + 1) << (symbol + 1) : 0;
    if (!stays) {
        symbol = one_of(allowed);
    } else if (above != 0 && below(s->seldom) == 0) {
        symbol = one_of(above);
        stays = 0;
    }
    take(s, cum, symbol, stays);
    return (uint32_t)symbol;
}

/* ---- TNS filters */

static uint8_t steer_filter(steering *s, const settings *set, size_t length, uint8_t *coefficients)
{
    uint32_t order = 1 + steer(s, order_cumulative[8 * length < set->weighting_below], (1u << set->most_order) - 1);
    for (unsigned k = 0; k < 8; k++)
        coefficients[k] = k < order ? (uint8_t)steer(s, coefficient_cumulative[k], EVERY) : 0;
    return (uint8_t)order;
}

/* ---- lines */

/* A pair behind an escape has a magnitude that needed it. */
static uint32_t allowed_at(uint32_t level)
{
    uint32_t allowed = level < MOST_LEVEL ? 1u << ESCAPE : 0;
    for (uint32_t symbol = 0; symbol < ESCAPE; symbol++)
        if (level == 0 || symbol % 4 >= 2 || symbol / 4 >= 2)
            allowed |= 1u << symbol;
    return allowed;
}

static int32_t line_of(uint32_t top, uint32_t level)
{
    int32_t magnitude = (int32_t)(top << level | below(1u << level));
    return below(2) ? magnitude : -magnitude;
}

/* A pair of lines; the context after it. */
static uint32_t steer_pair(steering *s, uint32_t context, const uint8_t *lookup, int32_t *line)
{
    uint32_t level = 0, symbol, rows;
    for (;; level++) {
        rows = level < 3 ? level : 3;
        symbol = steer(s, spectrum_cumulative[lookup[context + 1024 * rows]], allowed_at(level));
        if (symbol < ESCAPE)
            break;
    }
    uint32_t a = symbol % 4, b = symbol / 4;
    line[0] = line_of(a, level);
    line[1] = line_of(b, level);
    return context % 16 * 16 + (rows < 2 ? 1 + (a + b) * (rows + 1) : 12 + rows);
}

void steer_symbols(const settings *set, size_t length, answer *given)
{
    static const uint32_t seldom[] = {2, 8, 40, 400};
    silberlaus_frame *f = &given->fields;
    steering s = {.range = 0xffffff, .ahead = 1 + below(0xfffbff), .seldom = seldom[below(COUNT(seldom))]};
    if (f->tns_flag_0)
        f->tns_order_0 = steer_filter(&s, set, length, f->tns_coefficients_0);
    if (f->tns_flag_1)
        f->tns_order_1 = steer_filter(&s, set, length, f->tns_coefficients_1);
    const uint8_t *lookup = spectrum_lookup + (8 * length > set->offset_above ? 512 : 0);
    uint32_t context = 0;
    for (uint32_t k = 0; k < f->last_line; k += 2)
        context = steer_pair(&s, context, lookup + (k > set->lines / 2u ? 256 : 0), &given->spectrum[k]);
}
