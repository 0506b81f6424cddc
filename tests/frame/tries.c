/* Frames to try (see tries.h). */
#include "tries.h"

#include <string.h>

#include "../common/cases.h"
#include "list.h"

/* ---- side information in range */

/* Puts a field of side information into a frame. */
static void put_side(uint8_t *frame, size_t length, unsigned from, unsigned bits, uint32_t value)
{
    for (unsigned k = from; k < from + bits; k++, value /= 2) {
        uint8_t *byte = &frame[length - 1 - k / 8], mask = (uint8_t)(1 << k % 8);
        *byte = (uint8_t)(value % 2 ? *byte | mask : *byte & ~mask);
    }
}

static unsigned side_at(const uint8_t *frame, size_t length, unsigned k)
{
    return frame[length - 1 - k / 8] >> k % 8 & 1;
}

static void put_last_pair(const settings *set, uint8_t *frame, size_t length, uint32_t field)
{
    put_side(frame, length, set->bandwidth_bits, set->last_pair_bits, field);
}

/* Random bytes with side information in range: a joint index at the limit is cause 3 half of the time. */
static void side_in_range(const settings *set, uint8_t *frame, size_t length)
{
    random_bytes(frame, length);
    uint32_t bandwidth = below(set->index + 1u), pairs = set->lines / 2u;
    put_side(frame, length, 0, set->bandwidth_bits, bandwidth);
    put_last_pair(set, frame, length, below(8) == 0 ? pairs - 1 : below(below(2) || pairs < 12 ? pairs : 12));
    /* LSB mode, gain, TNS flags, pitch present and ten bits of shape come before the mode bit */
    unsigned flags = bandwidth >= set->two_filters_from ? 2 : 1;
    unsigned mode_at = set->bandwidth_bits + set->last_pair_bits + 1u + 8 + flags + 1 + 10;
    unsigned mode = side_at(frame, length, mode_at), joint_at = mode_at + 1 + (mode ? 2 : 1) + 1;
    uint32_t limit = mode ? JOINT_LIMIT_1 : JOINT_LIMIT_0;
    put_side(frame, length, joint_at, mode ? 24 : 25, below(32) == 0 ? limit - below(2) : below(limit));
}

/* ---- random frames */
typedef void one_case(const settings *set, size_t length);

static void any_bytes(const settings *set, size_t length)
{
    uint8_t frame[MOST_BYTES];
    random_bytes(frame, length);
    judge_by_reference(set, frame, length);
}

static void any_symbols(const settings *set, size_t length)
{
    uint8_t frame[MOST_BYTES];
    side_in_range(set, frame, length);
    judge_by_reference(set, frame, length);
}

/* Long runs of one byte in the arithmetic part give symbols that random bytes seldom give. */
static void plain_symbols(const settings *set, size_t length)
{
    uint8_t frame[MOST_BYTES];
    side_in_range(set, frame, length);
    uint32_t from = below(8), to = from + below((uint32_t)length - 10 - from + 1);
    memset(frame + from, below(2) ? 0 : below(2) ? 255 : (int)below(256), to - from);
    judge_by_reference(set, frame, length);
}

static int is_accepted(const settings *set, const uint8_t *frame, size_t length)
{
    answer a;
    request r = lend_right(set->khz, set->quarters, frame, length);
    lend_reference(&r, &a);
    return a.fields.number == 0;
}

/* The largest last line at which the two streams still have room, found by halving, and the ones beside it: there the
   crossing test and what is left for the residual are decided. */
static void edge_of_room(const settings *set, size_t length)
{
    uint8_t frame[MOST_BYTES];
    side_in_range(set, frame, length);
    uint32_t fits = 0, pairs = set->lines / 2u, over = pairs;
    while (over - fits > 1) {
        uint32_t middle = (fits + over) / 2;
        put_last_pair(set, frame, length, middle);
        if (is_accepted(set, frame, length))
            fits = middle;
        else
            over = middle;
    }
    for (uint32_t field = fits > 0 ? fits - 1 : 0; field <= fits + 2 && field < pairs; field++) {
        put_last_pair(set, frame, length, field);
        judge_by_reference(set, frame, length);
    }
}

static void everywhere(unsigned turns, one_case *one, const char *name)
{
    for (const settings *set = reference_settings; set < reference_settings + SETTINGS; set++)
        for (size_t length = LEAST_BYTES; length <= MOST_BYTES; length++)
            for (unsigned turn = 0; turn < turns; turn++)
                one(set, length);
    group_ends(name);
}

void tries_random(unsigned turns)
{
    everywhere(turns, any_bytes, "every setting and length: random bytes");
    everywhere(turns, any_symbols, "every setting and length: side information in range, random symbols");
    everywhere(turns, plain_symbols, "every setting and length: the same with runs of one byte");
    everywhere(turns, edge_of_room, "every setting and length: last lines at which the two streams meet");
}

/* ---- frames of the lists, damaged */

void tries_flip(uint8_t *frame, size_t length, unsigned flips)
{
    for (unsigned i = 0; i < flips; i++) {
        uint32_t bit = below(8 * (uint32_t)length);
        frame[bit / 8] ^= (uint8_t)(1 << bit % 8);
    }
}

static void bits_flipped(const listed *c, unsigned turns)
{
    for (unsigned turn = 0; turn < turns && list_settings(c) != NULL; turn++) {
        uint8_t frame[MOST_BYTES];
        memcpy(frame, c->frame, c->length);
        tries_flip(frame, c->length, 1 + below(turn % 4 == 0 ? 64 : 4));
        judge_by_reference(list_settings(c), frame, c->length);
    }
}

static void each_bit_flipped(const listed *c)
{
    for (size_t bit = 0; bit < 8 * c->length && list_settings(c) != NULL; bit++) {
        uint8_t frame[MOST_BYTES];
        memcpy(frame, c->frame, c->length);
        frame[bit / 8] ^= (uint8_t)(1 << bit % 8);
        judge_by_reference(list_settings(c), frame, c->length);
    }
}

/* Short frames of cause 6 whose symbols come near the end of the frame, or reach it: their last bytes changed, so that the
   value there is a symbol, is none (cause 4), or wants a byte after the last (cause 6). */
static void ends_changed(const listed *c, unsigned turns)
{
    for (unsigned turn = 0; turn < turns && c->want.fields.cause == 6 && c->length < 24; turn++) {
        uint8_t frame[MOST_BYTES];
        size_t last = 2 + below(8);
        memcpy(frame, c->frame, c->length);
        tries_flip(frame + c->length - last, last, 1 + below(8));
        judge_by_reference(list_settings(c), frame, c->length);
    }
}

/* Bytes cut from the front or from the middle, and the frame at every setting. */
static void cut_short(const listed *c, unsigned turn)
{
    for (const settings *set = reference_settings; set < reference_settings + SETTINGS && c->want.fields.number == 0; set++) {
        uint8_t frame[MOST_BYTES];
        size_t cut = turn == 0 ? 0 : below((uint32_t)c->length - LEAST_BYTES + 1);
        size_t length = c->length - cut, front = below((uint32_t)length + 1);
        memcpy(frame, c->frame, front);
        memcpy(frame + front, c->frame + front + cut, length - front);
        judge_by_reference(set, frame, length);
    }
}

void tries_listed(unsigned turns)
{
    for (size_t i = 0; i < list_length; i++)
        bits_flipped(&list[i], turns);
    group_ends("frames of the lists with 1 to 64 bits flipped");
    for (size_t i = 0; i < list_length; i++)
        each_bit_flipped(&list[i]);
    group_ends("frames of the lists, each of their bits flipped alone");
    for (size_t i = 0; i < list_length; i++)
        ends_changed(&list[i], 6 * turns);
    group_ends("frames of the lists that want bytes past their end, the last bytes changed");
    for (size_t i = 0; i < list_length; i++)
        for (unsigned turn = 0; turn < 20; turn++)
            cut_short(&list[i], turn);
    group_ends("accepted frames of the lists at every setting, whole and with bytes cut out");
}

/* ---- near what has occurred */

static void near_causes(const settings *set)
{
    for (unsigned cause = 0; cause < CAUSES; cause++) {
        const kept_frame *found = judge_kept(set, cause);
        if (found == NULL)
            continue;
        kept_frame k = *found;
        tries_flip(k.frame, k.length, 1 + below(3));
        judge_by_reference(set, k.frame, k.length);
    }
}

void tries_near_causes(unsigned turns)
{
    for (unsigned turn = 0; turn < turns; turn++)
        for (const settings *set = reference_settings; set < reference_settings + SETTINGS; set++)
            near_causes(set);
    group_ends("frames of every setting and cause so far, with 1 to 3 bits flipped");
}
