/* See both.h. */
#include "both.h"

#include <stdio.h>
#include <string.h>

#include "../common/cases.h"
#include "../common/said.h"
#include "kinds.h"

static uint8_t our_room[GUARD + ROOM + GUARD], their_room[GUARD + ROOM + GUARD], kept[GUARD + ROOM + GUARD];
static uint8_t our_out[GUARD + ROOM + GUARD], their_out[GUARD + ROOM + GUARD], frame_kept[LONGEST_FRAME];
uint8_t *const ours = our_room + GUARD, *const theirs = their_room + GUARD, *const moved = our_out + GUARD;
uint8_t frame[LONGEST_FRAME];

void judge(int right, const char *what, size_t used)
{
    if (case_shown(right))
        said(printf("  WRONG: %s, used length %zu\n", what, used));
}

void both_full_of(uint8_t byte)
{
    memset(our_room, byte, sizeof our_room);
    memset(their_room, byte, sizeof their_room);
}

void theirs_as_ours(void)
{
    memcpy(their_room, our_room, sizeof our_room);
}

void random_frame(void)
{
    random_bytes(frame, sizeof frame);
    memcpy(frame_kept, frame, sizeof frame);
}

/* ---- writing */

uint8_t both_new(uint32_t form, size_t capacity)
{
    uint8_t number = silberlaus_record_new(form, ours, capacity), want = reference_new(form, theirs, capacity);
    judge(number == want, "new: its answer", capacity);
    judge(memcmp(our_room, their_room, GUARD + capacity + GUARD) == 0, "new: the bytes of the buffer and around it", capacity);
    answered(NEW, form, want);
    return number;
}

static void count_bits(uint8_t number, uint32_t count, uint32_t bits)
{
    if (number == 0)
        met(bits == UNKNOWN ? ADDED_UNKNOWN : count > 0 && bits == count ? ADDED_LEAST
            : count > 0 && bits == 4 * count ? ADDED_MOST : ADDED_BETWEEN);
    else if (number == 1 && count > 0 && count <= 162 && bits == count - 1)
        met(BITS_BELOW);
    else if (number == 1 && count <= 162 && bits == 4 * count + 1)
        met(bits == 649 ? BITS_649 : BITS_ABOVE);
    else if (number == 1 && bits == UNKNOWN - 1)
        met(BITS_BELOW_UNKNOWN);
    else if (number == 1 && bits > UNKNOWN && ((uint16_t)bits == UNKNOWN || (uint16_t)bits == count))
        met(BITS_WIDE);
}

static void count_added(silberlaus_added want, size_t capacity, size_t used, uint32_t length)
{
    answered(ADD, 2, want.number);
    if (want.number == 7 && reference_read(1, theirs, used, NULL) >= 0)
        met(ADD_TO_FORM_1);
    if (want.number == 6 && used + length + 6 <= capacity)
        met(ADD_ABOVE_LARGEST);
    if (want.number == 6 && used + length + 6 == capacity + 1)
        met(ADD_ABOVE_CAPACITY);
}

silberlaus_added both_add(size_t capacity, size_t used, size_t frame_len, uint32_t request, uint32_t count, uint32_t bits,
                          uint32_t length)
{
    silberlaus_added a = silberlaus_record_add(ours, capacity, used, frame, frame_len, request, count, bits, length);
    silberlaus_added b = reference_add(theirs, capacity, used, frame, frame_len, request, count, bits, length);
    judge(a.number == b.number && a.used == b.used, "add: its answer", used);
    judge(memcmp(our_room, their_room, GUARD + capacity + GUARD) == 0, "add: the bytes of the buffer and around it", used);
    judge(memcmp(frame, frame_kept, sizeof frame) == 0, "add: the bytes of the frame", used);
    count_bits(b.number, count, bits);
    count_added(b, capacity, used, length);
    return a;
}

size_t both_grow(size_t capacity, size_t used, uint32_t length, uint32_t request, uint32_t count, uint32_t bits)
{
    silberlaus_added a = both_add(capacity, used, length, request, count, bits, length);
    judge(a.number == 0, "add: accepted", used);
    return a.used;
}

/* ---- reading */

static void count_entry(uint32_t form, silberlaus_entry want)
{
    answered(ENTRY, form, want.number);
    if (want.number == 0)
        met(form == 1 ? READ_FORM_1 : want.bits == UNKNOWN ? READ_UNKNOWN : READ_KNOWN);
}

static void count_read(uint32_t form, silberlaus_entries want, size_t used)
{
    answered(ENTRIES, form, want.number);
    if (want.number == 0 && used == LARGEST)
        met(form == 1 ? FILLED_FORM_1 : FILLED_FORM_2);
    if (want.number == 0 && want.entries == (form == 1 ? SILBERLAUS_ENTRIES_MAX_1 : SILBERLAUS_ENTRIES_MAX_2))
        met(form == 1 ? MOST_ENTRIES_1 : MOST_ENTRIES_2);
}

static void both_entry(uint32_t form, size_t used, size_t place)
{
    silberlaus_entry a = silberlaus_record_entry(form, ours, used, place), b = reference_entry(form, ours, used, place);
    judge(a.number == b.number && a.request == b.request && a.count == b.count && a.length == b.length && a.bits == b.bits
          && a.start == b.start, place == SIZE_MAX ? "entry: largest place" : "entry", used);
    count_entry(form, b);
}

void both_read_as(uint32_t form, size_t used)
{
    size_t bytes = GUARD + used + GUARD;
    memcpy(kept, our_room, bytes);
    silberlaus_entries a = silberlaus_record_entries(form, ours, used), b = reference_entries(form, ours, used);
    judge(a.number == b.number && a.entries == b.entries, "entries", used);
    count_read(form, b, used);
    size_t last = b.entries + 2, step = last > 200 ? last / 50 : 1;
    for (size_t place = 0; place < last; place += step)
        both_entry(form, used, place);
    both_entry(form, used, b.entries - (size_t)(b.entries > 0));
    both_entry(form, used, b.entries + ((size_t)1 << 32));
    both_entry(form, used, SIZE_MAX);
    judge(memcmp(kept, our_room, bytes) == 0, "reading: the bytes of the record and around it", used);
}

void both_read(size_t used)
{
    both_read_as(1, used);
    both_read_as(2, used);
    judge(silberlaus_record_entries(1, ours, used).number == 7 || silberlaus_record_entries(2, ours, used).number == 7,
          "a record of both forms", used);
}

/* ---- moving */

static void count_moved(uint32_t to, silberlaus_added want, size_t used, size_t capacity)
{
    uint32_t from = 3 - to;
    answered(to == 2 ? TO_FORM_2 : TO_FORM_1, from, want.number);
    if (want.number == 7 && reference_read(to, ours, used, NULL) >= 0)
        met(MOVE_WRONG_FORM);
    if (want.number == 0 && want.used == capacity)
        met(MOVED_EXACTLY);
    if (want.number == 0 && want.used == LARGEST)
        met(MOVED_TO_LARGEST);
    if (want.number == 0 && used == LARGEST)
        met(MOVED_FROM_LARGEST);
    if (want.number != 6)
        return;
    size_t grown = (size_t)reference_read(from, ours, used, NULL) * 2 + 1, length = to == 2 ? used + grown : used - grown;
    if (length == LARGEST + 1 && length <= capacity)
        met(MOVE_ABOVE_LARGEST);
    if (length == capacity + 1)
        met(MOVE_ONE_SHORT);
}

silberlaus_added both_move(uint32_t to, size_t used, size_t capacity)
{
    static uint8_t paint[GUARD + ROOM + GUARD];
    size_t record = GUARD + used + GUARD, lent = GUARD + capacity + GUARD;
    memset(paint, (int)below(256), lent);
    memcpy(our_out, paint, lent);
    memcpy(their_out, paint, lent);
    memcpy(kept, our_room, record);
    silberlaus_added a = (to == 2 ? silberlaus_record_to_form_2 : silberlaus_record_to_form_1)(ours, used, moved, capacity);
    judge(memcmp(kept, our_room, record) == 0, "move: the bytes of the record and around it", used);
    silberlaus_added b = (to == 2 ? reference_to_form_2 : reference_to_form_1)(ours, used, their_out + GUARD, capacity);
    judge(a.number == b.number && a.used == b.used, to == 2 ? "to form 2: its answer" : "to form 1: its answer", used);
    judge(memcmp(our_out, their_out, lent) == 0, "move: the bytes of the buffer and around it", used);
    judge(a.number == 0 || memcmp(our_out, paint, lent) == 0, "move: a refusal leaves every byte", used);
    count_moved(to, b, used, capacity);
    return a;
}
