/* Groups of cases about moving a record from one form to the other, and about records as long as they can be. */
#include <string.h>

#include "../common/cases.h"
#include "kinds.h"
#include "made.h"

static uint8_t start[ROOM];
static entry_place before[MOST_ENTRIES], after[MOST_ENTRIES];

/* ---- there and back */

/* `moved` has the entries of `start` at their places: the same frames, requests and counts, and in form 2 no known bits. */
static void judge_kept(uint32_t from, size_t used, size_t moved_used)
{
    long entries = reference_read(from, start, used, before), same = reference_read(3 - from, moved, moved_used, after);
    judge(entries == same, "move: as many entries", used);
    for (long k = 0; k < entries && k < same; k++) {
        const entry_place *b = &before[k], *a = &after[k];
        judge(b->length == a->length && b->request == a->request && b->count == a->count && a->bits == UNKNOWN
              && memcmp(start + b->start, moved + a->start, b->length) == 0, "move: each entry at its place", used);
    }
}

static int all_unknown(long entries)
{
    long k = 0;
    while (k < entries && before[k].bits == UNKNOWN)
        k++;
    return k == entries;
}

/* What comes back are the same bytes, but where the bits of form 2 were known. */
static void judge_back(uint32_t from, size_t used)
{
    long entries = reference_read(from, start, used, before);
    int same = memcmp(start, moved, used) == 0;
    judge(same == all_unknown(entries), "there and back: the same bytes exactly where all bits were unknown", used);
    met(entries == 0 ? BACK_EMPTY : from == 1 ? BACK_TO_FORM_1 : same ? BACK_TO_FORM_2 : BACK_WITHOUT_BITS);
}

/* The record in `ours` moved there and back, into buffers with room for any. It stands in `ours` afterwards. */
static void there_and_back(uint32_t from, size_t used)
{
    memcpy(start, ours, used);
    silberlaus_added there = both_move(3 - from, used, ROOM);
    if (there.number == 0) {
        judge_kept(from, used, there.used);
        memcpy(ours, moved, there.used);
        silberlaus_added back = both_move(from, there.used, used);
        judge(back.number == 0 && back.used == used, "there and back: the same length", used);
        judge_back(from, used);
        memcpy(ours, start, used);
    }
}

/* Into buffers of all lengths that matter: none, one short, just enough, one more, and more. */
static void move_into_all(uint32_t from, size_t entries, size_t used)
{
    size_t grown = 2 * entries + 1, length = from == 1 ? used + grown : used - grown;
    both_move(3 - from, used, 0);
    both_move(3 - from, used, length - 1);
    both_move(3 - from, used, length);
    both_move(3 - from, used, length + 1);
    both_move(3 - from, used, length + 100);
    both_move(from, used, ROOM); /* it is no record of the other form */
}

static void forget_bits(size_t entries)
{
    for (size_t k = 0; k < entries; k++)
        list[k].bits = UNKNOWN;
}

static void random_moves(void)
{
    for (unsigned round = 0; round < 600; round++) {
        size_t entries = round % 3 == 0 ? below(4) : below(40);
        list_some(entries, below(3) ? 40 : 400);
        if (round % 5 == 0)
            forget_bits(entries);
        for (uint32_t form = 1; form <= 2; form++) {
            size_t used = write_both(form, entries);
            both_read(used);
            move_into_all(form, entries, used);
            there_and_back(form, used);
        }
    }
    group_ends("1,200 records moved, there and back, into buffers one short, exact and longer");
}

static void nothing_moved(void)
{
    static uint8_t out[8];
    judge(silberlaus_record_to_form_2(NULL, 0, out, sizeof out).number == 7, "to form 2: no bytes", 0);
    judge(silberlaus_record_to_form_1(NULL, 0, out, sizeof out).number == 7, "to form 1: no bytes", 0);
    judge(silberlaus_record_to_form_2(NULL, 0, NULL, 0).number == 7, "to form 2: 7 before 6", 0);
    judge(silberlaus_record_to_form_1(NULL, 0, NULL, 0).number == 7, "to form 1: 7 before 6", 0);
    for (uint32_t form = 1; form <= 2; form++) {
        size_t used = write_both(form, 0);
        uint8_t number = (form == 1 ? silberlaus_record_to_form_2 : silberlaus_record_to_form_1)(ours, used, NULL, 0).number;
        judge(number == 6, "move: no bytes to move into", used);
        both_move(3 - form, used - 1, 0);
        both_move(3 - form, used - 1, 100);
        move_into_all(form, 0, used);
        there_and_back(form, used);
    }
    group_ends("moving nothing and into nothing, and 7 before 6");
}

/* ---- at 65,536 bytes */

/* A form 1 record of so many entries that has this length once it is moved. Its length. */
static size_t write_growing(size_t entries, size_t length)
{
    list_total(entries, frames_in(2, entries, length));
    return write_both(1, entries);
}

/* From the fewest entries that such a record can have to the most. */
static void growing_to_the_largest(void)
{
    static const size_t numbers[] = {162, 163, 200, 1000, 2519, 2520};
    for (size_t i = 0; i < COUNT(numbers); i++) {
        size_t used = write_growing(numbers[i], LARGEST);
        judge(both_move(2, used, LARGEST).used == LARGEST, "moved to exactly 65,536 bytes", used);
        judge(both_move(2, used, LARGEST - 1).number == 6, "into a buffer of 65,535", used);
        judge(both_move(2, used, ROOM).used == LARGEST, "moved to exactly 65,536 bytes of a longer buffer", used);
        there_and_back(1, used);
        used = write_growing(numbers[i], LARGEST + 1);
        judge(both_move(2, used, LARGEST).number == 6, "65,537 bytes into a buffer of 65,536", used);
        judge(both_move(2, used, LARGEST + 1).number == 6, "65,537 bytes into as long a buffer", used);
        judge(both_move(2, used, ROOM).number == 6, "65,537 bytes into a longer buffer", used);
        both_read(used);
    }
    group_ends("form 1 records that grow to exactly 65,536 bytes, and to 65,537");
}

/* A record of exactly 65,536 bytes, and one in order but for its 65,537, which every call refuses. */
static void at_the_largest(uint32_t form, size_t entries)
{
    list_total(entries, frames_in(form, entries, LARGEST));
    size_t used = write_both(form, entries);
    judge(used == LARGEST && silberlaus_record_entries(form, ours, used).entries == entries, "exactly 65,536 bytes", used);
    both_read(used);
    judge(both_move(3 - form, used, ROOM).number == (form == 1 ? 6 : 0), "65,536 bytes moved", used);
    there_and_back(form, used);
    both_add(ROOM, used, 20, 0, 0, 0, 20);
    list_total(entries, frames_in(form, entries, LARGEST + 1));
    used = write_both(form, entries);
    both_read(used);
    judge(both_move(3 - form, used, ROOM).number == 7, "65,537 bytes moved", used);
    judge(both_add(ROOM, used, 20, 0, 0, 0, 20).number == 1, "65,537 bytes added to", used);
    met(TOO_LONG);
}

static void largest(void)
{
    static const size_t numbers[] = {162, 1000, 2520};
    for (size_t i = 0; i < COUNT(numbers); i++) {
        at_the_largest(1, i == 2 ? MOST_ENTRIES : numbers[i] + 1);
        at_the_largest(2, numbers[i]);
    }
    list_some(MOST_ENTRIES + 1, 20);
    size_t used = write_both(1, MOST_ENTRIES + 1);
    both_read(used);
    judge(both_move(2, used, ROOM).number == 7, "2,731 entries moved", used);
    group_ends("records of exactly 65,536 bytes, and in order but for their 65,537");
}

void move_groups(void)
{
    nothing_moved();
    random_moves();
    growing_to_the_largest();
    largest();
}
