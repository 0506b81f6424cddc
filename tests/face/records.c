/* The record's calls: new, which refuses with the form's 1, then 6; entries, with the form's 1, then 7; entry, with the
   form's 1, 7, then the place's 1; add, with 1, 7, then 6; both moves, with 7, then 6. */
#include <string.h>

#include "check.h"

static buffer lent, from;
static uint8_t frames[ROOM], bytes[ROOM];

/* A record of two entries of 20 and 21 bytes: its used length in either form. */
enum { TWO_USED_1 = 4 + (20 + 4) + (21 + 4), TWO_USED = 5 + (20 + 6) + (21 + 6) };
static const size_t two_used[] = {0, TWO_USED_1, TWO_USED};

/* It is put into `bytes`: in form 2 by additions, in form 1 by a move of that. */
static void make_two(uint32_t form)
{
    static uint8_t made[ROOM];
    memset(bytes, 0x77, ROOM);
    EXPECT(silberlaus_record_new(2, bytes, ROOM) == SILBERLAUS_ACCEPTED);
    size_t used = silberlaus_record_add(bytes, ROOM, SILBERLAUS_RECORD_MIN_2, frames, 20, 1, 162, 648, 20).used;
    used = silberlaus_record_add(bytes, ROOM, used, frames + 20, 21, 3, 0, SILBERLAUS_BITS_UNKNOWN, 21).used;
    EXPECT(used == TWO_USED);
    if (form == 2)
        return;
    memcpy(made, bytes, ROOM);
    memset(bytes, 0x77, ROOM);
    EXPECT(silberlaus_record_to_form_1(made, TWO_USED, bytes, ROOM).used == TWO_USED_1);
}

static void new_is(uint32_t form, size_t capacity, uint8_t number)
{
    static const uint8_t empty[3][8] = {{0}, {0, 0, 0, 0, 0xee, 0xee, 0xee, 0xee}, {0, 0, 0, 0, 2, 0xee, 0xee, 0xee}};
    uint8_t junk[8];
    memset(junk, 0xee, sizeof junk);
    uint8_t *buffer = lend(&lent, junk, capacity);
    EXPECT(silberlaus_record_new(form, buffer, capacity) == number);
    EXPECT(number == SILBERLAUS_ACCEPTED ? holds(&lent, empty[form]) : untouched(&lent));
}

static void new(void)
{
    for (size_t capacity = 0; capacity <= 8; capacity++) {
        new_is(1, capacity, capacity < SILBERLAUS_RECORD_MIN_1 ? SILBERLAUS_NO_ROOM : SILBERLAUS_ACCEPTED);
        new_is(2, capacity, capacity < SILBERLAUS_RECORD_MIN_2 ? SILBERLAUS_NO_ROOM : SILBERLAUS_ACCEPTED);
        for (size_t k = 0; k < NO_FORMS; k++)
            new_is(no_forms[k], capacity, SILBERLAUS_BAD_SETTING);
    }
}

static void entries_are(uint32_t form, size_t used, uint8_t number, uint32_t entries)
{
    silberlaus_entries e = silberlaus_record_entries(form, lend(&lent, bytes, used), used);
    EXPECT(e.number == number);
    EXPECT(e.entries == entries);
    EXPECT(untouched(&lent));
}

static void entries(uint32_t form)
{
    size_t two = two_used[form];
    make_two(form);
    entries_are(form, two, SILBERLAUS_ACCEPTED, 2);
    entries_are(3 - form, two, SILBERLAUS_NOT_A_RECORD, 0);
    for (size_t used = 0; used < two; used++)
        entries_are(form, used, SILBERLAUS_NOT_A_RECORD, 0);
    for (size_t k = 0; k < NO_FORMS; k++) {
        entries_are(no_forms[k], two, SILBERLAUS_BAD_SETTING, 0);
        entries_are(no_forms[k], two - 1, SILBERLAUS_BAD_SETTING, 0);
    }
    bytes[two - 1] = 3;
    entries_are(form, two, SILBERLAUS_NOT_A_RECORD, 0);
    memset(bytes, 0, ROOM);
    entries_are(form, SILBERLAUS_RECORD_MAX + 1, SILBERLAUS_NOT_A_RECORD, 0);
    entries_are(1, SILBERLAUS_RECORD_MIN_1, SILBERLAUS_ACCEPTED, 0);
    entries_are(2, SILBERLAUS_RECORD_MIN_2, SILBERLAUS_NOT_A_RECORD, 0);
    bytes[SILBERLAUS_RECORD_MIN_2 - 1] = 2;
    entries_are(2, SILBERLAUS_RECORD_MIN_2, SILBERLAUS_ACCEPTED, 0);
}

static void entry_is(uint32_t form, size_t used, size_t place, silberlaus_entry want)
{
    silberlaus_entry e = silberlaus_record_entry(form, lend(&lent, bytes, used), used, place);
    EXPECT(e.number == want.number);
    EXPECT(e.request == want.request);
    EXPECT(e.count == want.count);
    EXPECT(e.length == want.length);
    EXPECT(e.bits == want.bits);
    EXPECT(e.start == want.start);
    EXPECT(untouched(&lent));
}

static void entry(uint32_t form)
{
    static const silberlaus_entry not_a_record = {.number = SILBERLAUS_NOT_A_RECORD}, bad = {.number = SILBERLAUS_BAD_SETTING};
    size_t used = two_used[form], second = 20 + (form == 1 ? SILBERLAUS_ENTRY_OVERHEAD_1 : SILBERLAUS_ENTRY_OVERHEAD_2);
    uint16_t bits = form == 1 ? SILBERLAUS_BITS_UNKNOWN : SILBERLAUS_BITS_MAX;
    make_two(form);
    entry_is(form, used, 0, (silberlaus_entry){SILBERLAUS_ACCEPTED, 1, 162, 20, bits, 0});
    entry_is(form, used, 1, (silberlaus_entry){SILBERLAUS_ACCEPTED, 3, 0, 21, SILBERLAUS_BITS_UNKNOWN, (uint32_t)second});
    EXPECT(memcmp(bytes + second, frames + 20, 21) == 0);
    entry_is(form, used, 2, bad);
    entry_is(form, used, SIZE_MAX, bad);
    entry_is(form, used, (size_t)1 << 32, bad);
    /* 7 before the place's 1 */
    entry_is(form, used - 1, 0, not_a_record);
    entry_is(form, used - 1, 9, not_a_record);
    entry_is(3 - form, used, 9, not_a_record);
    entry_is(form, 0, 0, not_a_record);
    entry_is(form, SILBERLAUS_RECORD_MAX + 1, SIZE_MAX, not_a_record);
    /* the form's 1 before 7 */
    for (size_t k = 0; k < NO_FORMS; k++) {
        entry_is(no_forms[k], used, 0, bad);
        entry_is(no_forms[k], used - 1, 9, bad);
    }
}

/* An addition to the first `used` bytes, and the number wanted. */
typedef struct { size_t capacity, used, frame_len; uint32_t request, count, bits, length; uint8_t number; } addition;

static const addition additions[] = {
    {200, TWO_USED, 20, 3, 162, 648, 20, SILBERLAUS_ACCEPTED},
    {200, TWO_USED, 20, 3, 162, 162, 20, SILBERLAUS_ACCEPTED},
    {200, TWO_USED, 20, 3, 5, 0xffff, 20, SILBERLAUS_ACCEPTED},
    {TWO_USED + 26, TWO_USED, 20, 0, 0, 0, 20, SILBERLAUS_ACCEPTED},
    {500, TWO_USED, 400, 2, 7, 15, 400, SILBERLAUS_ACCEPTED},
    {200, TWO_USED, 20, 4, 0, 0, 20, SILBERLAUS_BAD_SETTING},
    {200, TWO_USED, 20, 256 + 3, 0, 0, 20, SILBERLAUS_BAD_SETTING},
    {200, TWO_USED, 20, 0, 163, 163, 20, SILBERLAUS_BAD_SETTING},
    {200, TWO_USED, 20, 0, 256 + 5, 5, 20, SILBERLAUS_BAD_SETTING},
    {200, TWO_USED, 20, 0, 0, 1, 20, SILBERLAUS_BAD_SETTING},
    {200, TWO_USED, 20, 0, 5, 4, 20, SILBERLAUS_BAD_SETTING},
    {200, TWO_USED, 20, 0, 5, 21, 20, SILBERLAUS_BAD_SETTING},
    {200, TWO_USED, 20, 0, 162, 649, 20, SILBERLAUS_BAD_SETTING},
    {200, TWO_USED, 20, 0, 162, 65534, 20, SILBERLAUS_BAD_SETTING},
    {200, TWO_USED, 20, 0, 5, 65536 + 5, 20, SILBERLAUS_BAD_SETTING},
    {200, TWO_USED, 20, 0, 5, 65536 + 65535, 20, SILBERLAUS_BAD_SETTING},
    {200, TWO_USED, 20, 0, 5, 4294967295u, 20, SILBERLAUS_BAD_SETTING},
    {200, TWO_USED, 19, 0, 0, 0, 19, SILBERLAUS_BAD_SETTING},
    {999, TWO_USED, 401, 0, 0, 0, 401, SILBERLAUS_BAD_SETTING},
    {200, TWO_USED, 20, 0, 0, 0, 65536 + 20, SILBERLAUS_BAD_SETTING},
    {200, TWO_USED, 21, 0, 0, 0, 20, SILBERLAUS_BAD_SETTING},
    {200, TWO_USED, 0, 0, 0, 0, 20, SILBERLAUS_BAD_SETTING},
    /* 1 before 7: the used bytes are no record either */
    {60, 61, 20, 0, 0, 0, 20, SILBERLAUS_BAD_SETTING},
    {ROOM, SILBERLAUS_RECORD_MAX + 1, 20, 0, 0, 0, 20, SILBERLAUS_BAD_SETTING},
    {200, TWO_USED - 1, 20, 4, 0, 0, 20, SILBERLAUS_BAD_SETTING},
    {200, TWO_USED - 1, 20, 0, 2, 1, 20, SILBERLAUS_BAD_SETTING},
    {0, 1, 20, 0, 0, 0, 20, SILBERLAUS_BAD_SETTING},
    /* 1 before 6 */
    {TWO_USED, TWO_USED, 20, 4, 0, 0, 20, SILBERLAUS_BAD_SETTING},
    {TWO_USED, TWO_USED, 20, 0, 2, 9, 20, SILBERLAUS_BAD_SETTING},
    {200, TWO_USED - 1, 20, 0, 0, 0, 20, SILBERLAUS_NOT_A_RECORD},
    {200, 0, 20, 0, 0, 0, 20, SILBERLAUS_NOT_A_RECORD},
    {0, 0, 20, 0, 0, 0, 20, SILBERLAUS_NOT_A_RECORD},
    /* 7 before 6 */
    {TWO_USED - 1, TWO_USED - 1, 20, 0, 0, 0, 20, SILBERLAUS_NOT_A_RECORD},
    {ROOM, SILBERLAUS_RECORD_MAX, 20, 0, 0, 0, 20, SILBERLAUS_NOT_A_RECORD},
    {TWO_USED, TWO_USED, 20, 0, 0, 0, 20, SILBERLAUS_NO_ROOM},
    {TWO_USED + 25, TWO_USED, 20, 0, 0, 0, 20, SILBERLAUS_NO_ROOM},
};

/* The bytes of `bytes` with the entry where the old end began, and the new end behind it. */
static const uint8_t *stored(addition a)
{
    static uint8_t after[ROOM];
    uint8_t tail[11] = {(uint8_t)a.request, (uint8_t)a.count, (uint8_t)(a.bits >> 8), (uint8_t)a.bits, (uint8_t)(a.length >> 8),
                        (uint8_t)a.length, 0, 0, 0, 3, 2};
    memcpy(after, bytes, ROOM);
    memcpy(after + a.used - 5, frames, a.length);
    memcpy(after + a.used - 5 + a.length, tail, sizeof tail);
    return after;
}

/* The addition to the record in `bytes`. */
static void added_is(addition a)
{
    int accepted = a.number == SILBERLAUS_ACCEPTED;
    uint8_t *buffer = lend(&lent, bytes, a.capacity);
    const uint8_t *frame_in = lend(&from, frames, a.frame_len);
    silberlaus_added got =
        silberlaus_record_add(buffer, a.capacity, a.used, frame_in, a.frame_len, a.request, a.count, a.bits, a.length);
    EXPECT(got.number == a.number);
    EXPECT(got.used == (accepted ? a.used + a.length + 6 : 0));
    EXPECT(untouched(&from));
    EXPECT(accepted ? holds(&lent, stored(a)) : untouched(&lent));
}

static void add(void)
{
    for (size_t k = 0; k < COUNT(additions); k++) {
        make_two(2);
        added_is(additions[k]);
    }
    make_two(1);
    added_is((addition){200, TWO_USED_1, 20, 0, 0, 0, 20, SILBERLAUS_NOT_A_RECORD});
    added_is((addition){TWO_USED_1, TWO_USED_1, 20, 0, 0, 0, 20, SILBERLAUS_NOT_A_RECORD});
}

/* The first `used` of `bytes` are moved into `capacity` bytes: the number, and accepted the record in `want`. */
static void move_is(uint32_t to, size_t used, size_t capacity, uint8_t number, const uint8_t *want, size_t want_used)
{
    static uint8_t after[ROOM], junk[ROOM];
    memset(junk, 0x3c, ROOM);
    memcpy(after, junk, ROOM);
    if (number == SILBERLAUS_ACCEPTED)
        memcpy(after, want, want_used);
    const uint8_t *record = lend(&from, bytes, used);
    uint8_t *out = lend(&lent, junk, capacity);
    silberlaus_added got = (to == 2 ? silberlaus_record_to_form_2 : silberlaus_record_to_form_1)(record, used, out, capacity);
    EXPECT(got.number == number);
    EXPECT(got.used == (number == SILBERLAUS_ACCEPTED ? want_used : 0));
    EXPECT(untouched(&from));
    EXPECT(holds(&lent, after));
}

/* The record of two in that form, all bits unknown: what moving makes. */
static const uint8_t *two_in(uint32_t form)
{
    static uint8_t kept[ROOM];
    make_two(form);
    if (form == 2)
        memset(bytes + 22, 0xff, 2);
    memcpy(kept, bytes, ROOM);
    return kept;
}

static void moves(uint32_t to)
{
    const uint8_t *want = two_in(to);
    size_t used = two_used[3 - to], length = two_used[to];
    make_two(3 - to);
    move_is(to, used, length, SILBERLAUS_ACCEPTED, want, length);
    move_is(to, used, length + 1, SILBERLAUS_ACCEPTED, want, length);
    move_is(to, used, ROOM, SILBERLAUS_ACCEPTED, want, length);
    move_is(to, used, length - 1, SILBERLAUS_NO_ROOM, NULL, 0);
    move_is(to, used, 0, SILBERLAUS_NO_ROOM, NULL, 0);
    move_is(3 - to, used, ROOM, SILBERLAUS_NOT_A_RECORD, NULL, 0);
    /* 7 before 6 */
    for (size_t cut = 0; cut < used; cut++)
        move_is(to, cut, 0, SILBERLAUS_NOT_A_RECORD, NULL, 0);
    move_is(to, SILBERLAUS_RECORD_MAX + 1, 0, SILBERLAUS_NOT_A_RECORD, NULL, 0);
}

/* A record of as many entries as there can be, full to the last byte: the 6 at 65,536 whatever the capacity. */
static void fill(void)
{
    static uint8_t out[ROOM];
    memset(bytes, 0x77, ROOM);
    EXPECT(silberlaus_record_new(2, bytes, ROOM) == SILBERLAUS_ACCEPTED);
    uint32_t used = SILBERLAUS_RECORD_MIN_2;
    for (uint32_t k = 1; k < SILBERLAUS_ENTRIES_MAX_2; k++)
        used = silberlaus_record_add(bytes, ROOM, used, frames, 20, k % 4, k % 163, 2 * (k % 163), 20).used;
    EXPECT(silberlaus_record_add(bytes, ROOM, used, frames, 32, 0, 0, 0, 32).number == SILBERLAUS_NO_ROOM);
    EXPECT(silberlaus_record_add(bytes, ROOM, used, frames, 31, 0, 0, 0, 31).used == SILBERLAUS_RECORD_MAX);
    EXPECT(silberlaus_record_entries(2, bytes, SILBERLAUS_RECORD_MAX).entries == SILBERLAUS_ENTRIES_MAX_2);
    EXPECT(silberlaus_record_entry(2, bytes, SILBERLAUS_RECORD_MAX, SILBERLAUS_ENTRIES_MAX_2 - 1).length == 31);
    EXPECT(bytes[SILBERLAUS_RECORD_MAX] == 0x77);
    EXPECT(silberlaus_record_to_form_1(bytes, SILBERLAUS_RECORD_MAX, out, ROOM).used == SILBERLAUS_RECORD_MAX - 2 * 2520 - 1);
}

/* A form 1 record of as many entries as there can be, 65,536 bytes long, is read, and is too long to be moved. */
static void fill_form_1(void)
{
    static const uint8_t trailer[4] = {3, 162, 0, 20}, last[8] = {3, 162, 0, 32, 0, 0, 0x0a, 0xaa};
    memset(bytes, 0x11, ROOM);
    for (size_t k = 0; k + 1 < SILBERLAUS_ENTRIES_MAX_1; k++)
        memcpy(bytes + 24 * k + 20, trailer, sizeof trailer);
    memcpy(bytes + SILBERLAUS_RECORD_MAX - sizeof last, last, sizeof last);
    EXPECT(silberlaus_record_entries(1, bytes, SILBERLAUS_RECORD_MAX).entries == SILBERLAUS_ENTRIES_MAX_1);
    EXPECT(silberlaus_record_entry(1, bytes, SILBERLAUS_RECORD_MAX, SILBERLAUS_ENTRIES_MAX_1 - 1).length == 32);
    move_is(2, SILBERLAUS_RECORD_MAX, ROOM, SILBERLAUS_NO_ROOM, NULL, 0);
}

/* A form 1 record of 161 frames of 400 bytes and one of `length`, which grows by 325 bytes when it is moved. */
static void grow(uint8_t length, uint8_t number)
{
    static const uint8_t trailer[4] = {0, 0, 1, 0x90};
    static uint8_t out[ROOM];
    uint8_t last[8] = {0, 0, 0, length, 0, 0, 0, 162};
    size_t used = 161 * 404 + length + sizeof last;
    memset(bytes, 0x11, ROOM);
    for (size_t k = 0; k < 161; k++)
        memcpy(bytes + 404 * k + 400, trailer, sizeof trailer);
    memcpy(bytes + used - sizeof last, last, sizeof last);
    silberlaus_added got = silberlaus_record_to_form_2(bytes, used, out, ROOM);
    EXPECT(got.number == number);
    EXPECT(got.used == (number == SILBERLAUS_ACCEPTED ? used + 325 : 0));
    move_is(2, used, used + 324, SILBERLAUS_NO_ROOM, NULL, 0);
}

void record_calls(void)
{
    for (size_t k = 0; k < ROOM; k++)
        frames[k] = (uint8_t)(13 * k + 5);
    new();
    for (uint32_t form = 1; form <= 2; form++) {
        entries(form);
        entry(form);
        moves(form);
    }
    add();
    fill();
    fill_form_1();
    grow(159, SILBERLAUS_ACCEPTED); /* to 65,536 bytes */
    grow(160, SILBERLAUS_NO_ROOM);
}
