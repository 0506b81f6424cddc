/* Runs the compiled record (include/silberlaus.h) in both its forms on the cases of form2.txt and against reference.c:
   answers, the bytes in and around every buffer that is lent, on boundaries, thousands of random additions and moves,
   damaged bytes and full records.

     check [SEED [FOLDER]]    FOLDER: where form2.txt stands (tests/record)

   A line for each group says how many cases it had, and a table at the end how often each kind of case was reached. It
   ends with status 1 at the end of the first group with a wrong answer, or where a kind was never reached. */
#include <string.h>

#include "../common/cases.h"
#include "kinds.h"
#include "made.h"

/* Out of range; some are 1 or 2 once they are narrowed to 8, 16 or 31 bits. */
static const uint32_t no_forms[] = {0, 3, 4, 255, 256, 257, 258, 65536, 65537, 65538, 0x80000001, 0x80000002, 0xffffffff};

/* ---- nothing lent, new records, forms */

static void nothing_lent(void)
{
    for (uint32_t form = 1; form <= 2; form++) {
        judge(silberlaus_record_new(form, NULL, 0) == 6, "new: no buffer", 0);
        judge(silberlaus_record_entries(form, NULL, 0).number == 7, "entries: no bytes", 0);
        judge(silberlaus_record_entry(form, NULL, 0, 0).number == 7, "entry: no bytes", 0);
    }
    judge(silberlaus_record_new(3, NULL, 0) == 1, "new: no form and no buffer", 0);
    judge(silberlaus_record_entries(0, NULL, 0).number == 1, "entries: no form and no bytes", 0);
    judge(silberlaus_record_entry(3, NULL, 0, 0).number == 1, "entry: no form and no bytes", 0);
    judge(silberlaus_record_add(NULL, 0, 0, frame, 20, 0, 0, 0, 20).number == 7, "add: no bytes", 0);
    judge(silberlaus_record_add(NULL, 0, 0, NULL, 0, 0, 0, 0, 20).number == 1, "add: no bytes and no frame", 0);
    group_ends("no bytes at all");
}

static void new_records(void)
{
    for (size_t capacity = 0; capacity <= 9; capacity++) {
        for (uint32_t form = 1; form <= 2; form++) {
            both_full_of(0xa5);
            judge(both_new(form, capacity) == (capacity < 3 + form ? 6 : 0), "new: room", capacity);
        }
        for (size_t f = 0; f < COUNT(no_forms); f++)
            judge(both_new(no_forms[f], capacity) == 1, "new: no form, whatever the buffer", capacity);
    }
    group_ends("new: both forms and no form, capacities 0 to 9");
}

/* The form is judged before the bytes and the place: on a record of either form, on one cut short, and on none. */
static void forms(void)
{
    for (uint32_t form = 1; form <= 2; form++) {
        list_some(3, 30);
        size_t used = write_both(form, 3);
        both_read(used);
        for (size_t f = 0; f < COUNT(no_forms); f++) {
            both_read_as(no_forms[f], used);
            both_read_as(no_forms[f], used - 1);
            both_read_as(no_forms[f], 0);
            judge(silberlaus_record_entry(no_forms[f], ours, used, 1).number == 1, "entry: no form", used);
        }
    }
    group_ends("entries, entry: forms that are none, on records and on other bytes");
}

/* ---- settings of an addition */

/* A frame of the length named, one byte shorter and one longer, whatever the other settings are. */
static void settings_at(uint32_t length, uint32_t request, uint32_t count)
{
    size_t lent = length > 402 ? 20 : length;
    for (size_t frame_len = lent == 0 ? 0 : lent - 1; frame_len <= lent + 1; frame_len++) {
        both_new(2, 1000);
        both_add(1000, 5, frame_len, request, count, UNKNOWN, length);
        both_new(2, 1000);
        both_add(1000, 5, frame_len, request, count, count, length);
    }
}

static void settings(void)
{
    static const uint32_t lengths[] = {0, 19, 20, 21, 255, 256, 276, 400, 401, 65556, 0xffffffff};
    static const uint32_t requests[] = {0, 1, 2, 3, 4, 255, 256, 259, 0xffffffff};
    static const uint32_t counts[] = {0, 1, 162, 163, 255, 256, 261, 418, 0xffffffff};
    both_full_of(7);
    for (size_t l = 0; l < COUNT(lengths); l++)
        for (size_t r = 0; r < COUNT(requests); r++)
            for (size_t c = 0; c < COUNT(counts); c++)
                settings_at(lengths[l], requests[r], counts[c]);
    group_ends("add: lengths, requests and counts in range and out, frames not of their length");
}

static void bits_at(uint32_t count, uint32_t bits)
{
    both_new(2, 60);
    silberlaus_added a = both_add(60, 5, 20, 1, count, bits, 20);
    int in_range = bits == 65535 || (count <= bits && bits <= 4 * count && bits <= 648);
    judge(a.number == (in_range ? 0 : 1), "add: bits in range and no others", bits);
    both_read_as(2, a.number == 0 ? a.used : 5);
}

/* Every count with every number of bits up to one that no count has, and with those around unknown and above 16 bits. */
static void all_bits(void)
{
    static const uint32_t wide[] = {1000, 32767, 32768, 65533, 65534, 65535, 65536, 65536 + 5, 65536 + 648, 65536 + 65535,
                                    0x7fffffff, 0x80000000, 0xffff0000, 0xffffffff};
    both_full_of(0);
    for (uint32_t count = 0; count <= 162; count++) {
        for (uint32_t bits = 0; bits <= 652; bits++)
            bits_at(count, bits);
        for (size_t w = 0; w < COUNT(wide); w++)
            bits_at(count, wide[w]);
        bits_at(count, 65536 + count);
        bits_at(count, 0x80000000 + count);
    }
    group_ends("add: every count with bits in and out of range, unknown, and above 16 bits");
}

static void room_in_the_buffer(void)
{
    for (size_t capacity = 0; capacity < 60; capacity++) {
        both_full_of(9);
        both_new(2, 60);
        silberlaus_added a = both_add(capacity, 5, 20, 3, 162, 162, 20);
        judge(a.number == (capacity < 5 ? 1 : capacity < 31 ? 6 : 0), "room in the buffer", 5);
    }
}

static void order_of_refusals(void)
{
    both_full_of(9); /* nine everywhere is no record */
    judge(both_add(100, 60, 20, 4, 0, 0, 20).number == 1, "1 before 7: request", 60);
    judge(both_add(100, 60, 20, 0, 0, 1, 20).number == 1, "1 before 7: bits", 60);
    judge(both_add(60, 60, 20, 0, 0, 0, 20).number == 7, "7 before 6", 60);
    judge(both_add(60, 61, 20, 0, 0, 0, 20).number == 1, "used above the buffer before 7", 61);
    judge(both_add(ROOM, LARGEST + 1, 20, 0, 0, 0, 20).number == 1, "used above 65,536 before 7", LARGEST + 1);
    judge(both_add(ROOM, LARGEST, 20, 0, 0, 0, 20).number == 7, "used at 65,536", LARGEST);
    judge(both_add(100, SIZE_MAX, 20, 0, 0, 0, 20).number == 1, "used huge", SIZE_MAX);
    judge(both_add(100, 0, 20, 0, 0, 0, 20).number == 7, "nothing used", 0);
    both_new(2, 5);
    judge(both_add(5, 5, 20, 0, 2, 1, 20).number == 1, "1 before 6: bits", 5);
    judge(both_add(5, 5, 20, 0, 163, UNKNOWN, 20).number == 1, "1 before 6: count", 5);
    room_in_the_buffer();
    group_ends("add: refusals in their order, 1, then 7, then 6");
}

/* A record of form 1 is never added to, and stays. */
static void added_to_form_1(void)
{
    for (size_t entries = 0; entries < 30; entries++) {
        list_some(entries, 60);
        size_t used = write_both(1, entries);
        judge(both_add(ROOM, used, 20, 0, 0, 0, 20).number == 7, "add: a form 1 record", used);
        judge(both_add(used, used, 20, 0, 0, UNKNOWN, 20).number == 7, "add: a form 1 record, and no room", used);
        both_read(used);
    }
    group_ends("add: to records of form 1");
}

/* ---- ends and fields that are out of range */

/* The record of the list's first entries with that end number and, in form 2, that last byte. */
static void end_at(uint32_t form, size_t entries, uint32_t number, uint8_t last)
{
    size_t used = write_both(form, entries), at = used - reference_end(form);
    for (size_t j = 0; j < 4; j++)
        ours[at + j] = (uint8_t)(number >> (24 - 8 * j));
    if (form == 2)
        ours[used - 1] = last;
    theirs_as_ours();
    both_read(used);
    int right = number == entries && (form == 1 || last == 2);
    judge((silberlaus_record_entries(form, ours, used).number == 0) == right, "the right end only", used);
    both_add(2000, used, 20, 0, 0, 0, 20);
}

static void ends(void)
{
    static const uint32_t numbers[] = {0, 1, 2, 3, 4, 5, 255, 256, 258, 65536, 16777216, 16777217, 0x7fffffff, 0x80000000,
                                       0xffffffff};
    for (size_t entries = 0; entries < 4; entries++) {
        list_some(entries, 40);
        for (size_t i = 0; i < COUNT(numbers); i++) {
            end_at(1, entries, numbers[i], 0);
            end_at(2, entries, numbers[i], 2);
        }
        for (unsigned last = 0; last < 256; last++)
            end_at(2, entries, (uint32_t)entries, (uint8_t)last);
    }
    group_ends("end numbers too small, too large and huge, and every last byte");
}

/* The entry stands at each place of three, among others that are in range. */
static void field_at(entry_place e, int right, int right_in_form_1)
{
    for (size_t place = 0; place < 3; place++) {
        list_some(3, 40);
        e.start = list[place].start;
        list[place] = e;
        size_t used = write_both(2, 3);
        judge((silberlaus_record_entries(2, ours, used).number == 0) == right, "a field of form 2", used);
        both_read(used);
        both_move(1, used, ROOM);
        used = write_both(1, 3);
        judge((silberlaus_record_entries(1, ours, used).number == 0) == right_in_form_1, "a field of form 1", used);
        both_read(used);
        both_move(2, used, ROOM);
    }
}

static void fields(void)
{
    static const uint32_t lengths[] = {0, 19, 20, 400, 401, 512}, counts[] = {0, 1, 161, 162};
    for (uint32_t request = 0; request < 256; request++)
        field_at((entry_place){0, 20, request, 0, 0}, request <= 3, request <= 3);
    for (uint32_t count = 0; count < 256; count++)
        field_at((entry_place){0, 20, 1, count, UNKNOWN}, count <= 162, count <= 162);
    for (size_t l = 0; l < COUNT(lengths); l++) {
        int right = 20 <= lengths[l] && lengths[l] <= 400;
        field_at((entry_place){0, lengths[l], 1, 2, 3}, right, right);
    }
    for (size_t c = 0; c < COUNT(counts); c++)
        for (uint32_t bits = 0; bits <= 660; bits++)
            field_at((entry_place){0, 20, 1, counts[c], bits}, counts[c] <= bits && bits <= 4 * counts[c], 1);
    field_at((entry_place){0, 20, 0, 0, 65534}, 0, 1);
    field_at((entry_place){0, 20, 0, 0, 65535}, 1, 1);
    group_ends("every request and count, lengths and bits, in records of both forms");
}

/* ---- random records */

/* Now and then a setting or a length is out of range, or the used length is not the record's. */
static silberlaus_added random_addition(size_t capacity, size_t used)
{
    random_frame();
    uint32_t length = 20 + below(below(4) ? 40 : 381), request = below(below(20) ? 4 : 6);
    uint32_t count = below(below(20) ? 163 : 170), bits = below(20) ? some_bits(count) : below(700);
    size_t frame_len = below(30) ? length : length + below(3) - 1, told = below(30) ? used : used + below(9) - 4;
    return both_add(capacity, told, frame_len, request, count, bits, length);
}

static void random_additions(void)
{
    for (unsigned round = 0; round < 60; round++) {
        both_full_of((uint8_t)below(256));
        size_t capacity = 5 + below(round % 3 ? 4000 : 69000), used = 5;
        both_new(2, capacity);
        for (unsigned k = 0; k < 80; k++) {
            silberlaus_added a = random_addition(capacity, used);
            used = a.number == 0 ? a.used : used;
            if (k % 9 == 0)
                both_read(used);
        }
        both_read(used);
        both_move(1, used, ROOM);
    }
    group_ends("4,800 random additions, every byte and every entry compared");
}

/* Which byte of the record this is, of so many entries as the list has. */
static situation byte_kind(uint32_t form, size_t used, size_t at, size_t entries)
{
    static entry_place places[MOST_ENTRIES];
    size_t end = used - reference_end(form), k = 0;
    if (at >= end)
        return at == end + 4 ? DAMAGED_FORM : DAMAGED_NUMBER;
    reference_read(form, theirs, used, places);
    while (k + 1 < entries && at >= places[k + 1].start)
        k++;
    size_t behind = at - places[k].start;
    if (behind < places[k].length)
        return DAMAGED_FRAME;
    static const situation in_form_1[] = {DAMAGED_REQUEST, DAMAGED_COUNT, DAMAGED_LENGTH, DAMAGED_LENGTH};
    static const situation in_form_2[] = {DAMAGED_REQUEST, DAMAGED_COUNT, DAMAGED_BITS, DAMAGED_BITS, DAMAGED_LENGTH,
                                          DAMAGED_LENGTH};
    return (form == 1 ? in_form_1 : in_form_2)[behind - places[k].length];
}

/* One byte of the record in `ours` changed, read, moved, added to, and put back. */
static void damage_at(uint32_t form, size_t used, size_t entries, size_t at, uint8_t byte)
{
    situation kind = byte_kind(form, used, at, entries);
    uint8_t old = ours[at];
    met(kind);
    ours[at] = byte;
    if (kind != DAMAGED_FRAME && byte != old && reference_read(form, ours, used, NULL) >= 0)
        met(DAMAGED_UNSEEN);
    both_read(used);
    both_move(3 - form, used, used + 2 * entries + 1);
    theirs[at] = byte;
    if (reference_read(2, ours, used, NULL) < 0)
        both_add(used + 100, used, 20, 0, 0, UNKNOWN, 20);
    ours[at] = theirs[at] = old;
}

/* Every byte changed in one bit, and the bytes beside the frames to any other. */
static void damaged_record(uint32_t form, size_t used, size_t entries)
{
    for (size_t at = 0; at < used; at++) {
        damage_at(form, used, entries, at, (uint8_t)(ours[at] ^ 1u << below(8)));
        if (byte_kind(form, used, at, entries) != DAMAGED_FRAME)
            for (unsigned turn = 0; turn < 6; turn++)
                damage_at(form, used, entries, at, (uint8_t)below(256));
    }
    for (size_t cut = 0; cut < 40 && cut <= used; cut++)
        both_read(used - cut);
}

static void damaged_records(void)
{
    for (unsigned round = 0; round < 40; round++) {
        size_t entries = below(8);
        list_some(entries, 50);
        for (uint32_t form = 1; form <= 2; form++)
            damaged_record(form, write_both(form, entries), entries);
    }
    group_ends("every byte of 80 records damaged, and records cut short");
}

/* Short strings, of which many have a plausible end of one form. */
static void any_bytes(void)
{
    both_full_of(0);
    for (unsigned k = 0; k < 40000; k++) {
        size_t n = below(90), end = 4 + k % 2;
        for (size_t i = 0; i < n; i++)
            ours[i] = (uint8_t)(below(3) ? 0 : below(30));
        if (n >= 31) {
            ours[n - 1] = end == 5 ? 2 : (uint8_t)below(3);
            ours[n - end + 3] = (uint8_t)below(3);
            ours[n - end - 1] = (uint8_t)(20 + below((uint32_t)(n - 24 - end)));
            ours[n - end - 2] = 0;
        }
        both_read(n);
    }
    group_ends("40,000 short strings of bytes");
}

/* ---- a record filled by additions */

static void full_record(size_t capacity)
{
    both_full_of(3);
    both_new(2, capacity);
    size_t used = 5;
    for (uint32_t k = 0; k < SILBERLAUS_ENTRIES_MAX_2 - 1; k++)
        used = silberlaus_record_add(ours, capacity, used, frame, 20, k % 4, k % 163, k % 2 ? k % 163 : 65535, 20).used;
    theirs_as_ours();
    judge(used == 65499, "2,519 entries of 26 bytes", used);
    judge(both_add(capacity, used, 32, 0, 0, 0, 32).number == 6, "one byte too many", used);
    judge(both_add(capacity, used, 31, 3, 1, 4, 31).used == LARGEST, "exactly 65,536 bytes", used);
    both_read(LARGEST);
    judge(silberlaus_record_entries(2, ours, LARGEST).entries == SILBERLAUS_ENTRIES_MAX_2, "2,520 entries", LARGEST);
    judge(both_add(capacity, LARGEST, 20, 0, 0, 0, 20).number == 6, "no room in a full record", LARGEST);
    judge(both_move(1, LARGEST, ROOM).used == LARGEST - 5041, "a full record moved to form 1", LARGEST);
    both_read(LARGEST + 1);
}

static void full_records(void)
{
    full_record(LARGEST);
    full_record(ROOM);
    group_ends("records filled to exactly 65,536 bytes, and no further");
}

int main(int argc, char **argv)
{
    cases_start(argc > 1 ? argv[1] : NULL);
    made_start();
    line_groups(argc > 2 ? argv[2] : "tests/record");
    nothing_lent();
    new_records();
    forms();
    settings();
    all_bits();
    order_of_refusals();
    added_to_form_1();
    ends();
    fields();
    random_additions();
    damaged_records();
    any_bytes();
    full_records();
    move_groups();
    kinds_end();
    cases_end();
    return 0;
}
