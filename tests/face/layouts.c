/* The structs as the library lays them out, beside the header's. A struct of at most 16 bytes comes back in two registers,
   low bytes first (System V, x86-64). Here each call returns these two, whose bytes are the library's own, and every field
   must stand where the header has it. A larger one is written where the caller says, by a pointer that goes first. */
#include <string.h>

#include "check.h"

_Static_assert(sizeof(silberlaus_unprotected) == 6, "six bytes, one register");
_Static_assert(sizeof(silberlaus_written) == 4, "four bytes, one register");
_Static_assert(sizeof(silberlaus_added) == 8, "eight bytes, one register");
_Static_assert(sizeof(silberlaus_entries) == 8, "eight bytes, one register");
_Static_assert(sizeof(silberlaus_entry) == 12, "twelve bytes, two registers");
_Static_assert(sizeof(silberlaus_frame) == 48, "forty-eight bytes, in memory");

/* The names of the record's sizes, as document 02 has them. */
_Static_assert(SILBERLAUS_BITS_MAX == 648 && SILBERLAUS_BITS_MAX == 4 * SILBERLAUS_SEMI_OCTETS_MAX, "bits");
_Static_assert(SILBERLAUS_BITS_UNKNOWN == 65535, "unknown bits");
_Static_assert(SILBERLAUS_RECORD_MIN_1 == 4 && SILBERLAUS_RECORD_MIN_2 == 5, "records with no entries");
_Static_assert(SILBERLAUS_RECORD_MAX == 65536, "the largest record");
_Static_assert(SILBERLAUS_ENTRY_OVERHEAD_1 == 4 && SILBERLAUS_ENTRY_OVERHEAD_2 == 6, "bytes beside a frame");
_Static_assert(SILBERLAUS_ENTRIES_MAX_1 == 2730 && SILBERLAUS_ENTRIES_MAX_2 == 2520, "entries of 20 bytes");

/* The same functions, returning what is in the two registers. */
typedef struct { uint64_t low, high; } registers;
registers raw_unprotect(size_t, uint32_t, const uint8_t *, size_t, uint8_t *, size_t) __asm__("silberlaus_unprotect");
registers raw_entries(uint32_t, const uint8_t *, size_t) __asm__("silberlaus_record_entries");
registers raw_entry(uint32_t, const uint8_t *, size_t, size_t) __asm__("silberlaus_record_entry");
registers raw_add(uint8_t *, size_t, size_t, const uint8_t *, size_t, uint32_t, uint32_t, uint32_t,
                  uint32_t) __asm__("silberlaus_record_add");
registers raw_to_form_2(const uint8_t *, size_t, uint8_t *, size_t) __asm__("silberlaus_record_to_form_2");
registers raw_to_form_1(const uint8_t *, size_t, uint8_t *, size_t) __asm__("silberlaus_record_to_form_1");
registers raw_write_frame(uint32_t, uint32_t, silberlaus_frame, const int32_t *, size_t, const uint8_t *, size_t, uint8_t *,
                          size_t) __asm__("silberlaus_write_frame");
void *raw_read_frame(void *, uint32_t, uint32_t, const uint8_t *, size_t, int32_t *, size_t, uint8_t *,
                     size_t) __asm__("silberlaus_read_frame");

/* A field of the header: where it is, how wide, and the value that the library gave it. */
typedef struct { size_t at, width; uint64_t value; } field;
#define FIELD(type, name, value) {offsetof(type, name), sizeof ((type *)0)->name, value}

static void fields_are(const void *answer, const field *fields, size_t count)
{
    const uint8_t *bytes = answer;
    for (size_t k = 0; k < count; k++)
        for (size_t j = 0; j < fields[k].width; j++)
            EXPECT(bytes[fields[k].at + j] == (uint8_t)(fields[k].value >> 8 * j));
}

#define ARE(answer, ...) fields_are(&(answer), (const field[]){__VA_ARGS__}, COUNT(((const field[]){__VA_ARGS__})))

/* The largest slot with as many changes as can be repaired: the bits then take more than one byte. */
static void unprotected(void)
{
    typedef silberlaus_unprotected S;
    enum { LARGEST = SILBERLAUS_SLOT_MAX, STRONGEST = SILBERLAUS_MODE_MAX, MOST = SILBERLAUS_SEMI_OCTETS_MAX };
    static const uint8_t zeros[SILBERLAUS_SLOT_FRAME_MAX];
    uint8_t received[LARGEST], room[SILBERLAUS_SLOT_FRAME_MAX];
    size_t length = silberlaus_frame_size(LARGEST, STRONGEST);
    EXPECT(silberlaus_protect(LARGEST, STRONGEST, REQUEST, zeros, length, received, LARGEST) == SILBERLAUS_ACCEPTED);
    for (size_t i = 0; i < SILBERLAUS_WORDS_MAX; i++)
        damage(received, LARGEST, i, STRONGEST - 1);
    registers r = raw_unprotect(LARGEST, STRONGEST, received, LARGEST, room, length);
    ARE(r, FIELD(S, number, 0), FIELD(S, request, REQUEST), FIELD(S, semi_octets, MOST), FIELD(S, bits, BITS_EACH * MOST));
    r = raw_unprotect(LARGEST, STRONGEST, received, LARGEST, room, 1);
    ARE(r, FIELD(S, number, SILBERLAUS_BAD_LENGTH), FIELD(S, request, 0), FIELD(S, semi_octets, 0), FIELD(S, bits, 0));
}

static uint8_t record[SILBERLAUS_RECORD_MAX], moved[SILBERLAUS_RECORD_MAX], frames[SILBERLAUS_FRAME_MAX];

/* Entries of 400 bytes, so that the last one starts far on, in form 2 and moved to form 1; its bits take two bytes. */
enum { LONG_ENTRIES = 161, START = (LONG_ENTRIES - 1) * 406, USED = START + 411, START_1 = (LONG_ENTRIES - 1) * 404,
       USED_1 = START_1 + 408, BITS = 0x203 };

static void added(void)
{
    typedef silberlaus_added S;
    registers r = {0, 0};
    size_t used = SILBERLAUS_RECORD_MIN_2;
    EXPECT(silberlaus_record_new(2, record, sizeof record) == SILBERLAUS_ACCEPTED);
    for (uint32_t k = 0; k < LONG_ENTRIES; k++) {
        r = raw_add(record, sizeof record, used, frames, 400, 2, 161, BITS, 400);
        used += 406;
        ARE(r, FIELD(S, number, 0), FIELD(S, used, used));
    }
    r = raw_add(record, sizeof record, used, frames, 400, 2, 161, BITS, 400);
    ARE(r, FIELD(S, number, SILBERLAUS_NO_ROOM), FIELD(S, used, 0));
}

static void moves(void)
{
    typedef silberlaus_added S;
    static uint8_t back[SILBERLAUS_RECORD_MAX];
    registers r = raw_to_form_1(record, USED, moved, sizeof moved);
    ARE(r, FIELD(S, number, 0), FIELD(S, used, USED_1));
    r = raw_to_form_2(moved, USED_1, back, sizeof back);
    ARE(r, FIELD(S, number, 0), FIELD(S, used, USED));
    r = raw_to_form_1(record, USED, back, USED_1 - 1);
    ARE(r, FIELD(S, number, SILBERLAUS_NO_ROOM), FIELD(S, used, 0));
    r = raw_to_form_2(record, USED, back, sizeof back);
    ARE(r, FIELD(S, number, SILBERLAUS_NOT_A_RECORD), FIELD(S, used, 0));
}

static void entries(void)
{
    typedef silberlaus_entries S;
    registers r = raw_entries(2, record, USED);
    ARE(r, FIELD(S, number, 0), FIELD(S, entries, LONG_ENTRIES));
    r = raw_entries(1, moved, USED_1);
    ARE(r, FIELD(S, number, 0), FIELD(S, entries, LONG_ENTRIES));
    r = raw_entries(2, record, USED - 1);
    ARE(r, FIELD(S, number, SILBERLAUS_NOT_A_RECORD), FIELD(S, entries, 0));
}

static void entry(void)
{
    typedef silberlaus_entry S;
    registers r = raw_entry(2, record, USED, LONG_ENTRIES - 1);
    ARE(r, FIELD(S, number, 0), FIELD(S, request, 2), FIELD(S, count, 161), FIELD(S, length, 400), FIELD(S, bits, BITS),
        FIELD(S, start, START));
    r = raw_entry(1, moved, USED_1, LONG_ENTRIES - 1);
    ARE(r, FIELD(S, number, 0), FIELD(S, request, 2), FIELD(S, count, 161), FIELD(S, length, 400),
        FIELD(S, bits, SILBERLAUS_BITS_UNKNOWN), FIELD(S, start, START_1));
    r = raw_entry(2, record, USED, LONG_ENTRIES);
    ARE(r, FIELD(S, number, SILBERLAUS_BAD_SETTING), FIELD(S, request, 0), FIELD(S, count, 0), FIELD(S, length, 0),
        FIELD(S, bits, 0), FIELD(S, start, 0));
}

/* The library writes the struct's bytes and none beside them, and every field where the header has it. */
static void frame_of(const sample *s, uint8_t paint)
{
    static int32_t spectrum[SILBERLAUS_LINES_MAX];
    static uint8_t residual[SILBERLAUS_LINES_MAX];
    struct { uint8_t before[GUARD]; silberlaus_frame answer; uint8_t after[GUARD]; } room;
    uint8_t bytes[SILBERLAUS_FRAME_MAX];
    size_t length = sample_bytes(s, bytes), lines = silberlaus_line_count(s->khz, s->quarters);
    memset(&room, paint, sizeof room);
    void *given = raw_read_frame(&room.answer, s->khz, s->quarters, bytes, length, spectrum, lines, residual, lines);
    EXPECT(given == &room.answer);
    for (size_t k = 0; k < GUARD; k++)
        EXPECT(room.before[k] == paint && room.after[k] == paint);
    for (size_t k = 0; k < FRAME_FIELDS; k++) {
        size_t at = frame_fields[k].at;
        EXPECT(memcmp((uint8_t *)&room.answer + at, (const uint8_t *)&s->fields + at, frame_fields[k].width) == 0);
    }
}

/* The most residual bits, which take more than one byte. That the fields are taken where the header has them is seen where the
   samples are written again (writing.c): a struct that is given stands on the stack, whole. */
static void written(void)
{
    typedef silberlaus_written S;
    enum { LINES = SILBERLAUS_LINES_MAX };
    static int32_t spectrum[LINES];
    static const uint8_t residual[LINES];
    const silberlaus_frame fields = {.last_line = LINES, .residual_bits = LINES};
    uint8_t room[SILBERLAUS_FRAME_MAX];
    for (size_t k = 0; k < LINES; k++)
        spectrum[k] = 1;
    registers r = raw_write_frame(48, 40, fields, spectrum, LINES, residual, LINES, room, SILBERLAUS_FRAME_MAX);
    ARE(r, FIELD(S, number, 0), FIELD(S, residual_bits, LINES));
    r = raw_write_frame(48, 40, fields, spectrum, LINES, residual, LINES, room, SILBERLAUS_FRAME_MIN);
    ARE(r, FIELD(S, number, SILBERLAUS_FRAME_TOO_SMALL), FIELD(S, residual_bits, 0));
}

void layouts(void)
{
    for (size_t k = 0; k < SAMPLES; k++) {
        frame_of(&samples[k], 0x00);
        frame_of(&samples[k], 0xff);
    }
    unprotected();
    written();
    added();
    moves();
    entries();
    entry();
}
