/* What the files of this test share: counted expectations, buffers that are lent between guards, and a slot and a record
   to start from. */
#ifndef CHECK_H
#define CHECK_H

#include "silberlaus.h"

#define COUNT(a) (sizeof(a) / sizeof(a)[0])

/* Counts an expectation, and shows a wrong one with its place. */
#define EXPECT(right) expect((right) ? 1 : 0, #right, __FILE__, __LINE__)
void expect(int right, const char *text, const char *file, int line);

/* A buffer to lend, with known bytes on both sides and a copy of what was lent. */
enum { GUARD = 32, ROOM = SILBERLAUS_RECORD_MAX + 64 };
typedef struct { _Alignas(16) uint8_t bytes[GUARD + ROOM + GUARD]; uint8_t before[ROOM]; size_t length; } buffer;

/* The buffer's first byte, with `length` bytes copied in; NULL where the length is 0. */
uint8_t *lend(buffer *b, const uint8_t *from, size_t length);

/* What was lent holds these bytes, or is as it was lent; and the bytes on both sides are as they were. */
int holds(const buffer *b, const uint8_t *bytes);
int untouched(const buffer *b);
int guards_hold(const buffer *b);

/* The slot of a fixed frame, 80 bytes in mode 3 with request 2; its words, and the semi-octets that can be repaired. */
enum { SIZE = 80, MODE = 3, REQUEST = 2, FRAME_SIZE = 53, WORDS = 11, REPAIRABLE = 2 };
extern uint8_t frame[FRAME_SIZE], slot[SIZE];

/* Forms of a record that are none; some are 1 or 2 once they are narrowed. */
enum { NO_FORMS = 8 };
extern const uint32_t no_forms[NO_FORMS];

/* Changes `changes` semi-octets of word i of a slot, each in two bits. */
enum { BITS_EACH = 2 };
void damage(uint8_t *bytes, size_t size, size_t i, unsigned changes);

/* A slot whose words are valid, one of them taken from the slot of another frame: 4. */
void make_foreign(uint8_t *foreign);

/* Puts a word of these 80 bytes beyond repair: 3. Whether it could. */
int make_hopeless(uint8_t *bytes);

/* A frame in hex, and the fields that are right for it; from the first refused one on they are refused. */
typedef struct { uint32_t khz, quarters; const char *hex; silberlaus_frame fields; } sample;
enum { FIRST_REFUSED = 8, SAMPLES = 16, FRAME_FIELDS = 24 };
extern const sample samples[SAMPLES];
size_t sample_bytes(const sample *s, uint8_t *bytes);

/* Where each field of silberlaus_frame is, and how wide. */
struct frame_field { size_t at, width; };
extern const struct frame_field frame_fields[FRAME_FIELDS];

/* The groups of cases. */
void slot_calls(void);
void batch_calls(void);
void frame_calls(void);
void write_calls(void);
void record_calls(void);
void layouts(void);
void stacks(void);

#endif
