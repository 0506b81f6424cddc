/* Silberlaus: the path of LC3plus speech from headset to base and into the night's record (ETSI TS 103 634, Annex A.1 and
   clauses 5.3 and 5.4). A frame is written from its fields; it is protected in a slot; a received slot is corrected and
   gives its frame back; a frame is read into its fields; frames are kept in a session record. What comes back is right, or
   it is refused by number.

   Memory.  All of it is the caller's. No heap, no global state, no lock: calls may run at the same time on different
   buffers. Each pointer is good for the length beside it, and may be NULL only where that length is 0. The buffers of one
   call do not overlap. `spectrum` is aligned for int32_t, `semi_octets` and `bits` for uint16_t; bytes have no alignment.
   Lengths count elements: bytes, or entries of `spectrum`, `semi_octets` and `bits`.

   Answers. Any bytes and any settings may be handed in; settings are 32 bits wide so that 258 is refused and not narrowed
   to 2. A refusal gives its number, zero in every other field (SILBERLAUS_BIT_ERROR its cause too), and leaves every lent
   byte as it was. What is checked first is named first in each list of refusals below. Where a call takes many slots, a slot
   that is refused is part of its answer, and no refusal of the call.

   Linking. target/staticlib/libsilberlaus.a (`rt lib silberlaus`), for x86-64 and its System V calling convention.
   It wants `memcpy` and `memset` of the C library or of your own, and nothing else. It keeps the red zone: a handler that
   runs on the stack of an interrupted call leaves the 128 bytes below its stack pointer alone.

   Stack.   See SILBERLAUS_STACK_* below. No call recurses. */
#ifndef SILBERLAUS_H
#define SILBERLAUS_H

#include <stddef.h>
#include <stdint.h>

#ifdef __cplusplus
extern "C" {
#endif

/* ---- numbers: the field `number`, or the whole answer where that is a uint8_t */

enum {
  SILBERLAUS_ACCEPTED = 0,
  SILBERLAUS_BAD_SETTING = 1,   /* a setting out of range, be it size, mode, rate, duration or form; for the record also its
                                   used length, its entry, a place; for a frame to write also a field, a line, a residual
                                   bit */
  SILBERLAUS_BAD_LENGTH = 2,    /* a lent buffer has not the exact length named */
  SILBERLAUS_BEYOND_REPAIR = 3, /* some code word has no valid word within mode - 1 semi-octets */
  SILBERLAUS_FOREIGN = 4,       /* every word was corrected, and no frame and request make that slot */
  SILBERLAUS_BIT_ERROR = 5,     /* a bit error condition holds in the frame: see the causes */
  SILBERLAUS_NO_ROOM = 6,       /* the record, or the buffer that it is in or moved into, has no room */
  SILBERLAUS_NOT_A_RECORD = 7,  /* the bytes are no record of the form */
  SILBERLAUS_FRAME_TOO_SMALL = 8 /* the fields and the lines need more bits than the frame has */
};

/* ---- causes: the field `cause` beside SILBERLAUS_BIT_ERROR; the first in reading order is given */

enum {
  SILBERLAUS_CAUSE_BANDWIDTH = 1,   /* the bandwidth is above the rate's */
  SILBERLAUS_CAUSE_LAST_LINE = 2,   /* the last line is above the number of lines of the rate and the duration */
  SILBERLAUS_CAUSE_JOINT_INDEX = 3, /* the shape's joint index is too large */
  SILBERLAUS_CAUSE_ARITHMETIC = 4,  /* the arithmetic value is at or above the scaled range */
  SILBERLAUS_CAUSE_ESCAPES = 5,     /* fourteen escapes in a pair */
  SILBERLAUS_CAUSE_CROSSED = 6,     /* the two streams cross, or a byte outside the frame is wanted */
  SILBERLAUS_CAUSE_NO_BITS = 7,     /* fewer than no bits are left for the residual */
  SILBERLAUS_CAUSE_TNS_ORDER = 8    /* a TNS order above 4 at 2.5 or 5 ms; at 7.5 and 10 ms it cannot arise */
};

/* ---- settings and sizes */

#define SILBERLAUS_SLOT_MIN 40       /* bytes of a slot */
#define SILBERLAUS_SLOT_MAX 400
#define SILBERLAUS_MODE_MIN 2        /* mode m repairs m - 1 semi-octets in each word */
#define SILBERLAUS_MODE_MAX 4
#define SILBERLAUS_REQUEST_MAX 3     /* a request (EPMR) is 0 to 3 */
#define SILBERLAUS_SLOT_FRAME_MAX 343 /* bytes of the frame in a slot: at least 20, at most this (slot 400, mode 2) */
#define SILBERLAUS_WORDS_MAX 54      /* code words of a slot */
#define SILBERLAUS_SEMI_OCTETS_MAX 162 /* changed semi-octets that can be repaired in a slot: 3 in each of 54 words */
#define SILBERLAUS_BITS_MAX 648      /* changed bits in them: 4 in each */
#define SILBERLAUS_BITS_UNKNOWN 65535 /* an entry's bits where nobody knows them, as in all of form 1 */
#define SILBERLAUS_FRAME_MIN 20      /* bytes of a frame to read or to keep */
#define SILBERLAUS_FRAME_MAX 400
#define SILBERLAUS_LINES_MAX 400     /* lines of a frame of 10 ms at 48 kHz; see silberlaus_line_count */
#define SILBERLAUS_SYMBOLS_MAX 2818  /* arithmetic symbols of a frame: 18 + 7 x 400 */
#define SILBERLAUS_RECORD_MIN_1 4    /* bytes of a record with no entries, of form 1 and of form 2 */
#define SILBERLAUS_RECORD_MIN_2 5
#define SILBERLAUS_RECORD_MAX 65536  /* bytes of a record of either form */
#define SILBERLAUS_ENTRY_OVERHEAD_1 4 /* bytes of an entry beside its frame */
#define SILBERLAUS_ENTRY_OVERHEAD_2 6
#define SILBERLAUS_ENTRIES_MAX_1 2730 /* entries with frames of 20 bytes in a record of 65,536 */
#define SILBERLAUS_ENTRIES_MAX_2 2520

/* Bytes of stack that a call needs at most, its return address and all that it calls included, but not a `memcpy` and a
   `memset` of your own. Measured on the archive (tests/face), and rounded up. */
#define SILBERLAUS_STACK_SLOT 7168   /* silberlaus_frame_size, protect, unprotect, unprotect_each */
#define SILBERLAUS_STACK_FRAME 12288 /* silberlaus_line_count, read_frame, write_frame, read_entry */
#define SILBERLAUS_STACK_RECORD 512  /* silberlaus_record_* */

/* ---- answers */

typedef struct {
  uint8_t number;
  uint8_t request;      /* EPMR, as sent */
  uint16_t semi_octets; /* in how many the received slot differs from the one sent; 0 is a clean slot */
  uint16_t bits;        /* in how many bits it differs: 1 to 4 for each of these semi-octets, so at most 648 */
} silberlaus_unprotected;

typedef struct {
  uint8_t number, cause;
  uint8_t bandwidth, lsb_mode, gain, tns_flag_0, tns_flag_1, pitch_present;
  uint8_t shape_low, shape_high; /* the first and the second five bits sent */
  uint8_t shape_mode, shape_gain, shape_sign, filter_flag, noise_level;
  uint8_t tns_order_0, tns_order_1, tns_coefficients_0[8], tns_coefficients_1[8]; /* 0 from the order on */
  uint16_t last_line;     /* lines of the spectrum that were sent; from this one on all are 0 */
  uint16_t pitch_index;   /* 0 without pitch */
  uint16_t residual_bits; /* entries of the residual buffer that were sent */
  uint16_t symbols;       /* arithmetic symbols taken */
  uint32_t shape_joint;
} silberlaus_frame;

typedef struct {
  uint8_t number;
  uint16_t residual_bits; /* how many were sent, the first ones */
} silberlaus_written;

typedef struct {
  uint8_t number;
  uint32_t used; /* the length of the record, longer by an entry or moved; on a refusal 0: keep the old one */
} silberlaus_added;

typedef struct {
  uint8_t number;
  uint32_t entries;
} silberlaus_entries;

typedef struct {
  uint8_t number;
  uint8_t request, count;
  uint16_t length; /* bytes of the entry's frame, which stands in the record from `start` on */
  uint16_t bits;   /* SILBERLAUS_BITS_UNKNOWN, or 1 to 4 for each of the `count` semi-octets */
  uint32_t start;
} silberlaus_entry;

/* ---- slots: 40 to 400 bytes; mode 2, 3 or 4; request 0 to 3 */

/* The bytes of a frame in such a slot; 0 where the slot's size or the mode is out of range. */
size_t silberlaus_frame_size(size_t slot_size, uint32_t mode);

/* Protects a frame: writes Annex A's slot of the frame and the request, all of it.
   `frame` has exactly silberlaus_frame_size(slot_size, mode) bytes and is only read; `slot` has exactly slot_size.
   Refusals: SILBERLAUS_BAD_SETTING slot size, mode or request; SILBERLAUS_BAD_LENGTH `frame` or `slot`. */
uint8_t silberlaus_protect(size_t slot_size, uint32_t mode, uint32_t request,
                           const uint8_t *frame, size_t frame_len, uint8_t *slot, size_t slot_len);

/* Unprotects a received slot: corrects every word to the only valid one within mode - 1 semi-octets, and writes the frame
   that was protected, all of it. With at most mode - 1 changed semi-octets in each word it is the sender's frame.
   `slot` has exactly slot_size bytes and is only read: the corrected slot is not kept. `frame` has exactly
   silberlaus_frame_size(slot_size, mode).
   Refusals: SILBERLAUS_BAD_SETTING slot size or mode; SILBERLAUS_BAD_LENGTH `slot` or `frame`; SILBERLAUS_BEYOND_REPAIR;
   SILBERLAUS_FOREIGN. */
silberlaus_unprotected silberlaus_unprotect(size_t slot_size, uint32_t mode,
                                            const uint8_t *slot, size_t slot_len, uint8_t *frame, size_t frame_len);

/* Unprotects many received slots of one size and mode, each exactly as silberlaus_unprotect does. A slot costs less than
   there, because the room is made once for all of them; the whole is linear in the number of slots.
   `slots` has the slots one after the other, so a whole multiple of slot_size, and is only read; n is their number, which
   may be 0. `numbers`, `requests`, `semi_octets` and `bits` have exactly n entries each, and `frames` has exactly
   n x silberlaus_frame_size(slot_size, mode) bytes: a place for each slot's frame, in the order of the slots.
   Accepted, entry i of these four is the answer for slot i; every entry is written. Where its number is 0 the slot's place in
   `frames` is written, all of it. Where it is SILBERLAUS_BEYOND_REPAIR or SILBERLAUS_FOREIGN its other three entries are 0,
   its place in `frames` stays as it was, and the slots behind it are unprotected all the same.
   Refusals, of the whole call, which then leaves every lent byte and number: SILBERLAUS_BAD_SETTING slot size or mode;
   SILBERLAUS_BAD_LENGTH any of the six buffers. */
uint8_t silberlaus_unprotect_each(size_t slot_size, uint32_t mode, const uint8_t *slots, size_t slots_len,
                                  uint8_t *numbers, size_t numbers_len, uint8_t *requests, size_t requests_len,
                                  uint16_t *semi_octets, size_t semi_octets_len, uint16_t *bits, size_t bits_len,
                                  uint8_t *frames, size_t frames_len);

/* ---- frames: 20 to 400 bytes; 8, 16, 24, 32 or 48 kHz; 2.5, 5, 7.5 or 10 ms, in quarter milliseconds 10, 20, 30 or 40 */

/* The lines of a frame of this rate and duration: 80, 160, 240, 320 or 400 at 10 ms, and a quarter, a half and three
   quarters of them at 2.5, 5 and 7.5 ms; 0 where the rate or the duration is out of range. */
size_t silberlaus_line_count(uint32_t khz, uint32_t quarter_ms);

/* Reads a frame into its fields, its spectrum and its residual bits (clause 5.4).
   `frame` is only read. `spectrum` and `residual` have exactly silberlaus_line_count(khz, quarter_ms) entries each;
   accepted, all of them are written: the spectrum's lines, -32,767 to 32,767, then 0; the residual bits, each 0 or 1,
   then 0.
   Refusals: SILBERLAUS_BAD_SETTING the rate, the duration or the frame's length; SILBERLAUS_BAD_LENGTH `spectrum` or
   `residual`; SILBERLAUS_BIT_ERROR with its cause. */
silberlaus_frame silberlaus_read_frame(uint32_t khz, uint32_t quarter_ms, const uint8_t *frame, size_t frame_len,
                                       int32_t *spectrum, size_t spectrum_len, uint8_t *residual, size_t residual_len);

/* Writes a frame of frame_len bytes (20 to 400) from its fields, its spectrum and its residual bits (clause 5.3.14).
   `fields` is what silberlaus_read_frame gives; its number, cause and symbols are not looked at. `spectrum` and `residual`
   have exactly silberlaus_line_count(khz, quarter_ms) entries each and are only read. Accepted, all of `frame` is written,
   and reading it gives the fields and the lines back. The residual bits sent are the first ones, as many as there is room
   for behind the rest: the answer says how many; the others are not sent, and are read as 0.
   Refusals: SILBERLAUS_BAD_SETTING the rate, the duration, frame_len, or a field out of its range or not 0 where it is not
   sent; LSB mode 1 too; SILBERLAUS_BAD_LENGTH `spectrum` or `residual`; SILBERLAUS_BAD_SETTING a line outside -32,767 to
   32,767, a line not 0 at or past the last line, residual_bits other than the number of lines that are not 0, an entry of
   `residual` above 1, or one past residual_bits that is not 0; SILBERLAUS_FRAME_TOO_SMALL the rest without any residual bit
   needs more bits than the frame has, counted as reading counts them for SILBERLAUS_CAUSE_NO_BITS.

   Ranges: bandwidth 0 to the rate's (0 at 8 kHz, 1, 2, 3, 4 at 48 kHz); last_line even, 2 to the line count; lsb_mode 0;
   tns_flag_0 0 or 1, tns_flag_1 too where bandwidth is 3 or 4 and the duration is above 2.5 ms, else 0; pitch_present 0 or
   1; shape_low and shape_high 0 to 31, shape_mode and shape_sign 0 or 1, shape_gain 0 to 1 in shape mode 0 and 0 to 3 in
   mode 1, shape_joint below 33,460,056 in mode 0 and below 16,708,096 in mode 1; filter_flag 0 or 1 and pitch_index 0 to
   511 with pitch, else 0; noise_level 0 to 7; a filter's order 1 to 4 (2.5 and 5 ms) or 1 to 8 where its flag is 1, else 0;
   its coefficients 0 to 16 below the order, and 0 from there on. */
silberlaus_written silberlaus_write_frame(uint32_t khz, uint32_t quarter_ms, silberlaus_frame fields,
                                          const int32_t *spectrum, size_t spectrum_len,
                                          const uint8_t *residual, size_t residual_len, uint8_t *frame, size_t frame_len);

/* ---- the session record: entries of a frame, its request, its count and its bits, the oldest at place 0; at most 65,536
   bytes

   A record is the first `used` bytes of a buffer, in one of two forms; `form` is 1 or 2. After the entries stands their
   number in 4 bytes, the highest first as in every number here, and in form 2 then the byte 2. An entry is its frame, the
   request (1 byte), the count (1), in form 2 the bits (2), and the frame's length (2). Form 1 keeps no bits: they are read
   as SILBERLAUS_BITS_UNKNOWN. No bytes are records of both forms. Entries are added in form 2; a record is moved from one
   form to the other. silberlaus_record_new makes a record of 4 bytes in form 1 and of 5 in form 2; each addition and each
   move says the used length. The calls that read a record take just those bytes. */

/* Writes a record of no entries into the first 4 bytes (form 1) or 5 (form 2); the rest of the buffer stays.
   Refusals: SILBERLAUS_BAD_SETTING the form; SILBERLAUS_NO_ROOM the buffer has fewer bytes. */
uint8_t silberlaus_record_new(uint32_t form, uint8_t *buffer, size_t capacity);

/* The number of entries.
   Refusals: SILBERLAUS_BAD_SETTING the form; SILBERLAUS_NOT_A_RECORD. */
silberlaus_entries silberlaus_record_entries(uint32_t form, const uint8_t *record, size_t used);

/* The entry at a place: its fields, and where its frame stands in the record.
   Refusals: SILBERLAUS_BAD_SETTING the form; SILBERLAUS_NOT_A_RECORD; SILBERLAUS_BAD_SETTING the place is not below the
   number of entries. */
silberlaus_entry silberlaus_record_entry(uint32_t form, const uint8_t *record, size_t used, size_t place);

/* Adds an entry to a record of form 2: 20 to 400 bytes of frame, request 0 to 3, count 0 to 162 and bits (semi_octets and
   bits of silberlaus_unprotected). The bits are count to 4 x count, or SILBERLAUS_BITS_UNKNOWN.
   `length` is the frame's length as the entry names it; frame_len is that of the lent buffer, and the two are equal.
   Accepted, the record has used + length + 6 bytes; what stood before its old end (the number and the byte 2) and past its
   new end stays.
   Refusals: SILBERLAUS_BAD_SETTING used above capacity or above 65,536, request, count, bits or length out of range, or
   frame_len not length; SILBERLAUS_NOT_A_RECORD the first `used` bytes are no record of form 2, be they one of form 1;
   SILBERLAUS_NO_ROOM used + length + 6 exceeds capacity or 65,536. */
silberlaus_added silberlaus_record_add(uint8_t *buffer, size_t capacity, size_t used,
                                       const uint8_t *frame, size_t frame_len,
                                       uint32_t request, uint32_t count, uint32_t bits, uint32_t length);

/* Writes a record of form 1 into `out` as a record of form 2: the same entries, each with SILBERLAUS_BITS_UNKNOWN. It has
   used + 2 x entries + 1 bytes; `record` is only read, and what stands in `out` past them stays.
   Refusals: SILBERLAUS_NOT_A_RECORD; SILBERLAUS_NO_ROOM the moved record exceeds capacity or 65,536. */
silberlaus_added silberlaus_record_to_form_2(const uint8_t *record, size_t used, uint8_t *out, size_t capacity);

/* Writes a record of form 2 into `out` as a record of form 1: the same entries, their bits dropped. It has
   used - 2 x entries - 1 bytes; `record` is only read, and what stands in `out` past them stays.
   Refusals: SILBERLAUS_NOT_A_RECORD; SILBERLAUS_NO_ROOM the moved record exceeds capacity. */
silberlaus_added silberlaus_record_to_form_1(const uint8_t *record, size_t used, uint8_t *out, size_t capacity);

/* Reads the frame of the entry at a place, where it stands: nothing is copied. Else as silberlaus_read_frame.
   Refusals: SILBERLAUS_BAD_SETTING the form, the rate or the duration; SILBERLAUS_BAD_LENGTH `spectrum` or `residual`;
   SILBERLAUS_NOT_A_RECORD; SILBERLAUS_BAD_SETTING the place; SILBERLAUS_BIT_ERROR with its cause. */
silberlaus_frame silberlaus_read_entry(uint32_t form, const uint8_t *record, size_t used, size_t place,
                                       uint32_t khz, uint32_t quarter_ms,
                                       int32_t *spectrum, size_t spectrum_len, uint8_t *residual, size_t residual_len);

#ifdef __cplusplus
}
#endif

#endif
