/* What is right: the session record of documents 01 and 02 in both its forms, written in C from these documents alone. */
#ifndef RECORD_REFERENCE_H
#define RECORD_REFERENCE_H

#include "silberlaus.h"

/* Bytes of the largest record, and entries of either form: each has at least 24 bytes. The bits that nobody knows. */
enum { LARGEST = 65536, MOST_ENTRIES = (LARGEST - 4) / 24, UNKNOWN = 65535 };

/* Bytes of a record with no entries, and of an entry beside its frame; `form` is 1 or 2 from here to reference_write. */
size_t reference_end(uint32_t form);
size_t reference_beside(uint32_t form);

/* An entry: where its frame starts, and its fields. */
typedef struct { uint32_t start, length, request, count, bits; } entry_place;

/* The number of entries, or -1 where the bytes are no record of the form. `places` is NULL or has room for MOST_ENTRIES,
   which are then those of the record, the oldest first. */
long reference_read(uint32_t form, const uint8_t *record, size_t used, entry_place *places);

/* Writes the record of these entries, whose frames stand in `frames` from their starts on. Its length. No field is tested,
   so that what is out of range can be written too. */
size_t reference_write(uint32_t form, const uint8_t *frames, const entry_place *places, size_t entries, uint8_t *record);

/* The meanings of silberlaus_record_new, _entries, _entry, _add, _to_form_2 and _to_form_1. */
uint8_t reference_new(uint32_t form, uint8_t *buffer, size_t capacity);
silberlaus_entries reference_entries(uint32_t form, const uint8_t *record, size_t used);
silberlaus_entry reference_entry(uint32_t form, const uint8_t *record, size_t used, size_t place);
silberlaus_added reference_add(uint8_t *buffer, size_t capacity, size_t used, const uint8_t *frame, size_t frame_len,
                               uint32_t request, uint32_t count, uint32_t bits, uint32_t length);
silberlaus_added reference_to_form_2(const uint8_t *record, size_t used, uint8_t *out, size_t capacity);
silberlaus_added reference_to_form_1(const uint8_t *record, size_t used, uint8_t *out, size_t capacity);

#endif
