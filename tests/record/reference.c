/* What is right (see reference.h): a record is read from its end back, as document 01 says, and written from its start. */
#include "reference.h"

#include <string.h>

static int is_form(uint32_t form)
{
    return form == 1 || form == 2;
}

size_t reference_end(uint32_t form)
{
    return form == 1 ? 4 : 5;
}

size_t reference_beside(uint32_t form)
{
    return form == 1 ? 4 : 6;
}

/* ---- reading */

static uint32_t two_bytes(const uint8_t *b)
{
    return (uint32_t)b[0] << 8 | b[1];
}

static uint32_t four_bytes(const uint8_t *b)
{
    return two_bytes(b) << 16 | two_bytes(b + 2);
}

static int bits_fit(uint32_t count, uint32_t bits)
{
    return bits == UNKNOWN || (count <= bits && bits <= 4 * count);
}

/* The number that stands at the end, or -1 where the end is not as in any record of the form. */
static long end_number(uint32_t form, const uint8_t *record, size_t used)
{
    if (used < reference_end(form) || used > LARGEST || (form == 2 && record[used - 1] != 2))
        return -1;
    uint32_t entries = four_bytes(record + used - reference_end(form));
    return entries > MOST_ENTRIES ? -1 : (long)entries;
}

/* The entry whose last byte stands before `end`; whether there is one with all fields in range. */
static inline int entry_before(uint32_t form, const uint8_t *record, size_t end, entry_place *e)
{
    size_t beside = reference_beside(form);
    if (end < beside + 20)
        return 0;
    const uint8_t *fields = record + end - beside;
    uint32_t length = two_bytes(record + end - 2), bits = form == 1 ? UNKNOWN : two_bytes(fields + 2);
    if (fields[0] > 3 || fields[1] > 162 || !bits_fit(fields[1], bits) || length < 20 || length > 400 || length + beside > end)
        return 0;
    *e = (entry_place){(uint32_t)(end - beside) - length, length, fields[0], fields[1], bits};
    return 1;
}

long reference_read(uint32_t form, const uint8_t *record, size_t used, entry_place *places)
{
    long entries = end_number(form, record, used);
    size_t end = used - reference_end(form);
    for (long k = entries; k-- > 0;) {
        entry_place e;
        if (!entry_before(form, record, end, &e))
            return -1;
        end = e.start;
        if (places != NULL)
            places[k] = e;
    }
    return entries >= 0 && end == 0 ? entries : -1;
}

silberlaus_entries reference_entries(uint32_t form, const uint8_t *record, size_t used)
{
    if (!is_form(form))
        return (silberlaus_entries){1, 0};
    long entries = reference_read(form, record, used, NULL);
    return entries < 0 ? (silberlaus_entries){7, 0} : (silberlaus_entries){0, (uint32_t)entries};
}

silberlaus_entry reference_entry(uint32_t form, const uint8_t *record, size_t used, size_t place)
{
    if (!is_form(form))
        return (silberlaus_entry){.number = 1};
    long entries = end_number(form, record, used);
    size_t end = used - reference_end(form);
    entry_place e, found = {0};
    for (long k = entries; k-- > 0; end = e.start) {
        if (!entry_before(form, record, end, &e))
            return (silberlaus_entry){.number = 7};
        if ((size_t)k == place)
            found = e;
    }
    if (entries < 0 || end != 0)
        return (silberlaus_entry){.number = 7};
    if (place >= (size_t)entries)
        return (silberlaus_entry){.number = 1};
    return (silberlaus_entry){0, (uint8_t)found.request, (uint8_t)found.count, (uint16_t)found.length, (uint16_t)found.bits,
                              found.start};
}

/* ---- writing; each gives the place behind what it wrote */

static uint8_t *put_two(uint8_t *to, uint32_t number)
{
    to[0] = (uint8_t)(number >> 8);
    to[1] = (uint8_t)number;
    return to + 2;
}

static uint8_t *put_entry(uint32_t form, uint8_t *to, const uint8_t *frame, const entry_place *e)
{
    memcpy(to, frame, e->length);
    to += e->length;
    *to++ = (uint8_t)e->request;
    *to++ = (uint8_t)e->count;
    if (form == 2)
        to = put_two(to, e->bits);
    return put_two(to, e->length);
}

static uint8_t *put_end(uint32_t form, uint8_t *to, size_t entries)
{
    to = put_two(put_two(to, (uint32_t)(entries >> 16)), (uint32_t)entries);
    if (form == 2)
        *to++ = 2;
    return to;
}

size_t reference_write(uint32_t form, const uint8_t *frames, const entry_place *places, size_t entries, uint8_t *record)
{
    uint8_t *to = record;
    for (size_t k = 0; k < entries; k++)
        to = put_entry(form, to, frames + places[k].start, &places[k]);
    return (size_t)(put_end(form, to, entries) - record);
}

uint8_t reference_new(uint32_t form, uint8_t *buffer, size_t capacity)
{
    if (!is_form(form))
        return 1;
    if (capacity < reference_end(form))
        return 6;
    put_end(form, buffer, 0);
    return 0;
}

silberlaus_added reference_add(uint8_t *buffer, size_t capacity, size_t used, const uint8_t *frame, size_t frame_len,
                               uint32_t request, uint32_t count, uint32_t bits, uint32_t length)
{
    if (used > capacity || used > LARGEST || request > 3 || count > 162 || !bits_fit(count, bits) || length < 20
        || length > 400 || frame_len != length)
        return (silberlaus_added){1, 0};
    long entries = reference_read(2, buffer, used, NULL);
    if (entries < 0)
        return (silberlaus_added){7, 0};
    size_t longer = used + length + 6;
    if (longer > capacity || longer > LARGEST)
        return (silberlaus_added){6, 0};
    entry_place e = {0, length, request, count, bits};
    put_end(2, put_entry(2, buffer + used - 5, frame, &e), (size_t)entries + 1);
    return (silberlaus_added){0, (uint32_t)longer};
}

/* ---- moving: reading in one form and writing in the other */

static silberlaus_added move(uint32_t from, uint32_t to, const uint8_t *record, size_t used, uint8_t *out, size_t capacity)
{
    static entry_place places[MOST_ENTRIES];
    long entries = reference_read(from, record, used, places);
    if (entries < 0)
        return (silberlaus_added){7, 0};
    size_t n = (size_t)entries, frames = used - reference_end(from) - n * reference_beside(from);
    size_t moved = frames + n * reference_beside(to) + reference_end(to);
    if (moved > capacity || moved > LARGEST)
        return (silberlaus_added){6, 0};
    return (silberlaus_added){0, (uint32_t)reference_write(to, record, places, n, out)};
}

silberlaus_added reference_to_form_2(const uint8_t *record, size_t used, uint8_t *out, size_t capacity)
{
    return move(1, 2, record, used, out, capacity);
}

silberlaus_added reference_to_form_1(const uint8_t *record, size_t used, uint8_t *out, size_t capacity)
{
    return move(2, 1, record, used, out, capacity);
}
