/* Lent memory and its comparison (see lend.h). All of it is full of one byte before a call, another one each time, which
   makes no number that a spectrum or a residual bit can be. */
#define _DEFAULT_SOURCE
#include "lend.h"

#include <stdio.h>
#include <stdlib.h>
#include <string.h>
#include <sys/mman.h>
#include <unistd.h>

enum { GUARD = 32 };

/* ---- fields, by name */
#define FIELD(name) {#name, offsetof(silberlaus_frame, name), sizeof((silberlaus_frame *)0)->name}

static const struct { const char *name; size_t offset, size; } fields[] = {
    FIELD(number), FIELD(cause), FIELD(bandwidth), FIELD(last_line), FIELD(lsb_mode), FIELD(gain), FIELD(tns_flag_0),
    FIELD(tns_flag_1), FIELD(pitch_present), FIELD(shape_low), FIELD(shape_high), FIELD(shape_mode), FIELD(shape_gain),
    FIELD(shape_sign), FIELD(shape_joint), FIELD(filter_flag), FIELD(pitch_index), FIELD(noise_level), FIELD(tns_order_0),
    FIELD(tns_order_1), FIELD(tns_coefficients_0), FIELD(tns_coefficients_1), FIELD(symbols), FIELD(residual_bits),
};

const char *lend_difference(const silberlaus_frame *one, const silberlaus_frame *other)
{
    for (size_t i = 0; i < sizeof fields / sizeof fields[0]; i++)
        if (memcmp((const char *)one + fields[i].offset, (const char *)other + fields[i].offset, fields[i].size) != 0)
            return fields[i].name;
    return NULL;
}

/* ---- lent memory */
static reader *read_frame;
static uint8_t *page;
static size_t page_size;
static int32_t spectrum[GUARD + ROOM + GUARD], wanted_spectrum[GUARD + ROOM + GUARD];
static uint8_t residual[GUARD + ROOM + GUARD], wanted_residual[GUARD + ROOM + GUARD];

void lend_prepare(reader *read)
{
    read_frame = read;
    page_size = (size_t)sysconf(_SC_PAGESIZE);
    page = mmap(NULL, 3 * page_size, PROT_NONE, MAP_PRIVATE | MAP_ANONYMOUS, -1, 0);
    if (page_size < ROOM || page == MAP_FAILED || mprotect(page + page_size, page_size, PROT_READ | PROT_WRITE) != 0) {
        perror("pages for the frame");
        exit(2);
    }
    page += page_size;
}

/* What the buffers hold before the call in `byte`, or after it where the answer is accepted. */
static void fill(const request *r, int byte, const answer *accepted, int32_t *lines, uint8_t *bits)
{
    memset(lines, byte, (GUARD + r->spectrum_length + GUARD) * sizeof lines[0]);
    memset(bits, byte, GUARD + r->residual_length + GUARD);
    if (accepted == NULL)
        return;
    memcpy(lines + GUARD, accepted->spectrum, r->spectrum_length * sizeof lines[0]);
    memcpy(bits + GUARD, accepted->residual, r->residual_length);
}

const char *lend_and_compare(const request *r, const answer *want, silberlaus_frame *got)
{
    static unsigned turn;
    turn++;
    int byte = 2 + (int)(turn % 254);
    uint8_t *frame = turn % 2 ? page : page + page_size - r->length;
    memset(page, byte, page_size);
    if (r->length > 0)
        memcpy(frame, r->frame, r->length);
    fill(r, byte, NULL, spectrum, residual);
    fill(r, byte, want->fields.number == 0 ? want : NULL, wanted_spectrum, wanted_residual);
    *got = read_frame(r->khz, r->quarters, r->frame_nowhere ? NULL : frame, r->length,
                      r->spectrum_nowhere ? NULL : spectrum + GUARD, r->spectrum_length,
                      r->residual_nowhere ? NULL : residual + GUARD, r->residual_length);
    const char *field = lend_difference(got, &want->fields);
    if (field != NULL)
        return field;
    if (memcmp(spectrum, wanted_spectrum, (GUARD + r->spectrum_length + GUARD) * sizeof spectrum[0]) != 0)
        return "spectrum";
    if (memcmp(residual, wanted_residual, GUARD + r->residual_length + GUARD) != 0)
        return "residual";
    return r->length > 0 && memcmp(frame, r->frame, r->length) != 0 ? "frame" : NULL;
}

request lend_right(uint32_t khz, uint32_t quarters, const uint8_t *frame, size_t length)
{
    size_t lines = reference_line_count(khz, quarters);
    return (request){.khz = khz, .quarters = quarters, .frame = frame, .length = length, .spectrum_length = lines,
                     .residual_length = lines};
}

void lend_reference(const request *r, answer *want)
{
    want->fields = reference_read_frame(r->khz, r->quarters, r->frame, r->length, want->spectrum, r->spectrum_length,
                                        want->residual, r->residual_length);
}
