/* Adding an entry to a record: the first, the hundredth and the last that fits. Reading a record of either form, and moving
   it to the other. All beside tests/record/reference.c; the entries of a record have frames of one length. */
#include <stdio.h>
#include <string.h>

#include "../common/cases.h"
#include "../common/said.h"
#include "../record/reference.h"
#include "parts.h"
#include "timing.h"

enum { SIDES = 2, LENGTHS = 2, FORMS = 2 };
static const uint32_t lengths[LENGTHS] = {20, 400};
static uint8_t frame[400];

/* The most entries of that length in a record of form 2. */
static uint32_t most_entries(uint32_t length)
{
    return (uint32_t)((LARGEST - reference_end(2)) / (length + reference_beside(2)));
}

/* ---- adding: a lot is an entry of a record */
enum { ADDITIONS = 32, ENTRIES = 3, ADD_LOTS = LENGTHS * ENTRIES, END = 5 };

typedef silberlaus_added add_call(uint8_t *, size_t, size_t, const uint8_t *, size_t, uint32_t, uint32_t, uint32_t, uint32_t);
static add_call *const adds[SIDES] = {silberlaus_record_add, reference_add};

/* What is added where: the entry's number, counted from 1, and the record's length before it. */
typedef struct { uint32_t length, entry; size_t used; uint8_t end[END]; } addition;

static addition additions[ADD_LOTS];
static uint8_t buffers[SIDES][ADD_LOTS][LARGEST];
static silberlaus_added added[SIDES][ADD_LOTS];

/* The record that has all entries before this one; the rest of the buffer differs from side to side. */
static void fill(unsigned lot, uint32_t length, uint32_t entry)
{
    addition *a = &additions[lot];
    for (unsigned side = 0; side < SIDES; side++) {
        uint8_t *buffer = buffers[side][lot];
        memset(buffer, 0x55 << side, LARGEST);
        reference_new(2, buffer, LARGEST);
        a->used = END;
        for (uint32_t k = 1; k < entry; k++)
            a->used = reference_add(buffer, LARGEST, a->used, frame, length, k % 4, k % 163, 2 * (k % 163), length).used;
        memcpy(a->end, buffer + a->used - END, END);
    }
    a->length = length;
    a->entry = entry;
}

/* Before each addition the end is put back, which is in the time of both. */
static size_t add_pass(unsigned lot, unsigned side)
{
    const addition *a = &additions[lot];
    uint8_t *buffer = buffers[side][lot];
    for (unsigned n = 0; n < ADDITIONS; n++) {
        memcpy(buffer + a->used - END, a->end, END);
        added[side][lot] = adds[side](buffer, LARGEST, a->used, frame, a->length, 3, 162, 500, a->length);
    }
    return ADDITIONS;
}

static void add_compare(unsigned lot)
{
    size_t longer = additions[lot].used + additions[lot].length + reference_beside(2);
    for (unsigned side = 0; side < SIDES; side++)
        if (added[side][lot].number != 0 || added[side][lot].used != longer)
            fails("an entry is not added");
    if (memcmp(buffers[ARCHIVE][lot], buffers[PAPERS][lot], longer) != 0)
        fails("the two records are not the same");
}

static void time_additions(void)
{
    static const work records = {ADD_LOTS, SIDES, NULL, add_pass, add_compare};
    ns best[MOST_LOTS];
    char name[64];
    for (unsigned lot = 0; lot < ADD_LOTS; lot++) {
        uint32_t length = lengths[lot / ENTRIES];
        const uint32_t entries[ENTRIES] = {1, 100, most_entries(length)};
        fill(lot, length, entries[lot % ENTRIES]);
    }
    time_work(&records, best);
    said(printf("\nAdding to a record, which is of form 2, beside tests/record/reference.c: the first entry, the hundredth, and\n"
                "the last that fits. The old end is put back before each addition, within both times.\n\n"
                "| frame | entry | archive |      C | ratio |\n|------:|------:|--------:|-------:|------:|\n"));
    for (unsigned lot = 0; lot < ADD_LOTS; lot++) {
        const addition *a = &additions[lot];
        snprintf(name, sizeof name, "add, entry %u, frames of %u bytes", (unsigned)a->entry, (unsigned)a->length);
        said(printf("| %5u | %5u |", (unsigned)a->length, (unsigned)a->entry));
        print_cells(&best[lot], name);
        said(printf("\n"));
    }
    all_said();
}

/* ---- records to read and to move: one list of entries, in both forms */
typedef struct { uint32_t length, entries; size_t used[FORMS + 1]; uint8_t bytes[FORMS + 1][LARGEST]; } both_forms;

enum { HUNDRED, LARGE, KINDS, RECORDS = LENGTHS * KINDS };
static both_forms records[RECORDS];

static void make_records(void)
{
    static entry_place list[MOST_ENTRIES];
    for (unsigned r = 0; r < RECORDS; r++) {
        both_forms *m = &records[r];
        m->length = lengths[r / KINDS];
        m->entries = r % KINDS == HUNDRED ? 100 : most_entries(m->length);
        for (uint32_t k = 0; k < m->entries; k++)
            list[k] = (entry_place){0, m->length, k % 4, k % 163, k % 5 ? 2 * (k % 163) : UNKNOWN};
        for (uint32_t form = 1; form <= FORMS; form++)
            m->used[form] = reference_write(form, frame, list, m->entries, m->bytes[form]);
    }
}

/* ---- reading: a lot is a call on a record with as many entries as fit, in one form */
enum { READINGS = 8, COUNT_ALL = 0, OLDEST, CALLS, READ_LOTS = FORMS * LENGTHS * CALLS };

static const struct {
    silberlaus_entries (*entries)(uint32_t, const uint8_t *, size_t);
    silberlaus_entry (*entry)(uint32_t, const uint8_t *, size_t, size_t);
} reads[SIDES] = {
    {silberlaus_record_entries, silberlaus_record_entry}, {reference_entries, reference_entry},
};

static silberlaus_entries counted[SIDES][READ_LOTS];
static silberlaus_entry oldest[SIDES][READ_LOTS];

static uint32_t form_read(unsigned lot)
{
    return 1 + lot / (LENGTHS * CALLS);
}

static const both_forms *record_read(unsigned lot)
{
    return &records[lot / CALLS % LENGTHS * KINDS + LARGE];
}

static size_t read_pass(unsigned lot, unsigned side)
{
    const both_forms *m = record_read(lot);
    uint32_t form = form_read(lot);
    for (unsigned n = 0; n < READINGS; n++)
        if (lot % CALLS == COUNT_ALL)
            counted[side][lot] = reads[side].entries(form, m->bytes[form], m->used[form]);
        else
            oldest[side][lot] = reads[side].entry(form, m->bytes[form], m->used[form], 0);
    return READINGS;
}

static void read_compare(unsigned lot)
{
    const both_forms *m = record_read(lot);
    for (unsigned side = 0; side < SIDES; side++) {
        silberlaus_entry e = oldest[side][lot];
        if (lot % CALLS == COUNT_ALL ? counted[side][lot].number != 0 || counted[side][lot].entries != m->entries
                                     : e.number != 0 || e.length != m->length || e.start != 0 || e.bits != UNKNOWN)
            fails("a record is not read");
    }
}

static void time_readings(void)
{
    static const work readings = {READ_LOTS, SIDES, NULL, read_pass, read_compare};
    static const char *const calls[CALLS] = {"entries", "oldest entry"};
    ns best[MOST_LOTS];
    char name[64];
    time_work(&readings, best);
    said(printf("\nReading a record of either form, beside tests/record/reference.c: the number of its entries, and its oldest\n"
                "entry. It has as many entries as form 2 has room for.\n\n"
                "| form | frame | entries |  number |      C | ratio |  oldest |      C | ratio |\n"
                "|-----:|------:|--------:|--------:|-------:|------:|--------:|-------:|------:|\n"));
    for (unsigned lot = 0; lot < READ_LOTS; lot++) {
        const both_forms *m = record_read(lot);
        if (lot % CALLS == COUNT_ALL)
            said(printf("| %4u | %5u | %7u |", (unsigned)form_read(lot), (unsigned)m->length, (unsigned)m->entries));
        snprintf(name, sizeof name, "%s, form %u, frames of %u bytes", calls[lot % CALLS], (unsigned)form_read(lot),
                 (unsigned)m->length);
        print_cells(&best[lot], name);
        if (lot % CALLS == OLDEST)
            said(printf("\n"));
    }
    all_said();
}

/* ---- moving: a lot is a record moved to the other form */
enum { MOVES = 4, MOVE_LOTS = FORMS * RECORDS };

typedef silberlaus_added move_call(const uint8_t *, size_t, uint8_t *, size_t);
static move_call *const moves[FORMS + 1][SIDES] = {
    {NULL, NULL}, {silberlaus_record_to_form_1, reference_to_form_1}, {silberlaus_record_to_form_2, reference_to_form_2},
};

static uint8_t outs[SIDES][MOVE_LOTS][LARGEST];
static silberlaus_added moved[SIDES][MOVE_LOTS];

static uint32_t form_made(unsigned lot)
{
    return FORMS - lot / RECORDS;
}

static size_t move_pass(unsigned lot, unsigned side)
{
    const both_forms *m = &records[lot % RECORDS];
    uint32_t to = form_made(lot), from = 3 - to;
    for (unsigned n = 0; n < MOVES; n++)
        moved[side][lot] = moves[to][side](m->bytes[from], m->used[from], outs[side][lot], LARGEST);
    return MOVES;
}

static void move_compare(unsigned lot)
{
    size_t length = records[lot % RECORDS].used[form_made(lot)];
    for (unsigned side = 0; side < SIDES; side++)
        if (moved[side][lot].number != 0 || moved[side][lot].used != length)
            fails("a record is not moved");
    if (memcmp(outs[ARCHIVE][lot], outs[PAPERS][lot], length) != 0)
        fails("the two moved records are not the same");
}

static void time_moves(void)
{
    static const work moving = {MOVE_LOTS, SIDES, NULL, move_pass, move_compare};
    ns best[MOST_LOTS];
    char name[64];
    memset(outs, 0x55, sizeof outs);
    time_work(&moving, best);
    said(printf("\nMoving a record to the other form, beside tests/record/reference.c: a hundred entries, and as many as form 2\n"
                "has room for.\n\n"
                "| to form | frame | entries | archive |      C | ratio |\n|--------:|------:|--------:|--------:|-------:|------:|\n"));
    for (unsigned lot = 0; lot < MOVE_LOTS; lot++) {
        const both_forms *m = &records[lot % RECORDS];
        unsigned to = form_made(lot), length = m->length, entries = m->entries;
        snprintf(name, sizeof name, "to form %u, %u entries, frames of %u bytes", to, entries, length);
        said(printf("| %7u | %5u | %7u |", to, length, entries));
        print_cells(&best[lot], name);
        said(printf("\n"));
    }
    all_said();
}

void bench_records(void)
{
    random_bytes(frame, sizeof frame);
    make_records();
    time_additions();
    time_readings();
    time_moves();
}
