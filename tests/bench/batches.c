/* Unprotecting many slots at once: the archive's batch beside that of tests/slot/quick.c and, alone, the archive's call for one
   slot on the same slots. The slots, and what is right, come from tests/slot/reference.c. */
#include <stdio.h>
#include <string.h>

#include "../common/cases.h"
#include "../common/said.h"
#include "../slot/damage.h"
#include "../slot/quick.h"
#include "../slot/reference.h"
#include "parts.h"
#include "timing.h"

/* Slots of so many bytes in all, as they are protected and unprotected one by one (slots.c); more where the batch grows. */
enum { BYTES = 25600, MOST_SLOTS = 1000, ROOM = 40 * MOST_SLOTS, MODES = 3, CLEAN = 0, DAMAGED, KINDS };
static const char *const kinds[KINDS] = {"clean", "damaged"};

/* A lot: its slots as received, and how many of them go into a call. */
typedef struct { size_t size, frame_size, slots, in_call; uint32_t mode; uint8_t received[ROOM]; } slot_lot;

/* What a batch leaves; the frames stand one after the other. */
typedef struct {
    uint8_t numbers[MOST_SLOTS], requests[MOST_SLOTS], frames[ROOM];
    uint16_t semi_octets[MOST_SLOTS], bits[MOST_SLOTS];
} batch_left;

static slot_lot lots[MOST_LOTS];
static batch_left right[MOST_LOTS], left[MOST_SIDES][MOST_LOTS];

static void fill(unsigned lot, size_t size, uint32_t mode, unsigned kind, size_t slots, size_t in_call)
{
    slot_lot *l = &lots[lot];
    batch_left *r = &right[lot];
    *l = (slot_lot){.size = size, .frame_size = reference_frame_size(size, mode), .slots = slots, .in_call = in_call, .mode = mode};
    memset(r, 0, sizeof *r);
    for (unsigned side = 0; side < MOST_SIDES; side++)
        memset(&left[side][lot], 0, sizeof left[side][lot]);
    for (uint32_t n = 0; n < slots; n++) {
        uint8_t *frame = r->frames + n * l->frame_size, *slot = l->received + n * size;
        random_bytes(frame, l->frame_size);
        reference_protect(size, mode, n % 4, frame, l->frame_size, slot, size);
        r->requests[n] = n % 4;
        for (size_t i = 0; kind == DAMAGED && i < reference_words(size); i++) {
            r->semi_octets[n] += (uint16_t)(mode - 1);
            r->bits[n] += (uint16_t)damage_word(size, i, mode - 1, ANY_BITS, slot);
        }
    }
}

/* ---- passes */
static void batches(const slot_lot *l, each_call *unprotect_each, batch_left *to)
{
    size_t k = l->in_call, f = l->frame_size;
    for (size_t n = 0; n < l->slots; n += k)
        if (unprotect_each(l->size, l->mode, l->received + n * l->size, k * l->size, to->numbers + n, k, to->requests + n, k,
                           to->semi_octets + n, k, to->bits + n, k, to->frames + n * f, k * f) != 0)
            fails("a batch is refused");
}

static void one_by_one(const slot_lot *l, batch_left *to)
{
    size_t f = l->frame_size;
    for (size_t n = 0; n < l->slots; n++) {
        slot_answer a = silberlaus_unprotect(l->size, l->mode, l->received + n * l->size, l->size, to->frames + n * f, f);
        to->numbers[n] = a.number;
        to->requests[n] = a.request;
        to->semi_octets[n] = a.semi_octets;
        to->bits[n] = a.bits;
    }
}

static size_t pass(unsigned lot, unsigned side)
{
    if (side == THIRD)
        one_by_one(&lots[lot], &left[side][lot]);
    else
        batches(&lots[lot], side == ARCHIVE ? silberlaus_unprotect_each : quick_unprotect_each, &left[side][lot]);
    return lots[lot].slots;
}

static void compare_side(unsigned lot, unsigned side)
{
    if (memcmp(&left[side][lot], &right[lot], sizeof right[lot]) != 0)
        fails("a batch did not leave what the reference has");
}

static void compare(unsigned lot)
{
    compare_side(lot, ARCHIVE);
    compare_side(lot, PAPERS);
}

/* ---- the tables */
static void time_size(size_t size)
{
    static const work batches_of_size = {MODES * KINDS, THIRD + 1, NULL, pass, compare};
    ns best[MOST_LOTS];
    char name[64];
    for (unsigned lot = 0; lot < MODES * KINDS; lot++)
        fill(lot, size, 2 + lot / KINDS, lot % KINDS, BYTES / size, BYTES / size);
    time_work(&batches_of_size, best);
    for (unsigned lot = 0; lot < MODES * KINDS; lot++) {
        const double *of = best[lot].of;
        compare_side(lot, THIRD);
        if (lot % KINDS == CLEAN)
            said(printf("| %4zu | %4u |", size, 2 + lot / KINDS));
        snprintf(name, sizeof name, "batch, %s slots of %zu bytes, mode %u", kinds[lot % KINDS], size, 2 + lot / KINDS);
        print_cells(&best[lot], name);
        said(printf(" %6.0f | %5.2f |%s", of[THIRD], of[ARCHIVE] / of[THIRD], lot % KINDS == DAMAGED ? "\n" : ""));
    }
    all_said();
}

/* The same slots in ever longer batches. */
static void time_lengths(void)
{
    static const size_t in_call[] = {1, 10, 100, 1000};
    enum { SIZE = 40, MODE = 3, LENGTHS = COUNT(in_call) };
    static const work batches_of_length = {LENGTHS * KINDS, PAPERS + 1, NULL, pass, compare};
    ns best[MOST_LOTS];
    char name[64];
    for (unsigned lot = 0; lot < LENGTHS * KINDS; lot++)
        fill(lot, SIZE, MODE, lot % KINDS, MOST_SLOTS, in_call[lot / KINDS]);
    time_work(&batches_of_length, best);
    for (unsigned lot = 0; lot < LENGTHS * KINDS; lot++) {
        if (lot % KINDS == CLEAN)
            said(printf("| %5zu |", in_call[lot / KINDS]));
        snprintf(name, sizeof name, "batch of %zu, %s slots of 40 bytes, mode 3", in_call[lot / KINDS], kinds[lot % KINDS]);
        print_cells(&best[lot], name);
        if (lot % KINDS == DAMAGED)
            said(printf("\n"));
    }
    all_said();
}

void bench_batches(void)
{
    static const size_t tried[] = {40, 80, 160, 400};
    said(printf("\nMany slots at once, 25,600 bytes in a call, beside the batch of tests/slot/quick.c: ns a slot. Single: the\n"
                "archive's call for one slot, on the same slots; part: the batch's time over that.\n\n"
                "| slot | mode |   clean |      C | ratio | single |  part | damaged |      C | ratio | single |  part |\n"
                "|-----:|-----:|--------:|-------:|------:|-------:|------:|--------:|-------:|------:|-------:|------:|\n"));
    for (size_t i = 0; i < COUNT(tried); i++)
        time_size(tried[i]);
    said(printf("\nThe same with 1,000 slots of 40 bytes, mode 3, so many in a call: ns a slot.\n\n"
                "| slots |   clean |      C | ratio | damaged |      C | ratio |\n"
                "|------:|--------:|-------:|------:|--------:|-------:|------:|\n"));
    time_lengths();
}
