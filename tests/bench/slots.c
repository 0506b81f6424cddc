/* Protecting, unprotecting a clean slot, and unprotecting one with m - 1 changes in every word: the archive beside
   tests/slot/quick.c. The slots, and what is right, come from tests/slot/reference.c. */
#include <stdio.h>
#include <string.h>

#include "../code_word/search.h"
#include "../common/cases.h"
#include "../common/said.h"
#include "../slot/damage.h"
#include "../slot/quick.h"
#include "../slot/reference.h"
#include "parts.h"
#include "timing.h"

/* A lot is a kind of call in a mode, over slots of so many bytes in all: words enough that no branch is learnt by heart. */
enum { BYTES = 25600, MOST_SLOTS = BYTES / 40, SIDES = 2, MODES = 3, PROTECT = 0, CLEAN, DAMAGED, KINDS, LOTS = MODES * KINDS };

static const struct {
    uint8_t (*protect)(size_t, uint32_t, uint32_t, const uint8_t *, size_t, uint8_t *, size_t);
    slot_answer (*unprotect)(size_t, uint32_t, const uint8_t *, size_t, uint8_t *, size_t);
} sides[SIDES] = {{silberlaus_protect, silberlaus_unprotect}, {quick_protect, quick_unprotect}};

static const char *const kinds[KINDS] = {"protect", "unprotect clean", "unprotect damaged"};

/* ---- frames, and their slots as sent and as received, by mode; what the sides left */
static size_t size, slots;
static uint8_t frames[MODES][BYTES], sent[MODES][BYTES], received[MODES][BYTES], left[SIDES][LOTS][BYTES];
static uint16_t changed_bits[MODES][MOST_SLOTS];
static slot_answer answers[SIDES][LOTS][MOST_SLOTS];

static uint32_t mode_of(unsigned lot)
{
    return 2 + lot / KINDS;
}

static void fill(uint32_t mode)
{
    size_t frame_size = reference_frame_size(size, mode);
    for (uint32_t n = 0; n < slots; n++) {
        uint8_t *frame = &frames[mode - 2][n * size], *slot = &sent[mode - 2][n * size], *got = &received[mode - 2][n * size];
        random_bytes(frame, frame_size);
        reference_protect(size, mode, n % 4, frame, frame_size, slot, size);
        memcpy(got, slot, size);
        changed_bits[mode - 2][n] = 0;
        for (size_t i = 0; i < reference_words(size); i++)
            changed_bits[mode - 2][n] += damage_word(size, i, mode - 1, ANY_BITS, got);
    }
}

/* ---- passes */
static void protecting(unsigned lot, unsigned side)
{
    uint32_t mode = mode_of(lot);
    size_t frame_size = reference_frame_size(size, mode);
    for (uint32_t n = 0; n < slots; n++)
        answers[side][lot][n].number = sides[side].protect(size, mode, n % 4, &frames[mode - 2][n * size], frame_size,
                                                           &left[side][lot][n * size], size);
}

static void unprotecting(unsigned lot, unsigned side, const uint8_t *taken)
{
    uint32_t mode = mode_of(lot);
    size_t frame_size = reference_frame_size(size, mode);
    for (size_t n = 0; n < slots; n++)
        answers[side][lot][n] = sides[side].unprotect(size, mode, taken + n * size, size, &left[side][lot][n * size],
                                                      frame_size);
}

static size_t pass(unsigned lot, unsigned side)
{
    if (lot % KINDS == PROTECT)
        protecting(lot, side);
    else
        unprotecting(lot, side, lot % KINDS == CLEAN ? sent[lot / KINDS] : received[lot / KINDS]);
    return slots;
}

/* Each side left the slot, or the frame with its request and the number of changes in semi-octets and in bits. */
static void compare(unsigned lot)
{
    uint32_t mode = mode_of(lot), kind = lot % KINDS;
    size_t length = kind == PROTECT ? size : reference_frame_size(size, mode);
    size_t changes = kind == DAMAGED ? (mode - 1) * reference_words(size) : 0;
    for (unsigned side = 0; side < SIDES; side++)
        for (size_t n = 0; n < slots; n++) {
            slot_answer a = answers[side][lot][n];
            const uint8_t *wanted = (kind == PROTECT ? sent : frames)[mode - 2] + n * size;
            if (a.number != 0 || a.request != (kind == PROTECT ? 0 : n % 4) || a.semi_octets != changes
                || a.bits != (kind == DAMAGED ? changed_bits[mode - 2][n] : 0)
                || memcmp(&left[side][lot][n * size], wanted, length) != 0)
                fails("a slot or a frame is not what the reference has");
        }
}

/* ---- the table */
static void time_size(void)
{
    static const work slots_of_size = {LOTS, SIDES, NULL, pass, compare};
    ns best[MOST_LOTS];
    char name[64];
    memset(left, 0, sizeof left);
    memset(answers, 0, sizeof answers);
    for (uint32_t mode = 2; mode <= 4; mode++)
        fill(mode);
    time_work(&slots_of_size, best);
    for (unsigned m = 0; m < MODES; m++) {
        said(printf("| %4zu | %4u |", size, m + 2));
        for (unsigned kind = 0; kind < KINDS; kind++) {
            snprintf(name, sizeof name, "%s, slot of %zu bytes, mode %u", kinds[kind], size, m + 2);
            print_cells(&best[m * KINDS + kind], name);
        }
        said(printf("\n"));
    }
    all_said();
}

void bench_slots(void)
{
    static const size_t tried[] = {40, 80, 160, 400};
    if (!search_prepare())
        fails("there is no memory for the search");
    quick_prepare();
    said(printf("\nSlots, beside tests/slot/quick.c. Damaged: m - 1 changed semi-octets in every word.\n\n"
                "| slot | mode | protect |      C | ratio |   clean |      C | ratio | damaged |      C | ratio |\n"
                "|-----:|-----:|--------:|-------:|------:|--------:|-------:|------:|--------:|-------:|------:|\n"));
    for (size_t i = 0; i < COUNT(tried); i++) {
        size = tried[i];
        slots = BYTES / size;
        time_size();
    }
}
