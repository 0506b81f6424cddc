/* Runs the compiled slots (include/silberlaus.h) and those of quick.c, with which their speed is compared, on the cases of
   protect.txt, unprotect.txt and unprotect_bits.txt and against reference.c: answers, slots, frames, and the bytes in and
   around every buffer that is lent. A case counts once for each of the two. Many slots at once are in batch.c.

     check [SEED [FOLDER [batches]]]    FOLDER: where the lists of cases stand (tests/slot); batches: those alone

   A line for each group says how many cases it had. It ends with status 1 at the end of the first group with a wrong
   answer. */
#include <inttypes.h>
#include <stdio.h>
#include <stdlib.h>
#include <string.h>

#include "../code_word/search.h"
#include "../common/cases.h"
#include "../common/said.h"
#include "batch.h"
#include "damage.h"
#include "list.h"
#include "quick.h"
#include "reference.h"

enum { TURNS = 40, SIDES = 2 };

/* The quick slot, and the archive's last, so that its answer is the one a case goes on with. */
static const struct {
    const char *protects, *unprotects;
    uint8_t (*protect)(size_t, uint32_t, uint32_t, const uint8_t *, size_t, uint8_t *, size_t);
    slot_answer (*unprotect)(size_t, uint32_t, const uint8_t *, size_t, uint8_t *, size_t);
} sides[SIDES] = {
    {"quick.c's protect", "quick.c's unprotect", quick_protect, quick_unprotect},
    {"protect", "unprotect", silberlaus_protect, silberlaus_unprotect},
};

/* Counts a case, and shows the first wrong ones of a group. */
static void judge(int right, const char *call, size_t size, uint32_t mode, slot_answer want, slot_answer got)
{
    if (!case_shown(right))
        return;
    said(printf("  WRONG: %s, size %zu, mode %" PRIu32 ": number %u, request %u, count %u, bits %u; wanted %u, %u, %u, %u\n",
                call, size, mode, got.number, got.request, got.semi_octets, got.bits, want.number, want.request,
                want.semi_octets, want.bits));
}

/* ---- one call with guarded buffers */
static int holds(const buffer *b, const uint8_t *bytes, size_t length)
{
    buffer whole;
    guarded(&whole, bytes, length);
    return same(b, &whole, length);
}

/* What is lent and of which length; `nowhere` lends NULL, for a length of 0. */
typedef struct { const uint8_t *bytes; size_t length; int nowhere; } part;

static const uint8_t *lend(buffer *b, part p)
{
    uint8_t *lent = guarded(b, p.bytes, p.length);
    return p.nowhere ? NULL : lent;
}

/* Protecting: the number wanted and, where that is 0, the slot wanted. Else the lent slot has to stay. */
static void protect_case(size_t size, uint32_t mode, uint32_t request, part frame, part sent, uint8_t number,
                         const uint8_t *slot)
{
    for (unsigned side = 0; side < SIDES; side++) {
        buffer in, out;
        const uint8_t *from = lend(&in, frame);
        uint8_t *to = (uint8_t *)lend(&out, sent);
        uint8_t got = sides[side].protect(size, mode, request, from, frame.length, to, sent.length);
        int right = got == number && holds(&in, frame.bytes, frame.length)
                    && holds(&out, number == 0 ? slot : sent.bytes, sent.length);
        judge(right, sides[side].protects, size, mode, (slot_answer){number, 0, 0, 0}, (slot_answer){got, 0, 0, 0});
    }
}

static int same_answer(slot_answer a, slot_answer b)
{
    return a.number == b.number && a.request == b.request && a.semi_octets == b.semi_octets && a.bits == b.bits;
}

/* 1 to 4 bits for each changed semi-octet, and no more than any slot can have. */
static int counts_fit(slot_answer a)
{
    return a.semi_octets <= a.bits && a.bits <= 4 * a.semi_octets && a.bits <= 648;
}

/* Unprotecting: the answer wanted and, where its number is 0, the frame wanted. Else the lent frame has to stay. The
   archive's answer is returned. */
static slot_answer unprotect_case(size_t size, uint32_t mode, part received, part frame, slot_answer want,
                                  const uint8_t *wanted_frame)
{
    slot_answer got = {0};
    for (unsigned side = 0; side < SIDES; side++) {
        buffer in, out;
        const uint8_t *from = lend(&in, received);
        uint8_t *to = (uint8_t *)lend(&out, frame);
        got = sides[side].unprotect(size, mode, from, received.length, to, frame.length);
        int right = same_answer(got, want) && counts_fit(got) && holds(&in, received.bytes, received.length)
                    && holds(&out, want.number == 0 ? wanted_frame : frame.bytes, frame.length);
        judge(right, sides[side].unprotects, size, mode, want, got);
    }
    return got;
}

/* The same with buffers of the right lengths, the lent one full of random bytes. */
static void protects_to(size_t size, uint32_t mode, uint32_t request, const uint8_t *frame, const uint8_t *slot)
{
    uint8_t before[ROOM];
    random_bytes(before, size);
    protect_case(size, mode, request, (part){frame, reference_frame_size(size, mode), 0}, (part){before, size, 0}, 0, slot);
}

static slot_answer unprotects_to(size_t size, uint32_t mode, const uint8_t *received, slot_answer want, const uint8_t *frame)
{
    uint8_t before[ROOM];
    size_t frame_size = reference_frame_size(size, mode);
    random_bytes(before, frame_size);
    return unprotect_case(size, mode, (part){received, size, 0}, (part){before, frame_size, 0}, want, frame);
}

/* Unprotecting gives what the reference gives. */
static slot_answer unprotects_as_reference(size_t size, uint32_t mode, const uint8_t *received)
{
    uint8_t frame[ROOM];
    slot_answer want = reference_unprotect(size, mode, received, size, frame, reference_frame_size(size, mode));
    return unprotects_to(size, mode, received, want, frame);
}

/* ---- the lists of cases (README.md) */
static const char *folder = "tests/slot";

static void protect_list(void)
{
    FILE *list = list_open(folder, "protect.txt");
    size_t size;
    uint32_t mode, request;
    char frame_hex[2 * ROOM], slot_hex[2 * ROOM];
    uint8_t frame[ROOM], slot[ROOM];
    int fields;
    while ((fields = fscanf(list, "%zu %" SCNu32 " %" SCNu32 " %2047s %2047s", &size, &mode, &request, frame_hex,
                            slot_hex)) == 5) {
        if (from_hex(frame_hex, frame) != reference_frame_size(size, mode) || from_hex(slot_hex, slot) != size)
            malformed("protect.txt");
        protects_to(size, mode, request, frame, slot);
        unprotects_to(size, mode, slot, (slot_answer){0, (uint8_t)request, 0, 0}, frame);
    }
    if (fields != EOF)
        malformed("protect.txt");
    fclose(list);
    group_ends("protect.txt: every line, and its slot unprotected");
}

/* The bytes to lend for a frame: where a setting is out of range there is no right length, and a plausible one stands in. */
static size_t lent_frame_size(size_t size, uint32_t mode)
{
    size_t right = reference_frame_size(size, mode);
    return right > 0 ? right : 32;
}

static void unprotect_list(const char *name, const char *group)
{
    FILE *list = list_open(folder, name);
    received line;
    uint8_t before[ROOM];
    while (next_received(list, name, &line)) {
        size_t frame_len = lent_frame_size(line.size, line.mode);
        random_bytes(before, frame_len);
        unprotect_case(line.size, line.mode, (part){line.slot, line.slot_len, 0}, (part){before, frame_len, 0}, line.want,
                       line.frame);
    }
    fclose(list);
    group_ends(group);
}

/* ---- sizes and refusals */

/* In range and out; some are in range once they are narrowed to 8, 16 or 32 bits. */
static const size_t sizes[] = {0, 39, 40, 41, 79, 80, 144, 400, 401, 256 + 400, 65536 + 40, (size_t)1 << 32,
                               ((size_t)1 << 32) + 40, SIZE_MAX};
static const uint32_t modes[] = {0, 1, 2, 3, 4, 5, 255, 258, 65536 + 3, 0x80000002u, 4294967295u};
static const uint32_t requests[] = {0, 3, 4, 256, 259, 65536, 4294967295u};

static int sizes_fit(size_t size, uint32_t mode)
{
    return 40 <= size && size <= 400 && 2 <= mode && mode <= 4;
}

static void frame_sizes(void)
{
    /* document 01's table */
    static const size_t table[][4] = {{40, 32, 26, 20}, {41, 32, 26, 20}, {79, 65, 54, 43}, {80, 66, 53, 42},
                                      {400, 343, 287, 233}};
    for (size_t i = 0; i < COUNT(table); i++)
        for (uint32_t mode = 2; mode <= 4; mode++)
            judge(silberlaus_frame_size(table[i][0], mode) == table[i][mode - 1], "frame_size", table[i][0], mode,
                  (slot_answer){0}, (slot_answer){0});
    for (size_t size = 40; size <= 400; size++)
        for (uint32_t mode = 2; mode <= 4; mode++)
            judge(silberlaus_frame_size(size, mode) == reference_frame_size(size, mode), "frame_size", size, mode,
                  (slot_answer){0}, (slot_answer){0});
    group_ends("frame size: document 01's table, and every size and mode");
    for (size_t s = 0; s < COUNT(sizes); s++)
        for (size_t m = 0; m < COUNT(modes); m++)
            if (!sizes_fit(sizes[s], modes[m]))
                judge(silberlaus_frame_size(sizes[s], modes[m]) == 0, "frame_size", sizes[s], modes[m], (slot_answer){0},
                      (slot_answer){0});
    group_ends("frame size: 0 where the size or the mode is out of range");
}

/* Lengths of a lent buffer: the right one, one short, one long, none, none and nowhere, one that is right in 8 bits. */
enum { LENGTHS = 6 };

static part lent_part(const uint8_t *bytes, size_t right, unsigned which)
{
    size_t lengths[LENGTHS] = {right, right - 1, right + 1, 0, 0, right + 256};
    return (part){bytes, lengths[which], which == 4};
}

/* All combinations of settings and lengths: 1 where a setting is out of range, whatever the lengths are; else 2 where a
   length is not the right one; else what the reference makes. */
static void refusals_at(size_t size, uint32_t mode, unsigned slot_length, unsigned frame_length)
{
    uint8_t slot[ROOM], frame[ROOM], made[ROOM];
    int fit = sizes_fit(size, mode), right_lengths = slot_length == 0 && frame_length == 0;
    /* for a size out of range a plausible length stands in, as for a frame */
    size_t slot_size = size <= 600 && size > 0 ? size : 40, frame_size = lent_frame_size(size, mode);
    random_bytes(slot, ROOM);
    random_bytes(frame, ROOM);
    part slot_part = lent_part(slot, slot_size, slot_length), frame_part = lent_part(frame, frame_size, frame_length);
    for (size_t q = 0; q < COUNT(requests); q++) {
        uint8_t number = !fit || requests[q] > 3 ? 1 : !right_lengths ? 2 : 0;
        if (number == 0)
            reference_protect(size, mode, requests[q], frame, frame_size, made, size);
        protect_case(size, mode, requests[q], frame_part, slot_part, number, made);
    }
    if (!fit || !right_lengths) {
        unprotect_case(size, mode, slot_part, frame_part, (slot_answer){fit ? 2 : 1, 0, 0, 0}, NULL);
        return;
    }
    /* a clean slot is accepted, so that what was refused above was refused for its setting or its length alone */
    reference_protect(size, mode, 2, frame, frame_size, made, size);
    unprotects_to(size, mode, made, (slot_answer){0, 2, 0, 0}, frame);
}

static void refusals(void)
{
    for (size_t s = 0; s < COUNT(sizes); s++)
        for (size_t m = 0; m < COUNT(modes); m++)
            for (unsigned slot_length = 0; slot_length < LENGTHS; slot_length++)
                for (unsigned frame_length = 0; frame_length < LENGTHS; frame_length++)
                    refusals_at(sizes[s], modes[m], slot_length, frame_length);
    group_ends("refusals 1 and 2, alone and at once: settings and lengths, all combined");
    for (size_t size = 40; size <= 400; size++)
        for (uint32_t mode = 2; mode <= 4; mode++)
            for (unsigned which = 1; which < LENGTHS; which++) {
                refusals_at(size, mode, which, 0);
                refusals_at(size, mode, 0, which);
            }
    group_ends("refusal 2: each buffer of a wrong length, every size and mode");
}

/* ---- slots to try */
typedef struct { size_t size; uint32_t mode, request; uint8_t frame[ROOM], slot[ROOM]; } sending;

/* A random frame and request with the slot that the reference makes of them. */
static sending random_sending(size_t size, uint32_t mode)
{
    sending s = {.size = size, .mode = mode, .request = below(4)};
    size_t frame_size = reference_frame_size(size, mode);
    random_bytes(s.frame, frame_size);
    reference_protect(size, mode, s.request, s.frame, frame_size, s.slot, size);
    return s;
}

typedef struct { uint16_t semi_octets, bits; } changes;

/* Changes at most `most` semi-octets in each word: in all words as many, in all words some, or in few words. */
static changes damage(size_t size, unsigned most, uint8_t *slot)
{
    unsigned kind = below(4);
    changes all = {0, 0};
    for (size_t i = 0; i < reference_words(size); i++) {
        unsigned in_word = kind == 0 ? most : kind == 1 || below(8) == 0 ? below(most + 1) : 0;
        all.semi_octets += in_word;
        all.bits += damage_word(size, i, in_word, ANY_BITS, slot);
    }
    return all;
}

/* Brings word i near another valid word: of a valid word with 2 m - 1 places that are not 0, between m and 2 m - 2 are
   added, so that the nearest valid word is another one. */
static void mislead_word(size_t size, uint32_t mode, size_t i, uint8_t *slot)
{
    size_t length = reference_length(size, i), checks = 2 * mode - 2, top = checks + below((uint32_t)(length - checks));
    unsigned left_out = 1 + below(mode - 1);
    uint8_t word[LONGEST] = {0}, rest[6];
    word[top] = (uint8_t)(1 + below(15));
    search_rest(word, length, mode, rest);
    memcpy(word, rest, checks);
    while (left_out > 0) {
        size_t k = below((uint32_t)length);
        left_out -= word[k] != 0;
        word[k] = 0;
    }
    for (size_t k = 0; k < length; k++)
        change_place(size, i, k, word[k], slot);
}

/* ---- every kind of case at one size and mode */
static void protecting(size_t size, uint32_t mode)
{
    sending s = random_sending(size, mode);
    protects_to(size, mode, s.request, s.frame, s.slot);
    unprotects_to(size, mode, s.slot, (slot_answer){0, (uint8_t)s.request, 0, 0}, s.frame);
}

static void plain_frames(size_t size, uint32_t mode)
{
    static const uint8_t bytes[] = {0, 255, 15, 240};
    uint32_t request = below(4);
    uint8_t frame[ROOM], slot[ROOM];
    size_t frame_size = reference_frame_size(size, mode);
    memset(frame, bytes[below(COUNT(bytes))], frame_size);
    frame[below((uint32_t)frame_size)] ^= (uint8_t)(1 << below(8));
    reference_protect(size, mode, request, frame, frame_size, slot, size);
    protects_to(size, mode, request, frame, slot);
}

/* Demand 3 (a): the sender's frame and request come back, with the number of changes in semi-octets and in bits. */
static void repairable(size_t size, uint32_t mode)
{
    sending s = random_sending(size, mode);
    changes all = damage(size, mode - 1, s.slot);
    unprotects_to(size, mode, s.slot, (slot_answer){0, (uint8_t)s.request, all.semi_octets, all.bits}, s.frame);
}

/* The same with as many changed semi-octets as can be repaired, and in each the same number of bits, 1 to 4. */
static void repairable_evenly(size_t size, uint32_t mode)
{
    sending s = random_sending(size, mode);
    unsigned semi_octets = (unsigned)reference_words(size) * (mode - 1), each = 1 + below(4);
    for (size_t i = 0; i < reference_words(size); i++)
        damage_word(size, i, mode - 1, each, s.slot);
    slot_answer want = {0, (uint8_t)s.request, (uint16_t)semi_octets, (uint16_t)(each * semi_octets)};
    unprotects_to(size, mode, s.slot, want, s.frame);
}

/* Whether either count says that nothing was changed. */
static int called_clean(slot_answer a)
{
    return a.number == 0 && (a.semi_octets == 0 || a.bits == 0);
}

/* Demand 3 (b): at least one change and up to 2 m - 2 in each word are never called clean. */
static void never_clean(size_t size, uint32_t mode)
{
    sending s = random_sending(size, mode);
    if (damage(size, 2 * mode - 2, s.slot).semi_octets == 0)
        damage_word(size, below((uint32_t)reference_words(size)), 1 + below(2 * mode - 2), ANY_BITS, s.slot);
    wrong += called_clean(unprotects_as_reference(size, mode, s.slot));
}

/* The same with words that are corrected to another word than the sender's. */
static void misled(size_t size, uint32_t mode)
{
    sending s = random_sending(size, mode);
    size_t words = reference_words(size), first = below((uint32_t)words);
    for (size_t i = 0; i < words; i++)
        if (i == first || below(16) == 0)
            mislead_word(size, mode, i, s.slot);
        else
            damage_word(size, i, below(mode), ANY_BITS, s.slot);
    wrong += called_clean(unprotects_as_reference(size, mode, s.slot));
}

/* Valid words that protecting does not make: one bit of the data is another, so a hash does not match. */
static void foreign(size_t size, uint32_t mode)
{
    sending s = random_sending(size, mode);
    uint8_t data[MOST_SEMI_OCTETS];
    reference_data(size, mode, s.request, s.frame, data);
    data[below((uint32_t)reference_data_size(size, mode))] ^= (uint8_t)(1 << below(4));
    reference_code(size, mode, data, s.slot);
    damage(size, mode - 1, s.slot);
    unprotects_to(size, mode, s.slot, (slot_answer){4, 0, 0, 0}, s.frame);
}

static void any_data(size_t size, uint32_t mode)
{
    uint8_t data[MOST_SEMI_OCTETS], slot[ROOM];
    for (size_t k = 0; k < reference_data_size(size, mode); k++)
        data[k] = (uint8_t)below(16);
    reference_code(size, mode, data, slot);
    damage(size, mode - 1, slot);
    unprotects_as_reference(size, mode, slot);
}

/* One word is beyond m - 1 changes, the others are clean or not. */
static void one_beyond(size_t size, uint32_t mode)
{
    sending s = random_sending(size, mode);
    size_t words = reference_words(size), beyond = below((uint32_t)words);
    for (size_t i = 0; i < words; i++)
        damage_word(size, i, i == beyond ? mode + below(4) : below(mode), ANY_BITS, s.slot);
    unprotects_as_reference(size, mode, s.slot);
}

static void any_bytes(size_t size, uint32_t mode)
{
    uint8_t slot[ROOM];
    random_bytes(slot, size);
    unprotects_as_reference(size, mode, slot);
}

static void other_mode(size_t size, uint32_t mode)
{
    uint32_t sent_in = 2 + (mode - 2 + 1 + below(2)) % 3;
    sending s = random_sending(size, sent_in);
    if (below(2))
        damage(size, sent_in - 1, s.slot);
    unprotects_as_reference(size, mode, s.slot);
}

/* The slots in which the partial concealment block is delicate: its size differs by a word from that of a fixed-point
   evaluation, or comes close to that. */
static void delicate(void)
{
    static const size_t delicate_sizes[] = {323, 338, 353, 368};
    for (size_t i = 0; i < COUNT(delicate_sizes); i++)
        for (unsigned turn = 0; turn < 500; turn++) {
            protecting(delicate_sizes[i], 4);
            repairable(delicate_sizes[i], 4);
            foreign(delicate_sizes[i], 4);
            misled(delicate_sizes[i], 4);
        }
    group_ends("slots 323, 338, 353 and 368 in mode 4: protected, damaged and foreign");
}

typedef void one_case(size_t size, uint32_t mode);

static void everywhere(one_case *one, const char *name)
{
    for (size_t size = 40; size <= 400; size++)
        for (uint32_t mode = 2; mode <= 4; mode++)
            for (unsigned turn = 0; turn < TURNS; turn++)
                one(size, mode);
    group_ends(name);
}

static void slots_alone(void)
{
    protect_list();
    unprotect_list("unprotect.txt", "unprotect.txt: every line");
    unprotect_list("unprotect_bits.txt", "unprotect_bits.txt: every line");
    frame_sizes();
    refusals();
    delicate();
    everywhere(protecting, "every size and mode: random frames and requests, and their slots unprotected");
    everywhere(plain_frames, "every size and mode: frames of one byte, one bit changed");
    everywhere(repairable, "every size and mode: at most m - 1 changes a word come back exactly");
    everywhere(repairable_evenly, "every size and mode: the same with m - 1 changes in all words, 1 to 4 bits in each");
    everywhere(never_clean, "every size and mode: up to 2m - 2 changes a word are never clean");
    everywhere(misled, "every size and mode: the same, with words near another valid word");
    everywhere(foreign, "every size and mode: valid words with a wrong hash are a 4");
    everywhere(any_data, "every size and mode: valid words of random data");
    everywhere(one_beyond, "every size and mode: one word with m to m + 3 changes");
    everywhere(any_bytes, "every size and mode: random bytes");
    everywhere(other_mode, "every size and mode: slots of another mode");
}

int main(int argc, char **argv)
{
    cases_start(argc > 1 ? argv[1] : NULL);
    folder = argc > 2 ? argv[2] : folder;
    if (!search_prepare()) {
        said(printf("WRONG: two patterns of at most m - 1 changes have one syndrome, or memory ended\n"));
        return 2;
    }
    quick_prepare();
    if (argc <= 3 || strcmp(argv[3], "batches") != 0)
        slots_alone();
    batches(folder);
    cases_end();
    return 0;
}
