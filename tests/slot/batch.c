/* See batch.h. All that a call is lent stands in one piece of memory, with noise before, between and behind the buffers, in
   the entries and in the frames' places: what is compared is all of it. */
#include "batch.h"

#include <inttypes.h>
#include <stdio.h>
#include <string.h>

#include "../common/cases.h"
#include "../common/said.h"
#include "damage.h"
#include "list.h"
#include "quick.h"
#include "reference.h"

/* ---- a call and its sides */
enum { SLOTS, NUMBERS, REQUESTS, SEMI_OCTETS, BITS, FRAMES, PARTS };
static const char *const part_names[PARTS] = {"slots", "numbers", "requests", "semi_octets", "bits", "frames"};

/* Settings, and how many elements of each buffer are lent; with `nowhere` a buffer of none is lent as NULL. */
typedef struct { size_t size; uint32_t mode; size_t length[PARTS]; int nowhere; } call;

/* The archive's call for one slot, for lengths that are right. */
static uint8_t one_by_one(size_t size, uint32_t mode, const uint8_t *slots, size_t slots_len, uint8_t *numbers, size_t n,
                          uint8_t *requests, size_t n_requests, uint16_t *semi_octets, size_t n_semi_octets, uint16_t *bits,
                          size_t n_bits, uint8_t *frames, size_t frames_len)
{
    (void)slots_len, (void)n_requests, (void)n_semi_octets, (void)n_bits;
    for (size_t i = 0; i < n; i++) {
        size_t frame_size = frames_len / n;
        slot_answer a = silberlaus_unprotect(size, mode, slots + i * size, size, frames + i * frame_size, frame_size);
        numbers[i] = a.number;
        requests[i] = a.request;
        semi_octets[i] = a.semi_octets;
        bits[i] = a.bits;
    }
    return 0;
}

enum { ONE_BY_ONE, QUICK, ARCHIVE, REFERENCE, SIDES };
static const struct { const char *name; each_call *unprotect_each; } sides[SIDES] = {
    [ONE_BY_ONE] = {"unprotect, slot by slot", one_by_one},
    [QUICK] = {"quick.c's unprotect_each", quick_unprotect_each},
    [ARCHIVE] = {"unprotect_each", silberlaus_unprotect_each},
    [REFERENCE] = {"reference.c's unprotect_each", reference_unprotect_each},
};

/* ---- memory: as it is lent, as it has to be left, as a side left it; and where the buffers start in it */
enum { MEMORY = 6 << 20 };
static _Alignas(16) uint8_t before[MEMORY], wanted[MEMORY], left[MEMORY];
static size_t place[PARTS], end;

static size_t width(unsigned part)
{
    return part == SEMI_OCTETS || part == BITS ? 2 : 1;
}

/* Noise everywhere, which has to stay: bytes start at any place, wider entries at an even one. */
static void lend(const call *c)
{
    end = 0;
    for (unsigned part = 0; part < PARTS; part++) {
        end += GUARD + below(16);
        end += end % width(part);
        place[part] = end;
        end += width(part) * c->length[part];
    }
    end += GUARD;
    random_bytes(before, end);
    memcpy(wanted, before, end);
}

static uint8_t run(each_call *unprotect_each, const call *c, uint8_t *memory)
{
    const size_t *length = c->length;
    uint8_t *at[PARTS];
    for (unsigned part = 0; part < PARTS; part++)
        at[part] = c->nowhere && length[part] == 0 ? NULL : memory + place[part];
    return unprotect_each(c->size, c->mode, at[SLOTS], length[SLOTS], at[NUMBERS], length[NUMBERS], at[REQUESTS],
                          length[REQUESTS], (uint16_t *)at[SEMI_OCTETS], length[SEMI_OCTETS], (uint16_t *)at[BITS],
                          length[BITS], at[FRAMES], length[FRAMES]);
}

/* The buffer in which, or behind which, what was left first is another than what is wanted. */
static const char *first_difference(void)
{
    size_t at = 0;
    unsigned part = PARTS - 1;
    while (at < end && left[at] == wanted[at])
        at++;
    while (part > 0 && place[part] > at)
        part--;
    return at < end ? part_names[part] : "no buffer";
}

/* Each of these sides gives that number and leaves what is wanted. */
static void judge(const call *c, uint8_t number, unsigned from, unsigned to)
{
    for (unsigned side = from; side < to; side++) {
        memcpy(left, before, end);
        uint8_t got = run(sides[side].unprotect_each, c, left);
        if (case_shown(got == number && memcmp(left, wanted, end) == 0))
            said(printf("  WRONG: %s, size %zu, mode %" PRIu32 ", %zu numbers: %u, wanted %u; another byte first in %s\n",
                        sides[side].name, c->size, c->mode, c->length[NUMBERS], got, number, first_difference()));
    }
}

/* What was put into `wanted` is right; on 1 and 2 that is what was lent, and one slot alone has no such call. */
static void judge_as_stated(const call *c, uint8_t number)
{
    judge(c, number, number == 0 ? ONE_BY_ONE : QUICK, SIDES);
}

static void judge_as_reference(const call *c)
{
    judge(c, run(reference_unprotect_each, c, wanted), ONE_BY_ONE, REFERENCE);
}

/* ---- slots to try */
enum { CLEAN, DAMAGED, HOPELESS, FOREIGN, KINDS, ANY = KINDS };

static void damage(size_t size, uint32_t mode, uint8_t *slot)
{
    for (size_t i = 0; i < reference_words(size); i++)
        damage_word(size, i, below(mode), ANY_BITS, slot);
}

/* More than m - 1 changes in a word may lead to another valid word, so they are tried until there is none. */
static void make_hopeless(size_t size, uint32_t mode, uint8_t *slot)
{
    uint8_t start[MOST_BYTES], frame[MOST_BYTES];
    memcpy(start, slot, size);
    do {
        memcpy(slot, start, size);
        damage_word(size, below((uint32_t)reference_words(size)), mode + below(4), ANY_BITS, slot);
    } while (reference_unprotect(size, mode, slot, size, frame, reference_frame_size(size, mode)).number != 3);
}

/* A slot of that kind; of any kind it is one of them, or random bytes. */
static void make_slot(size_t size, uint32_t mode, unsigned kind, uint8_t *slot)
{
    uint8_t frame[MOST_BYTES], data[MOST_SEMI_OCTETS];
    if (kind == ANY)
        kind = below(KINDS + 1);
    random_bytes(slot, size);
    if (kind == KINDS)
        return;
    random_bytes(frame, reference_frame_size(size, mode));
    reference_data(size, mode, below(4), frame, data);
    if (kind == FOREIGN)
        data[below((uint32_t)reference_data_size(size, mode))] ^= (uint8_t)(1 << below(4));
    reference_code(size, mode, data, slot);
    if (kind == DAMAGED || (kind != CLEAN && below(2)))
        damage(size, mode, slot);
    if (kind == HOPELESS)
        make_hopeless(size, mode, slot);
}

/* The lengths for so many slots; where a setting is out of range there is no right one of a frame, and a plausible one stands
   in. */
static call call_of(size_t size, uint32_t mode, size_t n)
{
    size_t right = reference_frame_size(size, mode);
    return (call){size, mode, {n * size, n, n, n, n, n * (right > 0 ? right : 32)}, 0};
}

/* A batch of slots of these kinds, which the reference has to take for that. */
static void kinds_case(size_t size, uint32_t mode, const uint8_t *kinds, size_t n)
{
    static const uint8_t numbers[KINDS] = {[CLEAN] = 0, [DAMAGED] = 0, [HOPELESS] = 3, [FOREIGN] = 4};
    call c = call_of(size, mode, n);
    lend(&c);
    for (size_t i = 0; i < n; i++)
        make_slot(size, mode, kinds[i], before + place[SLOTS] + i * size);
    memcpy(wanted, before, end);
    judge_as_reference(&c);
    for (size_t i = 0; i < n; i++)
        wrong += kinds[i] != ANY && wanted[place[NUMBERS] + i] != numbers[kinds[i]];
}

/* ---- accepted batches */
static void no_slots(void)
{
    for (size_t size = 40; size <= 400; size++)
        for (uint32_t mode = 2; mode <= 4; mode++) {
            call c = call_of(size, mode, 0);
            lend(&c);
            judge_as_stated(&c, 0);
            c.nowhere = 1;
            judge_as_stated(&c, 0);
        }
    group_ends("batches, every size and mode: no slots, lent somewhere and nowhere");
}

static void few_slots(void)
{
    static const uint8_t any[] = {ANY, ANY, ANY, ANY, ANY, ANY, ANY, ANY};
    for (size_t size = 40; size <= 400; size++)
        for (uint32_t mode = 2; mode <= 4; mode++)
            for (unsigned turn = 0; turn < 4; turn++) {
                kinds_case(size, mode, any, 1);
                kinds_case(size, mode, any, 2);
                kinds_case(size, mode, any, 3 + below(COUNT(any) - 2));
            }
    group_ends("batches, every size and mode: 1 to 8 slots, clean, damaged, refused and random");
}

/* Refused slots at every place, in all of them, and in none. */
static void refused_slots(void)
{
    enum { OF = 5 };
    static const uint8_t kinds[][OF] = {
        {CLEAN, CLEAN, CLEAN, CLEAN, CLEAN},
        {DAMAGED, DAMAGED, DAMAGED, DAMAGED, DAMAGED},
        {HOPELESS, HOPELESS, HOPELESS, HOPELESS, HOPELESS},
        {FOREIGN, FOREIGN, FOREIGN, FOREIGN, FOREIGN},
        {HOPELESS, FOREIGN, HOPELESS, FOREIGN, HOPELESS},
        {HOPELESS, DAMAGED, CLEAN, DAMAGED, CLEAN},
        {FOREIGN, CLEAN, DAMAGED, CLEAN, DAMAGED},
        {DAMAGED, CLEAN, HOPELESS, DAMAGED, CLEAN},
        {CLEAN, DAMAGED, FOREIGN, CLEAN, DAMAGED},
        {DAMAGED, DAMAGED, CLEAN, DAMAGED, HOPELESS},
        {CLEAN, CLEAN, DAMAGED, DAMAGED, FOREIGN},
        {FOREIGN, DAMAGED, HOPELESS, DAMAGED, FOREIGN},
    };
    for (size_t size = 40; size <= 400; size++)
        for (uint32_t mode = 2; mode <= 4; mode++)
            for (size_t k = 0; k < COUNT(kinds); k++)
                kinds_case(size, mode, kinds[k], OF);
    group_ends("batches, every size and mode: slots refused first, last, between, all and none");
}

static const size_t sizes[] = {40, 41, 79, 80, 217, 338, 400};

static void forty_slots(void)
{
    uint8_t any[40];
    memset(any, ANY, sizeof any);
    for (size_t s = 0; s < COUNT(sizes); s++)
        for (uint32_t mode = 2; mode <= 4; mode++)
            for (unsigned turn = 0; turn < 5; turn++)
                kinds_case(sizes[s], mode, any, sizeof any);
    group_ends("batches: 40 slots");
}

/* More slots than 8 and 16 bits can count: some are made, and the others are copies of them. */
static void many_slots(void)
{
    enum { SIZE = SILBERLAUS_SLOT_MIN, MADE = 200 };
    static const size_t counts[] = {255, 256, 257, 1000, 65536 + 500};
    for (size_t k = 0; k < COUNT(counts); k++) {
        uint32_t mode = 2 + (uint32_t)k % 3;
        call c = call_of(SIZE, mode, counts[k]);
        lend(&c);
        uint8_t *slots = before + place[SLOTS];
        for (size_t i = 0; i < counts[k]; i++)
            if (i < MADE)
                make_slot(SIZE, mode, ANY, slots + i * SIZE);
            else
                memcpy(slots + i * SIZE, slots + below(MADE) * SIZE, SIZE);
        memcpy(wanted, before, end);
        judge_as_reference(&c);
    }
    group_ends("batches: 255 to 66,036 slots of 40 bytes");
}

/* ---- the lists: what a batch leaves is what its lines say */
enum { MOST_LINES = 512 };
static received lines[MOST_LINES];
static size_t line_count;

static void read_lines(const char *folder, const char *name)
{
    FILE *list = list_open(folder, name);
    while (line_count < MOST_LINES && next_received(list, name, &lines[line_count]))
        line_count++;
    fclose(list);
    if (line_count == MOST_LINES)
        malformed(name);
}

/* Lends the line as slot i, and wants its answer there. */
static void put_line(const received *line, size_t i)
{
    size_t frame_size = reference_frame_size(line->size, line->mode);
    memcpy(before + place[SLOTS] + i * line->size, line->slot, line->slot_len);
    memcpy(wanted + place[SLOTS] + i * line->size, line->slot, line->slot_len);
    if (line->want.number == 1 || line->want.number == 2)
        return;
    wanted[place[NUMBERS] + i] = line->want.number;
    wanted[place[REQUESTS] + i] = line->want.request;
    memcpy(wanted + place[SEMI_OCTETS] + 2 * i, &line->want.semi_octets, 2);
    memcpy(wanted + place[BITS] + 2 * i, &line->want.bits, 2);
    if (line->want.number == 0)
        memcpy(wanted + place[FRAMES] + i * frame_size, line->frame, frame_size);
}

/* Every line as a batch of one slot: on a 1 or a 2 the call is refused. */
static void lines_alone(void)
{
    for (const received *line = lines; line < lines + line_count; line++) {
        call c = call_of(line->size, line->mode, 1);
        uint8_t number = line->want.number;
        c.length[SLOTS] = line->slot_len;
        lend(&c);
        put_line(line, 0);
        judge_as_stated(&c, number == 1 || number == 2 ? number : 0);
    }
    group_ends("batches: every line of unprotect.txt and unprotect_bits.txt as a batch of one");
}

/* Whether a line is a slot of a batch of this size and mode. */
static int belongs(const received *line, size_t size, uint32_t mode)
{
    return line->size == size && line->mode == mode && line->want.number != 1 && line->want.number != 2;
}

static void lines_together(void)
{
    for (size_t size = 40; size <= 400; size++)
        for (uint32_t mode = 2; mode <= 4; mode++) {
            size_t n = 0, i = 0;
            for (size_t k = 0; k < line_count; k++)
                n += (size_t)belongs(&lines[k], size, mode);
            if (n == 0)
                continue;
            call c = call_of(size, mode, n);
            lend(&c);
            for (size_t k = 0; k < line_count; k++)
                if (belongs(&lines[k], size, mode))
                    put_line(&lines[k], i++);
            judge_as_stated(&c, 0);
        }
    group_ends("batches: the lines of both lists, all of a size and mode end to end");
}

/* ---- refusals */

/* Lends clean slots, as many as there are whole ones, and wants that number and all as it was. */
static void refused_case(const call *c, size_t size, uint32_t mode, uint8_t number)
{
    lend(c);
    for (size_t i = 0; size >= 40 && size <= 400 && i < c->length[SLOTS] / size; i++)
        make_slot(size, mode, CLEAN, before + place[SLOTS] + i * size);
    memcpy(wanted, before, end);
    judge_as_stated(c, number);
}

/* The call with each buffer in turn of every wrong length: one short, one long, for a slot less and for one more, none, and one
   that is right in 8 bits. `size` and `mode` are those of the slots lent. */
static void wrong_lengths(call c, size_t size, uint32_t mode, uint8_t number)
{
    for (unsigned part = 0; part < PARTS; part++) {
        size_t right = c.length[part], slot = part == SLOTS ? size : part == FRAMES ? reference_frame_size(size, mode) : 1;
        size_t tried[] = {right - 1, right + 1, right - slot, right + slot, 0, right + 256};
        for (size_t k = 0; k < COUNT(tried); k++) {
            if (tried[k] == right || tried[k] > right + 400) /* there is nothing below none */
                continue;
            c.length[part] = tried[k];
            refused_case(&c, size, mode, number);
        }
        c.length[part] = right;
    }
}

/* 2 where a buffer has not its length, or where all but one have that of two slots more. */
static void lengths(void)
{
    static const size_t counts[] = {0, 1, 3};
    for (size_t s = 0; s < COUNT(sizes); s++)
        for (uint32_t mode = 2; mode <= 4; mode++)
            for (size_t k = 0; k < COUNT(counts); k++) {
                call c = call_of(sizes[s], mode, counts[k]), other = call_of(sizes[s], mode, counts[k] + 2);
                wrong_lengths(c, sizes[s], mode, 2);
                c.nowhere = 1;
                wrong_lengths(c, sizes[s], mode, 2);
                for (unsigned part = 0; part < PARTS; part++) {
                    call odd = other;
                    odd.length[part] = c.length[part];
                    refused_case(&odd, sizes[s], mode, 2);
                }
                /* so that what was refused was refused for its lengths alone */
                kinds_case(sizes[s], mode, (const uint8_t[]){CLEAN, DAMAGED, FOREIGN}, counts[k]);
            }
    group_ends("batches, refusal 2: each buffer of every wrong length, nothing written");
}

/* A setting out of range, lent what would be right for another: its own or what is left of it in 8, 16 or 32 bits. */
typedef struct { size_t size, like_size; uint32_t mode, like_mode; } setting;

static void setting_case(setting s)
{
    static const size_t counts[] = {0, 1, 3};
    for (size_t k = 0; k < COUNT(counts); k++) {
        call c = call_of(s.like_size, s.like_mode, counts[k]);
        c.size = s.size;
        c.mode = s.mode;
        refused_case(&c, s.like_size, s.like_mode, 1);
        c.nowhere = 1;
        refused_case(&c, s.like_size, s.like_mode, 1);
        wrong_lengths(c, s.like_size, s.like_mode, 1);
    }
}

/* 1 where a setting is out of range, whatever the lengths are. */
static void settings(void)
{
    static const size_t wide = (size_t)1 << 32;
    const size_t no_sizes[][2] = {{0, 0}, {0, 40}, {1, 40}, {39, 39}, {39, 40}, {401, 401}, {401, 400}, {65536 + 80, 80},
                                  {wide, 40}, {wide + 40, 40}, {wide + 400, 400}, {SIZE_MAX, 80}};
    static const uint32_t no_modes[][2] = {{0, 2}, {1, 2}, {5, 4}, {255, 4}, {258, 2}, {260, 4}, {65536 + 3, 3},
                                           {0x80000002u, 2}, {4294967295u, 3}};
    for (size_t s = 0; s < COUNT(no_sizes); s++)
        for (uint32_t mode = 2; mode <= 4; mode++)
            setting_case((setting){no_sizes[s][0], no_sizes[s][1], mode, mode});
    for (size_t m = 0; m < COUNT(no_modes); m++)
        for (size_t s = 0; s < COUNT(sizes); s++)
            setting_case((setting){sizes[s], sizes[s], no_modes[m][0], no_modes[m][1]});
    setting_case((setting){wide + 80, 80, 258, 2});
    group_ends("batches, refusal 1: sizes and modes, with right and with wrong lengths");
}

void batches(const char *folder)
{
    read_lines(folder, "unprotect.txt");
    read_lines(folder, "unprotect_bits.txt");
    lines_alone();
    lines_together();
    no_slots();
    few_slots();
    refused_slots();
    forty_slots();
    many_slots();
    lengths();
    settings();
}
