/* The stack that a call needs: each is made on a stack of its own that was painted before, and what is no longer paint was
   used. Measured against a call of a function that does nothing, so that the caller's own part is left out. */
#include <stdio.h>
#include <string.h>
#include <ucontext.h>

#include "check.h"

enum { PAINT = 0x3b, RETURN_ADDRESS = 8, STACK = 65536 };

static _Alignas(16) uint8_t stack[STACK];
static ucontext_t home, away;

/* Bytes of the stack that a run of `call` used. */
static size_t depth_of(void (*call)(void))
{
    call(); /* once here: the first call of a library's function may go by way of the linker */
    memset(stack, PAINT, STACK);
    getcontext(&away);
    away.uc_stack.ss_sp = stack;
    away.uc_stack.ss_size = STACK;
    away.uc_link = &home;
    makecontext(&away, call, 0);
    swapcontext(&home, &away);
    size_t free = 0;
    while (free < STACK && stack[free] == PAINT)
        free++;
    return STACK - free;
}

/* What the calls below work on; a call's answer is kept, so that none is left out. */
static uint8_t sent[SILBERLAUS_SLOT_MAX], frames[SILBERLAUS_FRAME_MAX];
static uint8_t record[SILBERLAUS_RECORD_MAX], moved[SILBERLAUS_RECORD_MAX];
static size_t size, used, moved_used;
static uint32_t mode;
static volatile uint64_t kept;

static __attribute__((noinline)) uint64_t idle(size_t a, size_t b, size_t c, const uint8_t *d, size_t e, uint32_t f, uint32_t g,
                                               uint32_t h)
{
    __asm__ volatile("" : : "r"(d));
    return a + b + c + e + f + g + h;
}

static void nothing(void) { kept = idle(size, used, 1, sent, 1, mode, 1, 1); }
static void frame_size(void) { kept = silberlaus_frame_size(size, mode); }
static void protect(void) { kept = silberlaus_protect(size, mode, 3, frames, silberlaus_frame_size(size, mode), sent, size); }

static void unprotect(void)
{
    silberlaus_unprotected a = silberlaus_unprotect(size, mode, sent, size, frames, silberlaus_frame_size(size, mode));
    kept = (uint64_t)a.number + a.semi_octets + a.bits;
}

/* Three slots at once: one clean, the one in `sent` and the clean one again. */
static uint8_t clean[SILBERLAUS_SLOT_MAX];

static void unprotect_each(void)
{
    enum { N = 3 };
    static uint8_t slots[N * SILBERLAUS_SLOT_MAX], numbers[N], requests[N], out[N * SILBERLAUS_SLOT_FRAME_MAX];
    static uint16_t semi_octets[N], bits[N];
    memcpy(slots, clean, size);
    memcpy(slots + size, sent, size);
    memcpy(slots + 2 * size, clean, size);
    kept = silberlaus_unprotect_each(size, mode, slots, N * size, numbers, N, requests, N, semi_octets, N, bits, N, out,
                                     N * silberlaus_frame_size(size, mode));
    kept += (uint64_t)numbers[1] + semi_octets[1] + bits[1];
}

static int32_t spectrum[SILBERLAUS_LINES_MAX];
static uint8_t residual[SILBERLAUS_LINES_MAX];

/* The frame's rate, duration and lines; `size` is its length. */
static uint32_t khz, quarters;
static size_t lines;

static void line_count(void) { kept = silberlaus_line_count(khz, quarters); }

static void read_frame(void)
{
    kept = silberlaus_read_frame(khz, quarters, frames, size, spectrum, lines, residual, lines).number;
}

/* What is written: what was read, with a residual bit for each line that is not 0. */
static silberlaus_frame fields;

static void write_frame(void)
{
    static uint8_t out[SILBERLAUS_FRAME_MAX];
    kept = silberlaus_write_frame(khz, quarters, fields, spectrum, lines, residual, lines, out, size).number;
}

/* The record is of form 2, and moved to form 1 in `moved`. */
static void read_entry(void)
{
    kept = silberlaus_read_entry(2, record, used, 0, khz, quarters, spectrum, lines, residual, lines).number;
}

static void read_entry_1(void)
{
    kept = silberlaus_read_entry(1, moved, moved_used, 0, khz, quarters, spectrum, lines, residual, lines).number;
}

static void record_new(void) { kept = silberlaus_record_new(2, record, sizeof record); }
static void record_new_1(void) { kept = silberlaus_record_new(1, moved, sizeof moved); }
static void record_add(void) { kept = silberlaus_record_add(record, sizeof record, used, frames, 20, 1, 2, 7, 20).used; }
static void record_entries(void) { kept = silberlaus_record_entries(2, record, used).entries; }
static void record_entries_1(void) { kept = silberlaus_record_entries(1, moved, moved_used).entries; }
static void record_entry(void) { kept = silberlaus_record_entry(2, record, used, 0).length; }
static void record_entry_1(void) { kept = silberlaus_record_entry(1, moved, moved_used, 0).length; }
static void to_form_1(void) { kept = silberlaus_record_to_form_1(record, used, moved, sizeof moved).used; }
static void to_form_2(void) { kept = silberlaus_record_to_form_2(moved, moved_used, record, sizeof record).used; }

/* The most that was needed since it was last said. */
static size_t most_needed;

static void needs_at_most(void (*call)(void), size_t most)
{
    size_t needed = depth_of(call) + RETURN_ADDRESS - depth_of(nothing);
    EXPECT(needed <= most);
    if (needed > most_needed)
        most_needed = needed;
}

static void say(const char *name, size_t most)
{
    printf("%s needed %zu of %zu bytes\n", name, most_needed, most);
    most_needed = 0;
}

/* Every size and mode: made, taken clean, with as much damage as can be repaired in every word, and with more; alone and among
   others. */
static void slot_stacks(void)
{
    static const size_t sizes[] = {40, 41, 79, 80, 160, 400};
    for (size_t s = 0; s < COUNT(sizes); s++)
        for (mode = SILBERLAUS_MODE_MIN; mode <= SILBERLAUS_MODE_MAX; mode++) {
            size = sizes[s];
            needs_at_most(frame_size, SILBERLAUS_STACK_SLOT);
            needs_at_most(protect, SILBERLAUS_STACK_SLOT);
            memcpy(clean, sent, size);
            needs_at_most(unprotect, SILBERLAUS_STACK_SLOT);
            needs_at_most(unprotect_each, SILBERLAUS_STACK_SLOT);
            for (size_t i = 0; i < (2 * size + 14) / 15; i++)
                damage(sent, size, i, mode - 1);
            needs_at_most(unprotect, SILBERLAUS_STACK_SLOT);
            needs_at_most(unprotect_each, SILBERLAUS_STACK_SLOT);
            damage(sent, size, 1, 6);
            needs_at_most(unprotect, SILBERLAUS_STACK_SLOT);
            needs_at_most(unprotect_each, SILBERLAUS_STACK_SLOT);
        }
}

static void record_stacks(void)
{
    needs_at_most(record_new_1, SILBERLAUS_STACK_RECORD);
    needs_at_most(record_new, SILBERLAUS_STACK_RECORD);
    used = SILBERLAUS_RECORD_MIN_2;
    for (unsigned k = 0; k < 30; k++) {
        needs_at_most(record_add, SILBERLAUS_STACK_RECORD);
        used += 26;
    }
    needs_at_most(record_entries, SILBERLAUS_STACK_RECORD);
    needs_at_most(record_entry, SILBERLAUS_STACK_RECORD);
    needs_at_most(to_form_1, SILBERLAUS_STACK_RECORD);
    moved_used = used - 2 * 30 - 1;
    needs_at_most(record_entries_1, SILBERLAUS_STACK_RECORD);
    needs_at_most(record_entry_1, SILBERLAUS_STACK_RECORD);
    needs_at_most(to_form_2, SILBERLAUS_STACK_RECORD);
    to_form_2();
    EXPECT(kept == used);
}

/* What is read of the sample, if it is accepted, in LSB mode 0; with lines that take the most symbols, in a frame of its length
   and in the longest. */
static void write_sample(const sample *s)
{
    size = sample_bytes(s, frames);
    khz = s->khz;
    quarters = s->quarters;
    lines = silberlaus_line_count(khz, quarters);
    fields = silberlaus_read_frame(khz, quarters, frames, size, spectrum, lines, residual, lines);
    fields.lsb_mode = 0;
    fields.residual_bits = 0;
    for (size_t k = 0; k < fields.last_line; k++)
        fields.residual_bits = (uint16_t)(fields.residual_bits + (spectrum[k] != 0));
    needs_at_most(write_frame, SILBERLAUS_STACK_FRAME);
    for (size_t k = 0; k < fields.last_line; k++)
        spectrum[k] = spectrum[k] == 0 ? 0 : 32767;
    needs_at_most(write_frame, SILBERLAUS_STACK_FRAME);
    size = SILBERLAUS_FRAME_MAX;
    needs_at_most(write_frame, SILBERLAUS_STACK_FRAME);
}

static void write_stacks(void)
{
    for (size_t k = 0; k < SAMPLES; k++)
        write_sample(&samples[k]);
}

/* Each sample as a frame and as an entry. */
static void frame_stacks(void)
{
    for (size_t k = 0; k < SAMPLES; k++) {
        size = sample_bytes(&samples[k], frames);
        khz = samples[k].khz;
        quarters = samples[k].quarters;
        lines = silberlaus_line_count(khz, quarters);
        record_new();
        used = silberlaus_record_add(record, sizeof record, SILBERLAUS_RECORD_MIN_2, frames, size, 0, 0, 0, (uint32_t)size).used;
        moved_used = silberlaus_record_to_form_1(record, used, moved, sizeof moved).used;
        needs_at_most(line_count, SILBERLAUS_STACK_FRAME);
        needs_at_most(read_frame, SILBERLAUS_STACK_FRAME);
        needs_at_most(read_entry, SILBERLAUS_STACK_FRAME);
        needs_at_most(read_entry_1, SILBERLAUS_STACK_FRAME);
    }
}

void stacks(void)
{
    slot_stacks();
    say("slots", SILBERLAUS_STACK_SLOT);
    frame_stacks();
    say("frames that are read", SILBERLAUS_STACK_FRAME);
    write_stacks();
    say("frames that are written", SILBERLAUS_STACK_FRAME);
    record_stacks();
    say("records", SILBERLAUS_STACK_RECORD);
}
