/* Reading a frame: the archive beside tests/frame/reference.c, in two tables, of 10 ms and of the shorter durations (frames.h).
   With WITH_LC3 the first has liblc3 too, which cannot be asked for its parsing alone: that is its whole decoding, sound
   included. With FRAME_STAND_IN it says that the reference stands in for the archive. */
#include <inttypes.h>
#include <stdio.h>
#include <stdlib.h>
#include <string.h>
#ifdef WITH_LC3
#include <lc3.h>
#endif

#include "../common/said.h"
#include "../frame/lend.h"
#include "frames.h"
#include "parts.h"

#ifdef WITH_LC3
#define DECODERS 1
#else
#define DECODERS 0
#endif
#ifdef FRAME_STAND_IN
#define STAND_IN "The reference stands in for the archive here: these rows do not measure it.\n"
#else
#define STAND_IN ""
#endif
enum { READERS = 2 };

/* The table that is timed, how many sides it has, and its frames of the length that is timed, by setting. */
typedef struct { const frame *frames[MOST_FRAMES]; size_t count; } frames_of_lot;
static const table *timed;
static unsigned sides;
static frames_of_lot chosen[LOTS];

static void choose(size_t length)
{
    memset(chosen, 0, sizeof chosen);
    for (size_t n = 0; n < timed->count; n++) {
        frames_of_lot *c = &chosen[timed->all[n].lot];
        if (timed->all[n].length == length)
            c->frames[c->count++] = &timed->all[n];
    }
    for (unsigned lot = 0; lot < timed->lots; lot++)
        if (chosen[lot].count == 0)
            fails("there is no frame of a setting and length");
}

/* ---- a pass of one side over the chosen frames of a setting */
static answer answers[READERS][LOTS][MOST_FRAMES];

static void read_frame(unsigned side, const frame *f, answer *a)
{
    static reader *const readers[READERS] = {[ARCHIVE] = silberlaus_read_frame, [PAPERS] = reference_read_frame};
    const settings *set = timed->sets[f->lot];
    a->fields = readers[side](set->khz, set->quarters, f->bytes, f->length, a->spectrum, set->lines, a->residual, set->lines);
}

static void decode_frame(const frame *f)
{
#ifdef WITH_LC3
    static lc3_decoder_mem_48k_t memory[RATES];
    static lc3_decoder_t decoders[RATES];
    static int16_t sound[480];
    if (decoders[f->lot] == NULL)
        decoders[f->lot] = lc3_setup_decoder(10000, (int)timed->sets[f->lot]->khz * 1000, 0, &memory[f->lot]);
    if (lc3_decode(decoders[f->lot], f->bytes, (int)f->length, LC3_PCM_FORMAT_S16, sound, 1) != 0)
        fails("liblc3 does not decode a frame");
#else
    (void)f;
#endif
}

static size_t pass(unsigned lot, unsigned side)
{
    const frames_of_lot *c = &chosen[lot];
    for (size_t n = 0; n < c->count; n++)
        if (side == THIRD)
            decode_frame(c->frames[n]);
        else
            read_frame(side, c->frames[n], &answers[side][lot][n]);
    return c->count;
}

/* All frames of other lengths, in no time, so that a side has not learnt the chosen ones' branches by heart. */
static void others(unsigned side)
{
    static answer left;
    for (const frame *f = timed->all; f < timed->all + timed->count; f++)
        if (f->length == chosen[0].frames[0]->length)
            continue;
        else if (side == THIRD)
            decode_frame(f);
        else
            read_frame(side, f, &left);
}

/* Both readers accepted every frame and left the same. */
static void compare(unsigned lot)
{
    size_t lines = timed->sets[lot]->lines;
    for (size_t n = 0; n < chosen[lot].count; n++) {
        const answer *one = &answers[ARCHIVE][lot][n], *other = &answers[PAPERS][lot][n];
        if (one->fields.number != 0 || other->fields.number != 0)
            fails("a frame is not accepted");
        if (lend_difference(&one->fields, &other->fields) != NULL
            || memcmp(one->spectrum, other->spectrum, lines * sizeof one->spectrum[0]) != 0
            || memcmp(one->residual, other->residual, lines) != 0)
            fails("the two readers do not leave the same");
    }
}

/* ---- the tables */
static void print_row(size_t length, unsigned lot, const ns *best)
{
    double symbols = 0;
    for (size_t n = 0; n < chosen[lot].count; n++)
        symbols += answers[ARCHIVE][lot][n].fields.symbols;
    print_frame_row("read", timed->sets[lot], length, symbols / (double)chosen[lot].count, best);
    if (sides > THIRD)
        said(printf(" %7.0f | %5.2f |", best->of[THIRD], best->of[ARCHIVE] / best->of[THIRD]));
    said(printf("\n"));
}

static void time_length(size_t length)
{
    const work frames = {timed->lots, sides, others, pass, compare};
    ns best[MOST_LOTS];
    choose(length);
    for (unsigned side = 0; side < READERS; side++)
        memset(answers[side], 0x55 << side, sizeof answers[side]);
    time_work(&frames, best);
    for (unsigned lot = 0; lot < timed->lots; lot++)
        print_row(length, lot, &best[lot]);
    all_said();
}

static void time_table(const table *t, unsigned of_sides, size_t lengths)
{
    timed = t;
    sides = of_sides;
    for (size_t n = 0; n < lengths; n++)
        time_length(timed_lengths[n]);
}

void bench_reading(void)
{
    said(printf("\n" STAND_IN
                "Reading frames of 10 ms, beside tests/frame/reference.c. Symbols: how many a frame has on average. %s\n\n"
                "| bytes | kHz | symbols | archive |      C | ratio |%s\n"
                "|------:|----:|--------:|--------:|-------:|------:|%s\n",
                DECODERS ? "liblc3: its\nwhole decoding, sound included, as its parsing cannot be called alone."
                         : "liblc3 is not installed here.",
                DECODERS ? "  liblc3 | ratio |" : "", DECODERS ? "--------:|------:|" : ""));
    time_table(&of_10_ms, READERS + DECODERS, TIMED_LENGTHS);
    said(printf("\nReading frames of 2.5, 5 and 7.5 ms, the same way, made from the lines of those of 10 ms.\n\n"
                "| bytes |  ms | kHz | symbols | archive |      C | ratio |\n"
                "|------:|----:|----:|--------:|--------:|-------:|------:|\n"));
    time_table(&shorter, READERS, TIMED_LENGTHS - 1);
}
