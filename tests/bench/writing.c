/* Writing a frame: the archive beside tests/writer/reference.c, on the frames that are read in reading.c, but for those in LSB
   mode 1, and on 400 bytes at the shorter durations. What is given is what was read, and both writers have to give the frame's
   own bytes. With WRITER_STAND_IN it says that the reference stands in for the archive. */
#include <stdio.h>
#include <string.h>

#include "../common/said.h"
#include "../writer/again.h"
#include "frames.h"
#include "parts.h"

#ifdef WRITER_STAND_IN
#define STAND_IN "The reference stands in for the archive here: these rows do not measure it.\n"
#else
#define STAND_IN ""
#endif
enum { WRITERS = 2 };

/* ---- what is given for each frame of a table, and for those of the length that is timed, by setting */
typedef struct { unsigned lot; asked given; written want; } order;
typedef struct { const order *orders[MOST_FRAMES]; size_t count; } orders_of_lot;

static const table *timed;
static order orders[MOST_FRAMES];
static size_t order_count;
static orders_of_lot chosen[LOTS];

static void read_orders(const table *t)
{
    timed = t;
    order_count = 0;
    for (const frame *f = t->all; f < t->all + t->count; f++) {
        order *o = &orders[order_count];
        o->lot = f->lot;
        order_count += again_asked(reference_read_frame, t->sets[f->lot], f->bytes, f->length, &o->given, &o->want) != 0;
    }
}

static void choose(size_t length)
{
    memset(chosen, 0, sizeof chosen);
    for (const order *o = orders; o < orders + order_count; o++) {
        orders_of_lot *c = &chosen[o->lot];
        if (o->given.length == length)
            c->orders[c->count++] = o;
    }
    for (unsigned lot = 0; lot < timed->lots; lot++)
        if (chosen[lot].count == 0)
            fails("there is no frame of a setting and length to write");
}

/* ---- a pass of one side over the chosen frames of a setting */
static written answers[WRITERS][LOTS][MOST_FRAMES];

static void write_frame(unsigned side, const order *o, written *w)
{
    static writer *const writers[WRITERS] = {[ARCHIVE] = silberlaus_write_frame, [PAPERS] = reference_write_frame};
    const asked *a = &o->given;
    w->said = writers[side](a->khz, a->quarters, a->fields, a->spectrum, a->spectrum_length, a->residual, a->residual_length,
                            w->frame, a->length);
}

static size_t pass(unsigned lot, unsigned side)
{
    const orders_of_lot *c = &chosen[lot];
    for (size_t n = 0; n < c->count; n++)
        write_frame(side, c->orders[n], &answers[side][lot][n]);
    return c->count;
}

/* All frames of other lengths, in no time, so that a side has not learnt the chosen ones' branches by heart. */
static void others(unsigned side)
{
    static written left;
    for (const order *o = orders; o < orders + order_count; o++)
        if (o->given.length != chosen[0].orders[0]->given.length)
            write_frame(side, o, &left);
}

static void compare(unsigned lot)
{
    for (unsigned side = 0; side < WRITERS; side++)
        for (size_t n = 0; n < chosen[lot].count; n++) {
            const order *o = chosen[lot].orders[n];
            const written *w = &answers[side][lot][n];
            if (w->said.number != 0 || w->said.residual_bits != o->want.said.residual_bits)
                fails("a frame is not written");
            if (memcmp(w->frame, o->want.frame, o->given.length) != 0)
                fails("a frame that is written again is another");
        }
}

/* ---- the tables */
static void print_row(size_t length, unsigned lot, const ns *best)
{
    double symbols = 0;
    for (size_t n = 0; n < chosen[lot].count; n++)
        symbols += chosen[lot].orders[n]->given.fields.symbols;
    print_frame_row("write", timed->sets[lot], length, symbols / (double)chosen[lot].count, best);
    said(printf("\n"));
}

static void time_length(size_t length)
{
    const work frames = {timed->lots, WRITERS, others, pass, compare};
    ns best[MOST_LOTS];
    choose(length);
    for (unsigned side = 0; side < WRITERS; side++)
        memset(answers[side], 0x55 << side, sizeof answers[side]);
    time_work(&frames, best);
    for (unsigned lot = 0; lot < timed->lots; lot++)
        print_row(length, lot, &best[lot]);
    all_said();
}

static void time_table(const table *t)
{
    read_orders(t);
    for (size_t n = 0; n < TIMED_LENGTHS; n++)
        time_length(timed_lengths[n]);
}

void bench_writing(void)
{
    static table up_to_400;
    up_to_400 = shorter;
    frames_add_full(&up_to_400, timed_lengths[TIMED_LENGTHS - 1]);
    said(printf("\n" STAND_IN
                "Writing frames of 10 ms, beside tests/writer/reference.c: those above that are in LSB mode 0, as they are read.\n\n"
                "| bytes | kHz | symbols | archive |      C | ratio |\n"
                "|------:|----:|--------:|--------:|-------:|------:|\n"));
    time_table(&of_10_ms);
    said(printf("\nWriting frames of 2.5, 5 and 7.5 ms, the same way. Those of 400 bytes have lines that are doubled as often as there\n"
                "is room for, and are not all full.\n\n"
                "| bytes |  ms | kHz | symbols | archive |      C | ratio |\n"
                "|------:|----:|----:|--------:|--------:|-------:|------:|\n"));
    time_table(&up_to_400);
}
