/* The frames that are timed (see frames.h). */
#include "frames.h"

#include <inttypes.h>
#include <stdio.h>
#include <stdlib.h>
#include <string.h>

#include "../common/said.h"
#include "../frame/make.h"

enum { MADE_EACH = 16 };

const size_t timed_lengths[TIMED_LENGTHS] = {20, 40, 80, 160, 400};
table of_10_ms, shorter;

frame *frames_add(table *t)
{
    if (t->count == MOST_FRAMES)
        fails("more frames than there is room for");
    return &t->all[t->count++];
}

/* ---- frames of 10 ms: those of the file */
static void read_line(const char *line, frame *f)
{
    char hex[2 * MOST_BYTES + 1];
    uint32_t khz;
    unsigned byte;
    if (sscanf(line, "%" SCNu32 " %800s", &khz, hex) != 2)
        fails("a line of bench_frames.txt is not a rate and a frame");
    for (f->lot = 0; f->lot < RATES - 1 && of_10_ms.sets[f->lot]->khz != khz;)
        f->lot++;
    for (f->length = 0; sscanf(hex + 2 * f->length, "%2x", &byte) == 1; f->length++)
        f->bytes[f->length] = (uint8_t)byte;
}

static void read_frames(const char *folder)
{
    static char path[4096], line[4096];
    for (const settings *set = &reference_settings[AT_TEN_MS]; set < reference_settings + SETTINGS; set++)
        of_10_ms.sets[of_10_ms.lots++] = set;
    snprintf(path, sizeof path, "%s/bench_frames.txt", folder);
    FILE *file = fopen(path, "r");
    if (file == NULL)
        fails("bench_frames.txt cannot be read");
    while (fgets(line, sizeof line, file) != NULL)
        if (line[0] != '#')
            read_line(line, frames_add(&of_10_ms));
    if (ferror(file))
        fails("bench_frames.txt cannot be read whole");
    fclose(file);
}

/* ---- shorter frames: made from the fields and the lines of those of 10 ms */
typedef struct { int32_t used; uint8_t bytes[MOST_BYTES]; } candidate;

/* As many lines as the setting has, from all over the spectrum, so that loud and weak ones stand where they stood; and so many
   times what they were. Whether that is in range. */
static int shorten(const settings *set, const answer *real, int32_t times, plan *p)
{
    int32_t largest = 0;
    *p = (plan){.sent = {.fields = real->fields}, .bad_from = EVERY_SYMBOL_GOOD};
    silberlaus_frame *f = &p->sent.fields;
    uint32_t pairs = f->last_line / 2u * set->quarters / TEN_MS;
    f->last_line = (uint16_t)(pairs > 0 ? 2 * pairs : 2);
    for (uint32_t k = 0; k < f->last_line; k++) {
        p->sent.spectrum[k] = times * real->spectrum[k * TEN_MS / set->quarters];
        largest = abs(p->sent.spectrum[k]) > largest ? abs(p->sent.spectrum[k]) : largest;
    }
    f->tns_flag_1 = f->bandwidth >= set->two_filters_from ? f->tns_flag_1 : 0;
    f->tns_order_0 = f->tns_order_0 < set->most_order ? f->tns_order_0 : set->most_order;
    f->tns_order_1 = !f->tns_flag_1 ? 0 : f->tns_order_1 < set->most_order ? f->tns_order_1 : set->most_order;
    return largest <= 32767;
}

static int fuller_first(const void *one, const void *other)
{
    const candidate *a = one, *b = other;
    return a->used != b->used ? b->used - a->used : memcmp(a->bytes, b->bytes, sizeof a->bytes);
}

/* AS_IT_IS, or FULL: in LSB mode 0, with lines that are doubled as often as there is room for. */
enum { AS_IT_IS, FULL, MOST_TIMES = 1 << 14 };

/* Makes it of a real frame, or says that it does not fit into so many bytes. */
static int make_candidate(const settings *set, size_t length, const answer *real, int how, candidate *c)
{
    static plan p;
    static made m;
    for (int32_t times = how == FULL ? MOST_TIMES : 1; times > 0; times /= 2) {
        int in_range = shorten(set, real, times, &p);
        p.sent.fields.lsb_mode = how == FULL ? 0 : p.sent.fields.lsb_mode;
        *c = (candidate){0};
        make_frame(set, &p, c->bytes, length, &m);
        c->used = m.used;
        if (in_range && m.known && m.want.fields.number == 0)
            return 1;
    }
    return 0;
}

/* All that fit; how many they are. */
static size_t make_candidates(const settings *set, size_t length, int how, candidate *candidates)
{
    size_t count = 0;
    for (const frame *f = of_10_ms.all; f < of_10_ms.all + of_10_ms.count; f++) {
        if (of_10_ms.sets[f->lot]->khz != set->khz)
            continue;
        request r = lend_right(set->khz, TEN_MS, f->bytes, f->length);
        answer real = {0};
        lend_reference(&r, &real);
        count += make_candidate(set, length, &real, how, &candidates[count]) != 0;
    }
    return count;
}

/* Adds those of them that fill their bytes best, as an encoder would. */
static void make_frames(table *t, unsigned lot, size_t length, int how)
{
    static candidate candidates[MOST_FRAMES];
    size_t count = make_candidates(t->sets[lot], length, how, candidates);
    if (count < MADE_EACH)
        fails("too few shorter frames can be made");
    qsort(candidates, count, sizeof candidates[0], fuller_first);
    for (unsigned n = 0; n < MADE_EACH; n++) {
        frame *f = frames_add(t);
        *f = (frame){.lot = lot, .length = length};
        memcpy(f->bytes, candidates[n].bytes, length);
    }
}

static void make_all(size_t lengths)
{
    for (const settings *set = reference_settings; set < reference_settings + AT_TEN_MS; set++)
        if (set->khz == 16 || set->khz == 48)
            shorter.sets[shorter.lots++] = set;
    for (size_t n = 0; n < lengths; n++)
        for (unsigned lot = 0; lot < shorter.lots; lot++)
            make_frames(&shorter, lot, timed_lengths[n], AS_IT_IS);
}

void frames_add_full(table *t, size_t length)
{
    for (unsigned lot = 0; lot < t->lots; lot++)
        make_frames(t, lot, length, FULL);
}

void frames_prepare(const char *folder)
{
    read_frames(folder);
    make_all(TIMED_LENGTHS - 1);
}

/* ---- rows */
void print_frame_row(const char *what, const settings *set, size_t length, double symbols, const ns *best)
{
    char name[64];
    double ms = set->quarters / 4.0;
    snprintf(name, sizeof name, "%s, frame of %zu bytes, %g ms, %" PRIu32 " kHz", what, length, ms, set->khz);
    said(printf("| %5zu |", length));
    if (set->quarters != TEN_MS)
        said(printf(" %3g |", ms));
    said(printf(" %3" PRIu32 " | %7.0f |", set->khz, symbols));
    print_cells(best, name);
}
