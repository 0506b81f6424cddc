/* Lent memory and its comparison (see ask.h). All of it is full of one byte before a call, another one each time. */
#define _DEFAULT_SOURCE
#include "ask.h"

#include <stdio.h>
#include <stdlib.h>
#include <string.h>
#include <sys/mman.h>
#include <unistd.h>

enum { BESIDE = 64 };

/* ---- memory between two pages that cannot be touched, and what of it is lent */
typedef struct { uint8_t *bytes; size_t size; uint8_t *lent; size_t length; } fenced;

static fenced lines, bits, frames;
static unsigned turn;

static void fence(fenced *f, size_t size)
{
    size_t page = (size_t)sysconf(_SC_PAGESIZE);
    f->size = (size + BESIDE + page - 1) / page * page;
    uint8_t *all = mmap(NULL, page + f->size + page, PROT_NONE, MAP_PRIVATE | MAP_ANONYMOUS, -1, 0);
    if (all == MAP_FAILED || mprotect(all + page, f->size, PROT_READ | PROT_WRITE) != 0) {
        perror("memory to lend");
        exit(2);
    }
    f->bytes = all + page;
}

void ask_prepare(void)
{
    fence(&lines, MOST_LENT * sizeof(int32_t));
    fence(&bits, MOST_LENT);
    fence(&frames, MOST_LENT);
}

/* So many bytes at one of the two ends, the other side has room for some more; the first ones are copied in. */
static void *lend(fenced *f, const void *from, size_t held, size_t length, int nowhere)
{
    int at_start = turn % 2 == 0;
    f->lent = at_start ? f->bytes : f->bytes + f->size - length;
    f->length = length;
    memset(at_start ? f->lent : f->lent - BESIDE, 2 + (int)(turn % 254), length + BESIDE);
    memcpy(f->lent, from, held);
    return nowhere ? NULL : f->lent;
}

/* It holds these bytes first, and is else as it was lent, with what stands beside it. */
static int holds(const fenced *f, const void *from, size_t held)
{
    const uint8_t *beside = f->lent == f->bytes ? f->lent + f->length : f->lent - BESIDE;
    for (size_t k = 0; k < BESIDE; k++)
        if (beside[k] != 2 + turn % 254)
            return 0;
    for (size_t k = held; k < f->length; k++)
        if (f->lent[k] != 2 + turn % 254)
            return 0;
    return memcmp(f->lent, from, held) == 0;
}

/* ---- a call */

static size_t at_most(size_t length, size_t most)
{
    return length < most ? length : most;
}

const char *ask_and_compare(writer *write, const asked *a, const written *want, silberlaus_written *got)
{
    size_t line_bytes = at_most(a->spectrum_length, MOST_LINES) * sizeof a->spectrum[0];
    size_t held = at_most(a->residual_length, MOST_LINES);
    turn++;
    const int32_t *spectrum = lend(&lines, a->spectrum, line_bytes, a->spectrum_length * sizeof spectrum[0], a->spectrum_nowhere);
    const uint8_t *residual = lend(&bits, a->residual, held, a->residual_length, a->residual_nowhere);
    uint8_t *frame = lend(&frames, want->frame, 0, a->length, a->frame_nowhere);
    *got = write(a->khz, a->quarters, a->fields, spectrum, a->spectrum_length, residual, a->residual_length, frame, a->length);
    if (got->number != want->said.number)
        return "number";
    if (got->residual_bits != want->said.residual_bits)
        return "residual bits sent";
    if (!holds(&frames, want->frame, got->number == 0 ? a->length : 0))
        return "frame, or the memory beside it";
    if (!holds(&lines, a->spectrum, line_bytes) || !holds(&bits, a->residual, held))
        return "what was lent to be read, or the memory beside it";
    return NULL;
}

asked ask_right(const settings *set, const answer *given, size_t length)
{
    asked a = {.khz = set->khz, .quarters = set->quarters, .fields = given->fields, .spectrum_length = set->lines,
               .residual_length = set->lines, .length = length};
    memcpy(a.spectrum, given->spectrum, sizeof a.spectrum);
    memcpy(a.residual, given->residual, sizeof a.residual);
    return a;
}
