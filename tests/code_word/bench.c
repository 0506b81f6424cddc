/* Times the archive of crate code_word against the two hand-written C correctors of hand.h, in one run, on words of 15
   semi-octets. Before every timed pass each gets a fresh copy of the same words; the copying is in no time. Each time is
   the best of RUNS passes over WORDS words, all taking turns. What they left is compared after each turn. */
#define _POSIX_C_SOURCE 199309L
#include <stdio.h>
#include <stdlib.h>
#include <string.h>
#include <time.h>

#include "../common/said.h"
#include "hand.h"
#include "word_calls.h"

enum { LENGTH = 15, SLOT_400 = 54, SLOT_40 = 6, WORDS = SLOT_400 * 76, RUNS = 300, SIDES = 3 };

typedef struct {
    uint8_t words[WORDS * LENGTH];
    uint8_t counts[WORDS], bits[WORDS];
} lot;

typedef uint8_t make_call(uint8_t *, size_t, uint32_t);
typedef word_answer correct_call(uint8_t *, size_t, uint32_t);
typedef uint8_t each_call(uint8_t *, size_t, uint32_t, uint8_t *, size_t, uint8_t *, size_t);

/* The general C, the C in closed form, the archive. */
static make_call *const makers[SIDES] = {hand_make, hand_make, word_make};
static correct_call *const correctors[SIDES] = {general_correct, closed_correct, word_correct};
static each_call *const eachers[SIDES] = {general_correct_each, closed_correct_each, word_correct_each};

/* ---- a pass of one kind over a lot, by one side */
typedef void pass(lot *, uint32_t mode, unsigned side);

static void made(lot *l, uint32_t mode, unsigned side)
{
    for (size_t i = 0; i < WORDS; i++)
        l->counts[i] = makers[side](l->words + i * LENGTH, LENGTH, mode);
}

static void alone(lot *l, uint32_t mode, unsigned side)
{
    for (size_t i = 0; i < WORDS; i++) {
        word_answer a = correctors[side](l->words + i * LENGTH, LENGTH, mode);
        l->counts[i] = a.number == 0 ? a.count : (uint8_t)mode;
        l->bits[i] = a.bits;
    }
}

static void in_batches(lot *l, uint32_t mode, unsigned side, size_t batch)
{
    for (size_t i = 0; i < WORDS; i += batch)
        if (eachers[side](l->words + i * LENGTH, batch * LENGTH, mode, l->counts + i, batch, l->bits + i, batch) != 0)
            abort();
}

static void slots_of_400(lot *l, uint32_t mode, unsigned side) { in_batches(l, mode, side, SLOT_400); }
static void slots_of_40(lot *l, uint32_t mode, unsigned side) { in_batches(l, mode, side, SLOT_40); }

/* ---- timing */
static lot source, left[SIDES];

/* Nanoseconds a word of one pass over a fresh copy of the source. */
static double timed(pass *p, uint32_t mode, unsigned side)
{
    struct timespec from, to;
    memcpy(&left[side], &source, sizeof source);
    clock_gettime(CLOCK_MONOTONIC, &from);
    p(&left[side], mode, side);
    clock_gettime(CLOCK_MONOTONIC, &to);
    return ((double)(to.tv_sec - from.tv_sec) * 1e9 + (double)(to.tv_nsec - from.tv_nsec)) / WORDS;
}

static void best_times(pass *p, uint32_t mode, double best[SIDES])
{
    for (unsigned side = 0; side < SIDES; side++)
        best[side] = 1e9;
    for (unsigned run = 0; run < RUNS; run++) {
        for (unsigned side = 0; side < SIDES; side++) {
            double t = timed(p, mode, side);
            best[side] = t < best[side] ? t : best[side];
        }
        if (memcmp(&left[0], &left[2], sizeof left[0]) != 0 || memcmp(&left[1], &left[2], sizeof left[1]) != 0) {
            said(printf("the archive and the C do not leave the same\n"));
            exit(1);
        }
    }
}

/* ---- words: valid ones of random data, each changed in that many places */
static void change(uint8_t *word, unsigned changes)
{
    uint8_t changed[LENGTH] = {0};
    while (changes > 0) {
        int k = rand() % LENGTH;
        if (changed[k])
            continue;
        changed[k] = 1;
        word[k] ^= (uint8_t)(1 + rand() % 15);
        changes--;
    }
}

/* Where `changes` is the mode, a word that is then near another valid one is drawn again: every one is refused. */
static void fill(uint32_t mode, unsigned changes)
{
    memset(&source, 0, sizeof source);
    for (size_t i = 0; i < WORDS; i++) {
        uint8_t *word = source.words + i * LENGTH, copy[LENGTH];
        do {
            for (size_t k = 0; k < LENGTH; k++)
                word[k] = (uint8_t)(rand() % 16);
            hand_make(word, LENGTH, mode);
            change(word, changes);
            memcpy(copy, word, LENGTH);
        } while (changes == mode && closed_correct(copy, LENGTH, mode).number == 0);
    }
}

/* ---- the table */
static void correcting(const char *title, pass *p)
{
    double best[SIDES], worst[2] = {0, 0};
    said(printf("\n%s\n                    general C  closed C   archive   archive/general  archive/closed\n", title));
    for (uint32_t mode = 2; mode <= 4; mode++)
        for (unsigned changes = 0; changes <= mode; changes++) {
            fill(mode, changes);
            best_times(p, mode, best);
            said(printf("mode %u, %u changed%s %10.1f%10.1f%10.1f%18.2f%16.2f\n", (unsigned)mode, changes,
                        changes == mode ? "*" : " ", best[0], best[1], best[2], best[2] / best[0], best[2] / best[1]));
            all_said();
            for (unsigned side = 0; side < 2; side++)
                if (best[2] / best[side] > worst[side])
                    worst[side] = best[2] / best[side];
        }
    said(printf("greatest ratio                                  %18.2f%16.2f\n", worst[0], worst[1]));
}

int main(void)
{
    double best[SIDES];
    hand_prepare();
    srand(634);
    said(printf("ns a word of %d semi-octets, best of %d passes over %d words. Every pass works on a fresh copy of the words; the\n"
                "copying is in none of the times. C is gcc -O2: general C is one code for every distance, closed C is written\n"
                "out for up to three changes.\n\nword_make                   C   archive   archive/C\n", LENGTH, RUNS, WORDS));
    for (uint32_t mode = 2; mode <= 4; mode++) {
        fill(mode, 0);
        best_times(made, mode, best);
        said(printf("mode %u              %9.1f%10.1f%12.2f\n", (unsigned)mode, best[1], best[2], best[2] / best[1]));
    }
    correcting("word_correct_each, 54 words a call (a slot of 400 bytes)", slots_of_400);
    correcting("word_correct_each, 6 words a call (a slot of 40 bytes)", slots_of_40);
    correcting("word_correct, one word a call", alone);
    said(printf("\n* beyond repair: the word is refused and left as it was lent.\n"));
    all_said();
    return 0;
}
