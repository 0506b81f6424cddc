/* See timing.h. */
#define _POSIX_C_SOURCE 199309L
#include "timing.h"

#include <stdio.h>
#include <stdlib.h>
#include <string.h>
#include <time.h>

#include "../common/said.h"

void fails(const char *why)
{
    said(printf("bench: %s\n", why));
    all_said();
    exit(1);
}

/* ---- passes */
static double time_pass(const work *w, unsigned lot, unsigned side)
{
    struct timespec from, to;
    clock_gettime(CLOCK_MONOTONIC, &from);
    size_t calls = w->pass(lot, side);
    clock_gettime(CLOCK_MONOTONIC, &to);
    return ((double)(to.tv_sec - from.tv_sec) * 1e9 + (double)(to.tv_nsec - from.tv_nsec)) / (double)calls;
}

static void time_turn(const work *w, unsigned side, ns *best)
{
    if (w->before != NULL)
        w->before(side);
    for (unsigned lot = 0; lot < w->lots; lot++) {
        double t = time_pass(w, lot, side), *least = &best[lot].of[side];
        *least = *least == 0 || t < *least ? t : *least;
    }
}

void time_work(const work *w, ns *best)
{
    memset(best, 0, w->lots * sizeof best[0]);
    for (unsigned run = 0; run < RUNS; run++) {
        time_turn(w, run % 2 == 0 ? ARCHIVE : PAPERS, best);
        time_turn(w, run % 2 == 0 ? PAPERS : ARCHIVE, best);
        for (unsigned lot = 0; lot < w->lots; lot++)
            w->compare(lot);
    }
    for (unsigned run = 0; w->sides > THIRD && run < RUNS; run++)
        time_turn(w, THIRD, best);
}

/* ---- ratios, as hundredths, so that what is named at the end is what the rows show */
enum { MOST_RATIOS = 256, NAME = 64, EQUAL = 100, ALLOWED = 150 };
static struct { char name[NAME]; int hundredths; } ratios[MOST_RATIOS];
static size_t count;

void print_cells(const ns *best, const char *name)
{
    if (count == MOST_RATIOS)
        fails("more ratios than there is room for");
    int hundredths = (int)(100 * best->of[ARCHIVE] / best->of[PAPERS] + 0.5);
    snprintf(ratios[count].name, NAME, "%s", name);
    ratios[count++].hundredths = hundredths;
    said(printf(" %7.0f | %6.0f | %5.2f |", best->of[ARCHIVE], best->of[PAPERS], hundredths / 100.0));
}

/* Those above one bound and not above the other. */
static void print_between(int above, int most, const char *title)
{
    size_t found = 0;
    for (size_t i = 0; i < count; i++)
        found += ratios[i].hundredths > above && ratios[i].hundredths <= most;
    said(printf("\n%s: %zu of %zu ratios.\n", title, found, count));
    for (size_t i = 0; i < count; i++)
        if (ratios[i].hundredths > above && ratios[i].hundredths <= most)
            said(printf("- %s: %.2f\n", ratios[i].name, ratios[i].hundredths / 100.0));
}

void print_slower(void)
{
    print_between(ALLOWED, 1 << 30, "Above 1.5 times the C");
    print_between(EQUAL, ALLOWED, "Above 1.0, and at most 1.5 times the C");
}
