/* Frames that are made (see made.h). */
#include "made.h"

#include <stdio.h>
#include <string.h>

#include "../common/cases.h"
#include "../common/said.h"
#include "plans.h"
#include "tries.h"

enum { TURNS = 5000, LEAST = 2000 };

static tally known;

/* Makes it in a frame that holds zeros or anything. */
static void make_in(const settings *set, const plan *p, uint8_t *frame, size_t length, made *m)
{
    memset(frame, 0, length);
    if (below(2))
        random_bytes(frame, length);
    make_frame(set, p, frame, length, m);
}

/* A length that the plan just fills, or is a few bits too much for. */
static size_t tight_length(int32_t used)
{
    size_t length = (size_t)used / 8 + below(2);
    return length < LEAST_BYTES ? LEAST_BYTES : length > MOST_BYTES ? MOST_BYTES : length;
}

static void make_and_read(const settings *set, const plan *p)
{
    static made m;
    uint8_t frame[MOST_BYTES];
    size_t length = LEAST_BYTES + below(MOST_BYTES - LEAST_BYTES + 1);
    make_in(set, p, frame, length, &m);
    if (below(2)) {
        length = tight_length(m.used);
        make_in(set, p, frame, length, &m);
    }
    if (m.known) {
        known[set - reference_settings][m.want.fields.cause]++;
        judge_frame(set, frame, length, &m.want);
    } else {
        judge_by_reference(set, frame, length);
    }
    tries_flip(frame, length, 1 + below(4));
    judge_by_reference(set, frame, length);
}

void made_in_range(void)
{
    plan p;
    for (const settings *set = reference_settings; set < reference_settings + SETTINGS; set++)
        for (unsigned turn = 0; turn < TURNS; turn++) {
            plan_frame(set, &p);
            make_and_read(set, &p);
        }
    group_ends("every setting: frames made, and damaged");
}

void made_with_causes(void)
{
    static const unsigned causes[] = {1, 2, 3, 4, 5, 8};
    plan p;
    for (const settings *set = reference_settings; set < reference_settings + SETTINGS; set++)
        for (unsigned turn = 0; turn < TURNS; turn++) {
            plan_frame(set, &p);
            plan_cause(set, causes[turn % COUNT(causes)], &p);
            if (below(4) == 0)
                plan_cause(set, causes[below(COUNT(causes))], &p);
            make_and_read(set, &p);
        }
    group_ends("every setting: frames made with a cause or two, and damaged");
}

int made_enough(void)
{
    int enough = judge_table("Made, the answer known beforehand:", known, 6);
    for (const settings *set = reference_settings; set < reference_settings + SETTINGS; set++)
        enough = enough && known[set - reference_settings][0] >= LEAST;
    if (!enough)
        said(fprintf(stderr, "WRONG: at some setting too few frames were made, or not every cause\n"));
    return enough;
}
