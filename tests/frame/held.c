/* What is known beforehand (see held.h). */
#include "held.h"

#include <stdio.h>

#include "../common/cases.h"
#include "list.h"
#include "made.h"
#include "refusals.h"

/* ---- lists */

static void every_line(const char *folder, const char *name, uint32_t quarters)
{
    char group[64];
    size_t before = list_length;
    list_read(folder, name, quarters);
    for (size_t i = before; i < list_length; i++) {
        request r = lend_right(list[i].khz, list[i].quarters, list[i].frame, list[i].length);
        judge_answer(&r, &list[i].want);
    }
    snprintf(group, sizeof group, "%s: every line", name);
    group_ends(group);
}

/* ---- settings, by the formulas */

/* The least bits that number so many things. */
static unsigned bits_for(unsigned things)
{
    unsigned bits = 0;
    while (1u << bits < things)
        bits++;
    return bits;
}

/* At most 40 lines a millisecond. */
static size_t lines_at(uint32_t khz, uint32_t quarters)
{
    return (khz < 40 ? khz : 40) * quarters / 4;
}

/* Those of the reference, by which the frames are made too. Last-pair bits leave two values or more beside those of the pairs. */
static void settings_by_formula(void)
{
    for (const settings *set = reference_settings; set < reference_settings + SETTINGS; set++) {
        request r = {.khz = set->khz, .quarters = set->quarters};
        int right = set->lines == lines_at(set->khz, set->quarters) && set->last_pair_bits == bits_for(set->lines / 2u + 2)
                    && set->bandwidth_bits == bits_for(set->index + 1u) && set->lines % 4 == 0 && set->lines <= MOST_LINES
                    && reference_settings_of(set->khz, set->quarters) == set;
        judge(right ? NULL : "settings", &r, (silberlaus_frame){0}, (silberlaus_frame){0});
    }
    group_ends("settings: lines, last-pair bits and bandwidth bits by their formulas");
}

static int is_one_of(uint32_t value, const uint32_t *values, size_t count)
{
    for (size_t k = 0; k < count; k++)
        if (values[k] == value)
            return 1;
    return 0;
}

static void line_counts(line_counter *line_count)
{
    static const uint32_t rates[] = {8, 16, 24, 32, 48}, durations[] = {10, 20, 30, 40};
    for (size_t k = 0; k < KHZ_TRIED * QUARTERS_TRIED; k++) {
        request r = {.khz = refusals_khz[k % KHZ_TRIED], .quarters = refusals_quarters[k / KHZ_TRIED]};
        int in_range = is_one_of(r.khz, rates, COUNT(rates)) && is_one_of(r.quarters, durations, COUNT(durations));
        size_t want = in_range ? lines_at(r.khz, r.quarters) : 0;
        judge(line_count(r.khz, r.quarters) == want ? NULL : "line count", &r, (silberlaus_frame){0}, (silberlaus_frame){0});
    }
    group_ends("line count: NE, and 0 where the rate or the duration is out of range");
}

void held_to_known(line_counter *count, reader *read, const char *folder)
{
    lend_prepare(read);
    every_line(folder, "frames.txt", TEN_MS);
    every_line(folder, "read_durations.txt", 0);
    settings_by_formula();
    line_counts(count);
    refusals_tried();
    refusals_listed();
    refusals_of_lengths();
    refusals_of_other_settings();
    made_in_range();
    made_with_causes();
}
