/* What is known beforehand (see held.h). */
#include "held.h"

#include <inttypes.h>
#include <stdio.h>
#include <stdlib.h>

#include "../common/cases.h"
#include "../common/said.h"
#include "../frame/list.h"
#include "again.h"
#include "judge.h"
#include "refusals.h"
#include "tries.h"
#include "vectors.h"

static char path[4096];

static void every_line(const char *folder)
{
    vectors_read(folder);
    for (size_t k = 0; k < vectors_length; k++)
        judge_answer(&vectors[k].given, &vectors[k].want);
    group_ends("write_frames.txt: every line");
}

/* ---- frames of an encoder: the same bytes */

static void real_line(reader *read, const char *line)
{
    char hex[2 * MOST_BYTES + 1];
    uint8_t frame[MOST_BYTES];
    uint32_t khz;
    unsigned byte;
    size_t length = 0;
    int two = sscanf(line, "%" SCNu32 " %800s", &khz, hex);
    for (; two == 2 && sscanf(hex + 2 * length, "%2x", &byte) == 1; length++)
        frame[length] = (uint8_t)byte;
    const settings *set = two == 2 ? reference_settings_of(khz, TEN_MS) : NULL;
    if (set == NULL || length < LEAST_BYTES) {
        said(fprintf(stderr, "WRONG: a line of bench_frames.txt is not a rate and a frame\n"));
        exit(2);
    }
    asked a;
    written want;
    if (again_asked(read, set, frame, length, &a, &want))
        judge_answer(&a, &want);
}

static void real_frames(reader *read, const char *folder)
{
    static char line[4096];
    snprintf(path, sizeof path, "%s/../frame/bench_frames.txt", folder);
    FILE *file = fopen(path, "r");
    if (file == NULL) {
        perror(path);
        exit(2);
    }
    while (fgets(line, sizeof line, file) != NULL)
        if (line[0] != '#')
            real_line(read, line);
    if (ferror(file)) {
        perror(path);
        exit(2);
    }
    fclose(file);
    group_ends("bench_frames.txt: each frame of liblc3 read, written again, and the same");
}

/* ---- frames of the reader's lists: some have escapes that are not needed, or bits in the gap, so the bytes may be others */

static void listed_frames(reader *read, const char *folder)
{
    asked a;
    written same;
    snprintf(path, sizeof path, "%s/../frame", folder);
    list_read(path, "frames.txt", TEN_MS);
    list_read(path, "read_durations.txt", 0);
    for (size_t k = 0; k < list_length; k++) {
        const settings *set = list_settings(&list[k]);
        if (set != NULL && again_asked(read, set, list[k].frame, list[k].length, &a, &same))
            judge_in_range(set, &a);
    }
    group_ends("frames.txt and read_durations.txt: each accepted frame read and written again");
}

int held_to_known(writer *write, reader *read, const char *folder, unsigned turns)
{
    judge_prepare(write, read);
    every_line(folder);
    real_frames(read, folder);
    listed_frames(read, folder);
    refusals_of_settings();
    refusals_of_lengths();
    refusals_of_fields();
    refusals_of_lines();
    refusals_in_order();
    tries_extremes();
    tries_random(turns);
    tries_steered(turns);
    return judge_kinds();
}
