/* Judging, and what has occurred (see judge.h). */
#include "judge.h"

#include <inttypes.h>
#include <stdio.h>
#include <stdlib.h>
#include <string.h>

#include "../common/cases.h"
#include "../common/said.h"

void judge(const char *difference, const request *r, silberlaus_frame want, silberlaus_frame got)
{
    if (!case_shown(difference == NULL))
        return;
    said(fprintf(stderr, "  WRONG %s: %" PRIu32 " kHz, %" PRIu32 "/4 ms, %zu bytes, buffers %zu and %zu: number %u, cause %u; "
                 "wanted %u, %u; frame ", difference, r->khz, r->quarters, r->length, r->spectrum_length, r->residual_length,
                 got.number, got.cause, want.number, want.cause));
    for (size_t k = 0; k < r->length; k++)
        said(fprintf(stderr, "%02x", r->frame[k]));
    said(fprintf(stderr, "\n"));
}

void judge_answer(const request *r, const answer *want)
{
    silberlaus_frame got;
    judge(lend_and_compare(r, want, &got), r, want->fields, got);
}

/* ---- what has occurred */
enum { KEPT = 32 };

static tally occurred;
static kept_frame kept[SETTINGS][CAUSES][KEPT];
static unsigned long late_low_bits, filters, with_residual;
static int32_t largest;

static void keep(const settings *set, unsigned cause, const uint8_t *frame, size_t length)
{
    size_t place = (size_t)(set - reference_settings);
    unsigned long times = occurred[place][cause]++;
    kept_frame *k = &kept[place][cause][times < KEPT ? times : below(KEPT)];
    k->length = length;
    memcpy(k->frame, frame, length);
}

const kept_frame *judge_kept(const settings *set, unsigned cause)
{
    size_t place = (size_t)(set - reference_settings);
    unsigned long times = occurred[place][cause];
    return times == 0 ? NULL : &kept[place][cause][below(times < KEPT ? (uint32_t)times : KEPT)];
}

/* What document 01 says of every accepted frame, whatever is wanted: values and symbols in their bounds. */
static const char *out_of_bounds(const answer *a)
{
    const silberlaus_frame *f = &a->fields;
    for (unsigned k = 0; k < f->last_line; k++) {
        int32_t value = a->spectrum[k];
        if (value < -32767 || value > 32767)
            return "bound of values";
        largest = abs(value) > largest ? abs(value) : largest;
    }
    late_low_bits += f->lsb_mode;
    filters += f->tns_flag_0 || f->tns_flag_1;
    with_residual += f->residual_bits > 0;
    return f->symbols <= 18 + 7 * f->last_line ? NULL : "bound of symbols";
}

void judge_frame(const settings *set, const uint8_t *frame, size_t length, const answer *want)
{
    request r = lend_right(set->khz, set->quarters, frame, length);
    silberlaus_frame got;
    const char *difference = lend_and_compare(&r, want, &got);
    if (difference == NULL && want->fields.number == 0)
        difference = out_of_bounds(want);
    judge(difference, &r, want->fields, got);
    keep(set, want->fields.cause, frame, length);
}

void judge_by_reference(const settings *set, const uint8_t *frame, size_t length)
{
    request r = lend_right(set->khz, set->quarters, frame, length);
    answer want;
    lend_reference(&r, &want);
    judge_frame(set, frame, length, &want);
}

/* Bandwidth above the index can be sent at 24 and 48 kHz only, an order above the highest at 2.5 and 5 ms only. */
static int can_occur(const settings *set, unsigned cause)
{
    return cause == 1 ? (1 << set->bandwidth_bits) - 1 > set->index : cause != 8 || set->most_order < 8;
}

static int print_row(const settings *set, const unsigned long *times, unsigned but)
{
    int all = 1;
    said(printf("%4.1f %3" PRIu32, set->quarters / 4.0, set->khz));
    for (unsigned cause = 0; cause < CAUSES; cause++) {
        said(printf("%9lu", times[cause]));
        all = all && ((times[cause] > 0) == can_occur(set, cause) || (cause > 0 && cause == but));
    }
    said(printf("\n"));
    return all;
}

int judge_table(const char *title, tally times, unsigned but)
{
    int all = 1;
    said(printf("\n%s\n  ms kHz accepted", title));
    for (unsigned cause = 1; cause < CAUSES; cause++)
        said(printf("  cause %u", cause));
    said(printf("\n"));
    for (const settings *set = reference_settings; set < reference_settings + SETTINGS; set++)
        all = print_row(set, times[set - reference_settings], but) && all;
    all_said();
    if (!all)
        said(fprintf(stderr, "WRONG: a cause that can occur did not, or one that cannot did\n"));
    return all;
}

int judge_causes(void)
{
    int all = judge_table("Read:", occurred, 0);
    said(printf("Accepted with late low bits %lu, with TNS filters %lu, with residual bits %lu; largest value %" PRId32
                ".\n", late_low_bits, filters, with_residual, largest));
    return all;
}
