/* Judging, and what has occurred (see judge.h). */
#include "judge.h"

#include <inttypes.h>
#include <stdio.h>
#include <string.h>

#include "../common/cases.h"
#include "../common/said.h"
#include "../frame/make.h"

static writer *tested;

void judge_prepare(writer *write, reader *read)
{
    tested = write;
    ask_prepare();
    lend_prepare(read);
}

/* ---- a wrong case, as a line of write_frames.txt */

static void show_numbers(const int32_t *numbers, size_t count, const char *between)
{
    while (count > 0 && numbers[count - 1] == 0)
        count--;
    said(fprintf(stderr, count == 0 ? " -" : " "));
    for (size_t k = 0; k < count; k++)
        said(fprintf(stderr, "%s%" PRId32, k > 0 ? between : "", numbers[k]));
}

static void show_bytes(const uint8_t *bytes, size_t count, const char *between)
{
    int32_t numbers[MOST_LINES];
    for (size_t k = 0; k < count; k++)
        numbers[k] = bytes[k];
    show_numbers(numbers, count, between);
}

static void show_fields(const silberlaus_frame *f)
{
    said(fprintf(stderr, " %u %u %u %u %u %u %u %u %u %u %u %u", f->bandwidth, f->last_line, f->lsb_mode, f->gain, f->tns_flag_0,
                 f->tns_flag_1, f->pitch_present, f->shape_low, f->shape_high, f->shape_mode, f->shape_gain, f->shape_sign));
    said(fprintf(stderr, " %" PRIu32 " %u %u %u %u %u", f->shape_joint, f->filter_flag, f->pitch_index, f->noise_level,
                 f->tns_order_0, f->tns_order_1));
    show_bytes(f->tns_coefficients_0, 8, ",");
    show_bytes(f->tns_coefficients_1, 8, ",");
    said(fprintf(stderr, " %u", f->residual_bits));
}

static void show(const char *difference, const asked *a, const written *want, silberlaus_written got)
{
    said(fprintf(stderr, "  WRONG %s: number %u, %u residual bits sent; line: %" PRIu32 " %" PRIu32 " %zu", difference,
                 got.number, got.residual_bits, a->khz, a->quarters, a->length));
    show_fields(&a->fields);
    said(fprintf(stderr, " %zu %zu", a->spectrum_length, a->residual_length));
    show_numbers(a->spectrum, MOST_LINES, ",");
    show_bytes(a->residual, MOST_LINES, "");
    said(fprintf(stderr, " %u %u ", want->said.number, want->said.residual_bits));
    for (size_t k = 0; k < a->length && want->said.number == 0; k++)
        said(fprintf(stderr, "%02x", want->frame[k]));
    said(fprintf(stderr, want->said.number == 0 ? "\n" : "-\n"));
}

/* ---- what has occurred */
enum { ACCEPTED, BY_FIELDS, BY_LENGTHS, BY_LINES, TOO_SMALL, ONE_SHORT, NONE_LEFT, NOT_ALL_SENT, SHARED_BYTE, CARRIED,
       FAR_CARRIED, END_CARRIED, KINDS };
static const char *const kind_names[KINDS] = {"accepted", "1 fields", "2", "1 lines", "8", "by a bit", "none left", "not all",
                                              "shared", "carry", "far", "at end"};

/* A carry is far that goes through so many bytes 0xff. */
enum { FAR = 4, MOST_END = 9 };

static unsigned long occurred[SETTINGS][KINDS], without_settings, without_cache, endings[2][MOST_END + 1];
static uint32_t longest_through, longest_waited;

static void count_accepted(unsigned long *times, const trail *t, int all_sent)
{
    times[ACCEPTED]++;
    times[NONE_LEFT] += t->left == 0;
    times[NOT_ALL_SENT] += !all_sent;
    times[SHARED_BYTE] += t->shared != 0;
    times[CARRIED] += t->carries > 0;
    times[FAR_CARRIED] += t->through >= FAR;
    times[END_CARRIED] += t->end_carried != 0;
    without_cache += t->no_cache != 0;
    endings[t->end_longer][t->end_bits]++;
    longest_through = t->through > longest_through ? t->through : longest_through;
    longest_waited = t->waited > longest_waited ? t->waited : longest_waited;
}

static void count(const asked *a, const trail *t, uint16_t sent)
{
    static const int refusals[STEPS] = {BY_FIELDS, BY_LENGTHS, BY_LINES, TOO_SMALL, 0};
    const settings *set = reference_settings_of(a->khz, a->quarters);
    if (set == NULL) {
        without_settings++;
        return;
    }
    unsigned long *times = occurred[set - reference_settings];
    if (t->step == AT_END) {
        count_accepted(times, t, sent == a->fields.residual_bits);
        return;
    }
    times[refusals[t->step]]++;
    times[ONE_SHORT] += t->step == AT_ROOM && t->left == -1;
}

static int print_row(const settings *set)
{
    const unsigned long *times = occurred[set - reference_settings];
    int all = 1;
    said(printf("%4.1f %3" PRIu32, set->quarters / 4.0, set->khz));
    for (unsigned kind = 0; kind < KINDS; kind++) {
        said(printf("%10lu", times[kind]));
        all = all && times[kind] > 0;
    }
    said(printf("\n"));
    return all;
}

/* The range's own place is bit 1 to 8 of the ending, and one more where it takes a bit more. */
static int print_endings(unsigned longer)
{
    int all = 1;
    said(printf(longer ? "Endings longer by a bit:" : "Endings:"));
    for (unsigned bits = 1 + longer; bits < MOST_END + longer; bits++) {
        said(printf(" %u bits %lu%s", bits, endings[longer][bits], bits + 1 < MOST_END + longer ? "," : "\n"));
        all = all && endings[longer][bits] > 0;
    }
    return all;
}

int judge_kinds(void)
{
    int all = 1;
    said(printf("\nWritten, by what became of it. Of those refused with 8: by one bit. Of those accepted: with no bit left,\n"
                "with residual bits not sent, with a byte that both streams share, with a carry, with one through %d bytes\n"
                "0xff or more, with one made by the ending.\n  ms kHz", FAR));
    for (unsigned kind = 0; kind < KINDS; kind++)
        said(printf("%10s", kind_names[kind]));
    said(printf("\n"));
    for (const settings *set = reference_settings; set < reference_settings + SETTINGS; set++)
        all = print_row(set) && all;
    all = print_endings(0) && all;
    all = print_endings(1) && all;
    said(printf("Longest carry through %" PRIu32 " bytes 0xff, most that waited %" PRIu32 "; a first byte 0xff that waited %lu; "
                "no rate or duration %lu.\n", longest_through, longest_waited, without_cache, without_settings));
    all_said();
    if (!all || without_cache == 0 || without_settings == 0)
        said(fprintf(stderr, "WRONG: a kind of case or an ending did not occur\n"));
    return all && without_cache > 0 && without_settings > 0;
}

/* ---- judging */

/* What a reader has to answer to the frame. */
static answer given_back(const asked *a, uint16_t sent, uint32_t symbols)
{
    answer want = {.fields = a->fields};
    want.fields.number = want.fields.cause = 0;
    want.fields.symbols = (uint16_t)symbols;
    want.fields.residual_bits = sent;
    memcpy(want.spectrum, a->spectrum, sizeof want.spectrum);
    memcpy(want.residual, a->residual, sent);
    return want;
}

static const char *read_back(const asked *a, const written *want, const trail *t)
{
    silberlaus_frame got;
    request r = lend_right(a->khz, a->quarters, want->frame, a->length);
    answer given = given_back(a, want->said.residual_bits, t->symbols);
    return lend_and_compare(&r, &given, &got);
}

void judge_answer(const asked *a, const written *want)
{
    silberlaus_written got, reference;
    const char *difference = ask_and_compare(tested, a, want, &got);
    if (ask_and_compare(reference_write_frame, a, want, &reference) != NULL && difference == NULL)
        difference = "answer of the reference";
    if (difference == NULL && want->said.number == 0 && read_back(a, want, reference_trail()) != NULL)
        difference = "reading back";
    if (case_shown(difference == NULL))
        show(difference, a, want, got);
    count(a, reference_trail(), reference.residual_bits);
}

void judge_refused(const asked *a, uint8_t number)
{
    written want = {.said = {.number = number}};
    judge_answer(a, &want);
}

void judge_in_range(const settings *set, const asked *a)
{
    static plan p;
    static made m;
    written want = {0};
    p = (plan){.sent = {.fields = a->fields}, .bad_from = EVERY_SYMBOL_GOOD};
    memcpy(p.sent.spectrum, a->spectrum, sizeof p.sent.spectrum);
    memcpy(p.sent.residual, a->residual, sizeof p.sent.residual);
    make_frame(set, &p, want.frame, a->length, &m);
    if (m.used > 8 * (int32_t)a->length)
        want.said.number = 8;
    else
        want.said.residual_bits = m.want.fields.residual_bits;
    judge_answer(a, &want);
}
