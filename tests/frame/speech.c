/* Encodes synthesized speech with liblc3, another maker's encoder of the same bitstream, and reads every frame: each has
   to be accepted, and to be what the reference reads. Those in LSB mode 0 are written again, and have to be the same bytes.
   Built and run by the script `lc3`, where liblc3 is installed.

     speech          every rate and every length from 20 to 400 bytes, of 7.5 and of 10 ms: liblc3 has no shorter ones
     speech list     writes the frames of bench_frames.txt, which are of 10 ms: rate in kHz, frame */
#include <inttypes.h>
#include <lc3.h>
#include <math.h>
#include <stdio.h>
#include <stdlib.h>
#include <string.h>

#include "../common/said.h"
#include "../writer/again.h"
#include "lend.h"

enum { MOST_SAMPLES = 480, FRAMES = 24, LISTED = 16, SHOWN = 5, AT_7_5_MS = AT_TEN_MS - RATES };

/* ---- speech: tenths of a second that are voiced with a wandering pitch, hiss, silent, both at once, or loud */
typedef struct { double seconds, phase; uint32_t noise; } voice;

static double hiss(voice *v)
{
    v->noise = v->noise * 1664525u + 1013904223u;
    return (double)(v->noise >> 8) / (1 << 23) - 1;
}

/* Harmonics that weaken upwards, with two formants that wander. */
static double voiced(const voice *v, double pitch)
{
    double sum = 0, one = 600 + 250 * sin(5 * v->seconds), two = 1900 + 700 * sin(3 * v->seconds);
    for (int h = 1; h <= 30 && h * pitch < 3900; h++) {
        double hz = h * pitch, near = exp(-fabs(hz - one) / 400) + 0.5 * exp(-fabs(hz - two) / 600);
        sum += (0.05 + near) / sqrt(h) * sin(2 * 3.14159265358979 * h * v->phase);
    }
    return sum;
}

static float next_sample(voice *v, double hz)
{
    static const double of_voice[] = {0.12, 0.15, 0.1, 0, 0, 0.06, 0.5, 0.02};
    static const double of_hiss[] = {0.0005, 0, 0.004, 0.08, 0, 0.05, 0.01, 0.6};
    double pitch = 150 + 60 * sin(2.2 * v->seconds) + 15 * sin(17 * v->seconds);
    unsigned tenth = (unsigned)(10 * v->seconds) % 8;
    double sample = of_hiss[tenth] * hiss(v);
    if (of_voice[tenth] > 0)
        sample += of_voice[tenth] * voiced(v, pitch);
    v->seconds += 1 / hz;
    v->phase += pitch / hz;
    v->phase -= floor(v->phase);
    return (float)(sample > 1 ? 1 : sample < -1 ? -1 : sample);
}

/* ---- its frames */
typedef struct { voice v; int hz, us; lc3_encoder_t encoder; lc3_encoder_mem_48k_t memory; } speaker;

static void begin(speaker *s, const settings *set, size_t length)
{
    s->v = (voice){.seconds = (double)(length * 7 % 80) / 100, .noise = (uint32_t)length};
    s->hz = (int)set->khz * 1000;
    s->us = (int)set->quarters * 250;
    s->encoder = lc3_setup_encoder(s->us, s->hz, 0, &s->memory);
}

static void say(speaker *s, uint8_t *frame, size_t length)
{
    float samples[MOST_SAMPLES];
    int count = lc3_frame_samples(s->us, s->hz);
    for (int k = 0; k < count; k++)
        samples[k] = next_sample(&s->v, s->hz);
    if (s->encoder == NULL || lc3_encode(s->encoder, LC3_PCM_FORMAT_FLOAT, samples, 1, (int)length, frame) != 0) {
        said(printf("WRONG: liblc3 does not encode %d us at %d Hz in %zu bytes\n", s->us, s->hz, length));
        exit(2);
    }
}

/* ---- every frame read */
static unsigned long frames, wrong, filters, pitches, late_low_bits, with_residual, rewritten;

static void judge(const char *difference, const request *r, const silberlaus_frame *want)
{
    frames++;
    filters += want->tns_flag_0 || want->tns_flag_1;
    pitches += want->pitch_present;
    late_low_bits += want->lsb_mode;
    with_residual += want->residual_bits > 0;
    if (difference == NULL || wrong++ >= SHOWN)
        return;
    said(printf("  WRONG %s: %" PRIu32 " kHz, %" PRIu32 "/4 ms, %zu bytes; the reference answers %u, cause %u; frame ", difference,
                r->khz, r->quarters, r->length, want->number, want->cause));
    for (size_t k = 0; k < r->length; k++)
        said(printf("%02x", r->frame[k]));
    said(printf("\n"));
}

/* NULL where the frame is the same once more, or is not to be written. */
static const char *write_again(const settings *set, const uint8_t *frame, size_t length)
{
    static asked a;
    static written same;
    silberlaus_written got;
    if (!again_asked(silberlaus_read_frame, set, frame, length, &a, &same))
        return NULL;
    rewritten++;
    return ask_and_compare(silberlaus_write_frame, &a, &same, &got) == NULL ? NULL : "writing again";
}

static void speak(const settings *set, size_t length)
{
    speaker s;
    begin(&s, set, length);
    for (unsigned n = 0; n < FRAMES; n++) {
        uint8_t frame[MOST_BYTES];
        answer want;
        silberlaus_frame got;
        say(&s, frame, length);
        request r = lend_right(set->khz, set->quarters, frame, length);
        lend_reference(&r, &want);
        const char *difference = want.fields.number != 0 ? "refusal" : lend_and_compare(&r, &want, &got);
        judge(difference != NULL ? difference : write_again(set, frame, length), &r, &want.fields);
    }
}

static int every_frame(void)
{
    lend_prepare(silberlaus_read_frame);
    ask_prepare();
    for (const settings *set = &reference_settings[AT_7_5_MS]; set < reference_settings + SETTINGS; set++) {
        frames = filters = pitches = late_low_bits = with_residual = rewritten = 0;
        for (size_t length = LEAST_BYTES; length <= MOST_BYTES; length++)
            speak(set, length);
        said(printf("%4.1f ms, %2" PRIu32 " kHz: %lu frames of liblc3, %lu with TNS filters, %lu with pitch, %lu in LSB mode 1, "
                    "%lu with residual bits, %lu written again; %lu wrong so far\n", set->quarters / 4.0, set->khz, frames, filters,
                    pitches, late_low_bits, with_residual, rewritten, wrong));
    }
    return wrong > 0;
}

/* ---- the list for the benchmark: frames one after the other, from the second tenth on */
static void list(const settings *set, size_t length)
{
    speaker s;
    uint8_t frame[MOST_BYTES];
    begin(&s, set, 0);
    for (unsigned n = 0; n < 10 + 6 * LISTED; n++) {
        say(&s, frame, length);
        if (n < 10 || n % 6 != 0)
            continue;
        said(printf("%" PRIu32 " ", set->khz));
        for (size_t k = 0; k < length; k++)
            said(printf("%02x", frame[k]));
        said(printf("\n"));
    }
}

int main(int argc, char **argv)
{
    static const size_t lengths[] = {20, 40, 80, 160, 400};
    int status = 0;
    if (argc == 1)
        status = every_frame();
    else
        for (unsigned i = 0; i < sizeof lengths / sizeof lengths[0]; i++)
            for (unsigned rate = AT_TEN_MS; rate < SETTINGS; rate++)
                list(&reference_settings[rate], lengths[i]);
    (void)argv;
    all_said();
    return status;
}
