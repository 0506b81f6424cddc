/* The call that writes a frame, which refuses with the 1 of settings and fields, 2, the 1 of lines and residual bits, then 8.
   Samples are read and written again; tests/writer has the rest. */
#define _DEFAULT_SOURCE
#include <stdio.h>
#include <string.h>
#include <sys/mman.h>

#include "check.h"

/* What is given: fields, lines and residual bits, and how long the two buffers and the frame are. */
typedef struct {
    uint32_t khz, quarters;
    silberlaus_frame fields;
    int32_t spectrum[SILBERLAUS_LINES_MAX + 1];
    uint8_t residual[SILBERLAUS_LINES_MAX + 1];
    size_t lines, bits, length;
} given;

static buffer in_spectrum, in_residual, out;
static uint8_t paint[ROOM];

/* The answer wanted; the frame is these bytes, or as it was lent. */
static void answers(const given *g, silberlaus_written want, const uint8_t *bytes)
{
    const int32_t *spectrum = (int32_t *)(void *)lend(&in_spectrum, (const uint8_t *)g->spectrum, g->lines * sizeof(int32_t));
    const uint8_t *residual = lend(&in_residual, g->residual, g->bits);
    uint8_t *frame = lend(&out, paint, g->length);
    silberlaus_written got =
        silberlaus_write_frame(g->khz, g->quarters, g->fields, spectrum, g->lines, residual, g->bits, frame, g->length);
    EXPECT(got.number == want.number);
    EXPECT(got.residual_bits == want.residual_bits);
    EXPECT(bytes != NULL ? holds(&out, bytes) : untouched(&out));
    EXPECT(untouched(&in_spectrum));
    EXPECT(untouched(&in_residual));
}

static void refuses(const given *g, uint8_t number)
{
    answers(g, (silberlaus_written){.number = number}, NULL);
}

/* ---- an example that was worked out by hand: 8 kHz, 2.5 ms; the ending carries through a byte 0xff into the one before it */
static void write_example(void)
{
    static const given example = {
        .khz = 8, .quarters = 10, .lines = 20, .bits = 20, .length = 20,
        .fields = {.last_line = 6, .gain = 200, .tns_flag_0 = 1, .shape_low = 3, .shape_high = 17, .shape_gain = 1,
                   .shape_joint = 1000000, .noise_level = 5, .tns_order_0 = 2, .tns_coefficients_0 = {8, 8}, .residual_bits = 4},
        .spectrum = {2, -1, 0, 5, 0, -1}, .residual = {1, 0, 1, 1},
    };
    static const uint8_t bytes[20] = {0x01, 0xc0, 0x00, 0x00, 0x00, 0x00, 0x00, 0x00, 0x00, 0x00,
                                      0x00, 0x03, 0x6a, 0xa0, 0xf4, 0x24, 0x05, 0x11, 0xb9, 0x02};
    answers(&example, (silberlaus_written){.residual_bits = 4}, bytes);
}

/* ---- samples: what is read is written again, with a residual bit for each line that is not 0, and gives the same frame */

static given read_sample(const sample *s, uint8_t *bytes)
{
    given g = {.khz = s->khz, .quarters = s->quarters, .lines = silberlaus_line_count(s->khz, s->quarters)};
    g.length = sample_bytes(s, bytes);
    g.bits = g.lines;
    g.fields = silberlaus_read_frame(g.khz, g.quarters, bytes, g.length, g.spectrum, g.lines, g.residual, g.bits);
    EXPECT(g.fields.number == SILBERLAUS_ACCEPTED);
    g.fields.residual_bits = 0;
    for (size_t k = 0; k < g.lines; k++)
        g.fields.residual_bits = (uint16_t)(g.fields.residual_bits + (g.spectrum[k] != 0));
    return g;
}

static void write_samples(void)
{
    uint8_t bytes[SILBERLAUS_FRAME_MAX];
    for (size_t k = 0; k < FIRST_REFUSED; k++) {
        given g = read_sample(&samples[k], bytes);
        g.fields.number = g.fields.cause = (uint8_t)k;
        g.fields.symbols = (uint16_t)(65535 - k);
        if (g.fields.lsb_mode == 0)
            answers(&g, (silberlaus_written){.residual_bits = samples[k].fields.residual_bits}, bytes);
        else
            refuses(&g, SILBERLAUS_BAD_SETTING);
    }
}

/* ---- refusals, each put into a frame that would be written: 48 kHz, 10 ms, two filters, pitch */
typedef void change(given *g);

static void rate(given *g) { g->khz = 256 + 48; }
static void duration(given *g) { g->quarters = 256 + 40; }
static void short_frame(given *g) { g->length = SILBERLAUS_FRAME_MIN - 1; }
static void long_frame(given *g) { g->length = SILBERLAUS_FRAME_MAX + 1; }
static void no_frame(given *g) { g->length = 0; }
static void bandwidth(given *g) { g->fields.bandwidth = 5; }
static void odd_last_line(given *g) { g->fields.last_line--; }
static void no_last_line(given *g) { g->fields.last_line = 0; }
static void far_last_line(given *g) { g->fields.last_line = 402; }
static void late_low_bits(given *g) { g->fields.lsb_mode = 1; }
static void flag_0(given *g) { g->fields.tns_flag_0 = 2; }
static void flag_1(given *g) { g->fields.bandwidth = 2; }
static void pitch(given *g) { g->fields.pitch_present = 0; }
static void shape(given *g) { g->fields.shape_low = 32; }
static void shape_gain(given *g) { g->fields.shape_gain = 4; }
static void joint(given *g) { g->fields.shape_joint = 16708096; }
static void pitch_index(given *g) { g->fields.pitch_index = 512; }
static void noise_level(given *g) { g->fields.noise_level = 8; }
static void order(given *g) { g->fields.tns_order_0 = 0; }
static void coefficient(given *g) { g->fields.tns_coefficients_1[0] = 17; }
static void short_spectrum(given *g) { g->lines--; }
static void long_spectrum(given *g) { g->lines++; }
static void no_spectrum(given *g) { g->lines = 0; }
static void short_residual(given *g) { g->bits--; }
static void long_residual(given *g) { g->bits++; }
static void no_residual(given *g) { g->bits = 0; }
static void large_line(given *g) { g->spectrum[0] = 32768; }
static void lowest_line(given *g) { g->spectrum[0] = INT32_MIN; }
static void line_past_last(given *g) { g->spectrum[g->fields.last_line] = 1; }
static void bit_more(given *g) { g->fields.residual_bits++; }
static void bit_fewer(given *g) { g->fields.residual_bits--; }
static void bit_of_2(given *g) { g->residual[0] = 2; }
static void bit_past_last(given *g) { g->residual[g->fields.residual_bits] = 1; }

/* Where nothing else is refused: the lines that are not 0 stay those that they are, and are too large for 20 bytes. */
static void no_room(given *g)
{
    g->length = SILBERLAUS_FRAME_MIN;
    for (size_t k = 0; k < g->lines; k++)
        g->spectrum[k] = g->spectrum[k] == 0 ? 0 : -32767;
}

/* In their order: what is refused later may be wrong too. */
static const struct { uint8_t number, step; change *put; } changes[] = {
    {1, 0, rate}, {1, 0, duration}, {1, 0, short_frame}, {1, 0, long_frame}, {1, 0, no_frame}, {1, 0, bandwidth},
    {1, 0, odd_last_line}, {1, 0, no_last_line}, {1, 0, far_last_line}, {1, 0, late_low_bits}, {1, 0, flag_0}, {1, 0, flag_1},
    {1, 0, pitch}, {1, 0, shape}, {1, 0, shape_gain}, {1, 0, joint}, {1, 0, pitch_index}, {1, 0, noise_level}, {1, 0, order},
    {1, 0, coefficient},
    {2, 1, short_spectrum}, {2, 1, long_spectrum}, {2, 1, no_spectrum}, {2, 1, short_residual}, {2, 1, long_residual},
    {2, 1, no_residual},
    {1, 2, large_line}, {1, 2, lowest_line}, {1, 2, line_past_last}, {1, 2, bit_more}, {1, 2, bit_fewer}, {1, 2, bit_of_2},
    {1, 2, bit_past_last},
    {8, 3, no_room},
};

static void write_refuses(void)
{
    uint8_t bytes[SILBERLAUS_FRAME_MAX];
    given right = read_sample(&samples[0], bytes);
    for (size_t first = 0; first < COUNT(changes); first++)
        for (size_t later = first; later < COUNT(changes); later++) {
            given g = right;
            if (changes[later].step > changes[first].step)
                changes[later].put(&g);
            changes[first].put(&g);
            refuses(&g, changes[first].number);
        }
    EXPECT(SILBERLAUS_FRAME_TOO_SMALL == 8);
}

/* ---- lengths that are right once they are narrowed to 32 bits: memory is set aside for them, and none of it is touched */
static void write_far_lengths(void)
{
    const size_t far = (size_t)1 << 32, whole = far * sizeof(int32_t) + 4096;
    uint8_t bytes[SILBERLAUS_FRAME_MAX];
    given g = read_sample(&samples[0], bytes);
    void *all = mmap(NULL, whole, PROT_READ | PROT_WRITE, MAP_PRIVATE | MAP_ANONYMOUS | MAP_NORESERVE, -1, 0);
    if (all == MAP_FAILED) {
        puts("left out: lengths above 32 bits of a frame to write, as no memory can be set aside for them");
        return;
    }
    EXPECT(silberlaus_write_frame(48, 40, g.fields, g.spectrum, 400, g.residual, 400, all, far + 20).number == 1);
    EXPECT(silberlaus_write_frame(48, 40, g.fields, all, far + 400, g.residual, 400, bytes, 20).number == 2);
    EXPECT(silberlaus_write_frame(48, 40, g.fields, g.spectrum, 400, all, far + 400, bytes, 20).number == 2);
    EXPECT(munmap(all, whole) == 0);
}

void write_calls(void)
{
    memset(paint, 0x7d, ROOM);
    write_example();
    write_samples();
    write_refuses();
    write_far_lengths();
}
