/* Unprotecting many slots at once, which refuses with 1, then 2; a slot that is refused has its number in the answer. */
#include <string.h>

#include "check.h"

/* Clean, beyond repair, damaged, foreign, clean. */
enum { N = 5, PARTS = 6, SLOTS = 0, NUMBERS, REQUESTS, SEMI_OCTETS, BITS, FRAMES };
static const uint8_t numbers[N] = {0, SILBERLAUS_BEYOND_REPAIR, 0, SILBERLAUS_FOREIGN, 0};
static const uint8_t requests[N] = {REQUEST, 0, REQUEST, 0, REQUEST};
static const uint16_t semi_octets[N] = {0, 0, REPAIRABLE, 0, 0}, bits[N] = {0, 0, BITS_EACH * REPAIRABLE, 0, 0};
static uint8_t slots[(N + 1) * SIZE], noise[ROOM];
static buffer lent[PARTS];

/* Settings, how many elements of each buffer are lent, and the number wanted. */
typedef struct { size_t size; uint32_t mode; size_t length[PARTS]; uint8_t number; } call;
static const call right = {SIZE, MODE, {N * SIZE, N, N, N, N, N * FRAME_SIZE}, SILBERLAUS_ACCEPTED};

static void lend_all(const call *c)
{
    for (unsigned part = 0; part < PARTS; part++) {
        size_t width = part == SEMI_OCTETS || part == BITS ? sizeof(uint16_t) : 1;
        lend(&lent[part], part == SLOTS ? slots : noise, width * c->length[part]);
    }
}

static uint8_t *bytes(unsigned part)
{
    return lent[part].length > 0 ? lent[part].bytes + GUARD : NULL;
}

static uint16_t *entries(unsigned part) { return (uint16_t *)(void *)bytes(part); }

static void made(call c)
{
    lend_all(&c);
    EXPECT(silberlaus_unprotect_each(c.size, c.mode, bytes(SLOTS), c.length[SLOTS], bytes(NUMBERS), c.length[NUMBERS],
                                     bytes(REQUESTS), c.length[REQUESTS], entries(SEMI_OCTETS), c.length[SEMI_OCTETS],
                                     entries(BITS), c.length[BITS], bytes(FRAMES), c.length[FRAMES]) == c.number);
    EXPECT(untouched(&lent[SLOTS]));
}

/* The call gives that number and writes nothing. */
static void leaves_all(call c, uint8_t number)
{
    c.number = number;
    made(c);
    for (unsigned part = 0; part < PARTS; part++)
        EXPECT(untouched(&lent[part]));
}

static void accepts(void)
{
    uint8_t frames[N * FRAME_SIZE];
    memcpy(frames, noise, sizeof frames);
    for (size_t i = 0; i < N; i++) {
        memcpy(slots + i * SIZE, slot, SIZE);
        if (numbers[i] == SILBERLAUS_ACCEPTED)
            memcpy(frames + i * FRAME_SIZE, frame, FRAME_SIZE);
    }
    EXPECT(make_hopeless(slots + 1 * SIZE));
    damage(slots + 2 * SIZE, SIZE, 4, REPAIRABLE);
    make_foreign(slots + 3 * SIZE);
    made(right);
    EXPECT(holds(&lent[NUMBERS], numbers));
    EXPECT(holds(&lent[REQUESTS], requests));
    EXPECT(holds(&lent[SEMI_OCTETS], (const uint8_t *)semi_octets));
    EXPECT(holds(&lent[BITS], (const uint8_t *)bits));
    EXPECT(holds(&lent[FRAMES], frames));
    leaves_all((call){SIZE, MODE, {0}, 0}, SILBERLAUS_ACCEPTED); /* no slots, nowhere */
}

static const struct { size_t size; uint32_t mode; } no_settings[] = {
    {0, MODE}, {39, MODE}, {401, MODE}, {((size_t)1 << 32) + SIZE, MODE}, {SIZE, 0}, {SIZE, 1}, {SIZE, 5}, {SIZE, 256 + MODE},
};

/* A wrong length is a 2, and with a wrong setting a 1. */
static void refuses_lengths(call c)
{
    leaves_all(c, SILBERLAUS_BAD_LENGTH);
    for (size_t k = 0; k < COUNT(no_settings); k++) {
        c.size = no_settings[k].size;
        c.mode = no_settings[k].mode;
        leaves_all(c, SILBERLAUS_BAD_SETTING);
    }
}

static void refusals(void)
{
    static const size_t of_slot[PARTS] = {SIZE, 1, 1, 1, 1, FRAME_SIZE};
    for (size_t k = 0; k < COUNT(no_settings); k++) {
        call c = right;
        c.size = no_settings[k].size;
        c.mode = no_settings[k].mode;
        leaves_all(c, SILBERLAUS_BAD_SETTING);
        memset(c.length, 0, sizeof c.length);
        leaves_all(c, SILBERLAUS_BAD_SETTING);
    }
    for (unsigned part = 0; part < PARTS; part++) {
        size_t whole = right.length[part], lengths[] = {whole - 1, whole + 1, whole - of_slot[part], whole + of_slot[part], 0};
        for (size_t k = 0; k < COUNT(lengths); k++) {
            call c = right;
            c.length[part] = lengths[k];
            refuses_lengths(c);
        }
        call one = {SIZE, MODE, {0}, 0};
        one.length[part] = 1;
        refuses_lengths(one);
    }
}

void batch_calls(void)
{
    for (size_t k = 0; k < ROOM; k++)
        noise[k] = (uint8_t)(13 * k + 7);
    accepts();
    refusals();
}
