/* The slots' calls: frame size; protect, which refuses with 1, then 2; unprotect, which refuses with 1, 2, 3, then 4. */
#include <string.h>

#include "check.h"

static buffer in, out;
static uint8_t noise[ROOM];

static void frame_sizes(void)
{
    EXPECT(silberlaus_frame_size(SIZE, MODE) == FRAME_SIZE);
    EXPECT(silberlaus_frame_size(SILBERLAUS_SLOT_MIN, SILBERLAUS_MODE_MAX) == SILBERLAUS_FRAME_MIN);
    EXPECT(silberlaus_frame_size(SILBERLAUS_SLOT_MAX, SILBERLAUS_MODE_MIN) == SILBERLAUS_SLOT_FRAME_MAX);
    EXPECT(silberlaus_frame_size(SILBERLAUS_SLOT_MIN - 1, MODE) == 0);
    EXPECT(silberlaus_frame_size(SILBERLAUS_SLOT_MAX + 1, MODE) == 0);
    EXPECT(silberlaus_frame_size(SIZE, SILBERLAUS_MODE_MIN - 1) == 0);
    EXPECT(silberlaus_frame_size(SIZE, SILBERLAUS_MODE_MAX + 1) == 0);
    EXPECT(silberlaus_frame_size(SIZE, 256 + MODE) == 0);
    EXPECT(silberlaus_frame_size(((size_t)1 << 32) + SIZE, MODE) == 0);
    size_t most = 0;
    for (size_t size = SILBERLAUS_SLOT_MIN; size <= SILBERLAUS_SLOT_MAX; size++)
        for (uint32_t mode = SILBERLAUS_MODE_MIN; mode <= SILBERLAUS_MODE_MAX; mode++)
            if (silberlaus_frame_size(size, mode) > most)
                most = silberlaus_frame_size(size, mode);
    EXPECT(most == SILBERLAUS_SLOT_FRAME_MAX);
}

/* Settings, the lengths of the two buffers, and the number wanted. */
typedef struct { size_t size; uint32_t mode, request; size_t frame_len, slot_len; uint8_t number; } call;

static const call protecting[] = {
    {SIZE, MODE, REQUEST, FRAME_SIZE, SIZE, SILBERLAUS_ACCEPTED},
    {39, MODE, REQUEST, FRAME_SIZE, SIZE, SILBERLAUS_BAD_SETTING},
    {401, MODE, REQUEST, FRAME_SIZE, SIZE, SILBERLAUS_BAD_SETTING},
    {((size_t)1 << 32) + SIZE, MODE, REQUEST, FRAME_SIZE, SIZE, SILBERLAUS_BAD_SETTING},
    {SIZE, 1, REQUEST, FRAME_SIZE, SIZE, SILBERLAUS_BAD_SETTING},
    {SIZE, 5, REQUEST, FRAME_SIZE, SIZE, SILBERLAUS_BAD_SETTING},
    {SIZE, 256 + MODE, REQUEST, FRAME_SIZE, SIZE, SILBERLAUS_BAD_SETTING},
    {SIZE, MODE, 4, FRAME_SIZE, SIZE, SILBERLAUS_BAD_SETTING},
    {SIZE, MODE, 256 + REQUEST, FRAME_SIZE, SIZE, SILBERLAUS_BAD_SETTING},
    {SIZE, MODE, 4294967295u, FRAME_SIZE, SIZE, SILBERLAUS_BAD_SETTING},
    /* 1 before 2 */
    {39, MODE, REQUEST, FRAME_SIZE - 1, SIZE - 1, SILBERLAUS_BAD_SETTING},
    {SIZE, 5, REQUEST, 0, 0, SILBERLAUS_BAD_SETTING},
    {SIZE, MODE, 4, FRAME_SIZE - 1, SIZE + 1, SILBERLAUS_BAD_SETTING},
    {SIZE, MODE, REQUEST, FRAME_SIZE - 1, SIZE, SILBERLAUS_BAD_LENGTH},
    {SIZE, MODE, REQUEST, FRAME_SIZE + 1, SIZE, SILBERLAUS_BAD_LENGTH},
    {SIZE, MODE, REQUEST, 0, SIZE, SILBERLAUS_BAD_LENGTH},
    {SIZE, MODE, REQUEST, FRAME_SIZE, SIZE - 1, SILBERLAUS_BAD_LENGTH},
    {SIZE, MODE, REQUEST, FRAME_SIZE, SIZE + 1, SILBERLAUS_BAD_LENGTH},
    {SIZE, MODE, REQUEST, FRAME_SIZE, 0, SILBERLAUS_BAD_LENGTH},
    {SIZE, MODE, REQUEST, 0, 0, SILBERLAUS_BAD_LENGTH},
};

static void protect(void)
{
    static uint8_t frames[ROOM];
    memcpy(frames, frame, FRAME_SIZE);
    for (size_t k = 0; k < COUNT(protecting); k++) {
        call c = protecting[k];
        const uint8_t *from = lend(&in, frames, c.frame_len);
        uint8_t *to = lend(&out, noise, c.slot_len);
        EXPECT(silberlaus_protect(c.size, c.mode, c.request, from, c.frame_len, to, c.slot_len) == c.number);
        EXPECT(untouched(&in));
        EXPECT(c.number == SILBERLAUS_ACCEPTED ? holds(&out, slot) : untouched(&out));
    }
}

/* Unprotecting these bytes gives this answer, and on a refusal leaves the frame's buffer. */
static void unprotect_to(call c, const uint8_t *received, silberlaus_unprotected want)
{
    const uint8_t *from = lend(&in, received, c.slot_len);
    uint8_t *to = lend(&out, noise, c.frame_len);
    silberlaus_unprotected got = silberlaus_unprotect(c.size, c.mode, from, c.slot_len, to, c.frame_len);
    EXPECT(got.number == want.number);
    EXPECT(got.request == want.request);
    EXPECT(got.semi_octets == want.semi_octets);
    EXPECT(got.bits == want.bits);
    EXPECT(untouched(&in));
    EXPECT(want.number == SILBERLAUS_ACCEPTED ? holds(&out, frame) : untouched(&out));
}

static const call right = {SIZE, MODE, 0, FRAME_SIZE, SIZE, SILBERLAUS_ACCEPTED};

static void unprotect_accepts(void)
{
    uint8_t received[SIZE];
    memcpy(received, slot, SIZE);
    silberlaus_unprotected want = {SILBERLAUS_ACCEPTED, REQUEST, 0, 0};
    unprotect_to(right, received, want);
    for (size_t i = 0; i < WORDS; i++) {
        damage(received, SIZE, i, REPAIRABLE);
        want.semi_octets += REPAIRABLE;
        want.bits += BITS_EACH * REPAIRABLE;
        unprotect_to(right, received, want);
    }
}

void make_foreign(uint8_t *foreign)
{
    uint8_t other_frame[FRAME_SIZE], other[SIZE];
    memset(other_frame, 0x5c, FRAME_SIZE);
    EXPECT(silberlaus_protect(SIZE, MODE, REQUEST, other_frame, FRAME_SIZE, other, SIZE) == SILBERLAUS_ACCEPTED);
    for (size_t place = 0; place < 2 * SIZE; place++) {
        const uint8_t *from = (2 * SIZE - 1 - place) % WORDS == 4 ? other : slot;
        uint8_t half = place % 2 ? 0xf0 : 0x0f;
        foreign[place / 2] = (uint8_t)((foreign[place / 2] & ~half) | (from[place / 2] & half));
    }
}

/* Three changes may lead to another valid word, so several are tried. */
int make_hopeless(uint8_t *bytes)
{
    uint8_t start[SIZE], room[FRAME_SIZE];
    memcpy(start, bytes, SIZE);
    for (size_t i = 0; i < WORDS; i++) {
        memcpy(bytes, start, SIZE);
        damage(bytes, SIZE, i, MODE + (unsigned)(i % 3));
        if (silberlaus_unprotect(SIZE, MODE, bytes, SIZE, room, FRAME_SIZE).number == SILBERLAUS_BEYOND_REPAIR)
            return 1;
    }
    return 0;
}

static const call unprotecting[] = {
    {39, MODE, 0, FRAME_SIZE, SIZE, SILBERLAUS_BAD_SETTING},
    {401, MODE, 0, FRAME_SIZE, SIZE, SILBERLAUS_BAD_SETTING},
    {((size_t)1 << 32) + SIZE, MODE, 0, FRAME_SIZE, SIZE, SILBERLAUS_BAD_SETTING},
    {SIZE, 1, 0, FRAME_SIZE, SIZE, SILBERLAUS_BAD_SETTING},
    {SIZE, 5, 0, FRAME_SIZE, SIZE, SILBERLAUS_BAD_SETTING},
    {SIZE, 256 + MODE, 0, FRAME_SIZE, SIZE, SILBERLAUS_BAD_SETTING},
    /* 1 before 2 */
    {39, MODE, 0, FRAME_SIZE - 1, SIZE - 1, SILBERLAUS_BAD_SETTING},
    {SIZE, 5, 0, 0, 0, SILBERLAUS_BAD_SETTING},
    {SIZE, MODE, 0, FRAME_SIZE - 1, SIZE, SILBERLAUS_BAD_LENGTH},
    {SIZE, MODE, 0, FRAME_SIZE + 1, SIZE, SILBERLAUS_BAD_LENGTH},
    {SIZE, MODE, 0, 0, SIZE, SILBERLAUS_BAD_LENGTH},
    {SIZE, MODE, 0, FRAME_SIZE, SIZE - 1, SILBERLAUS_BAD_LENGTH},
    {SIZE, MODE, 0, FRAME_SIZE, SIZE + 1, SILBERLAUS_BAD_LENGTH},
    {SIZE, MODE, 0, FRAME_SIZE, 0, SILBERLAUS_BAD_LENGTH},
    {SIZE, MODE, 0, 0, 0, SILBERLAUS_BAD_LENGTH},
};

/* 1 and 2 are given whatever the slot holds, a clean one or a hopeless one; then 3 before 4. */
static void unprotect_refuses(void)
{
    static uint8_t clean[ROOM], hopeless[ROOM];
    uint8_t foreign[SIZE] = {0}, both[SIZE];
    memcpy(clean, slot, SIZE);
    memcpy(hopeless, slot, SIZE);
    EXPECT(make_hopeless(hopeless));
    make_foreign(foreign);
    memcpy(both, foreign, SIZE);
    EXPECT(make_hopeless(both));
    for (size_t k = 0; k < COUNT(unprotecting); k++) {
        unprotect_to(unprotecting[k], clean, (silberlaus_unprotected){unprotecting[k].number, 0, 0, 0});
        unprotect_to(unprotecting[k], hopeless, (silberlaus_unprotected){unprotecting[k].number, 0, 0, 0});
    }
    unprotect_to(right, hopeless, (silberlaus_unprotected){SILBERLAUS_BEYOND_REPAIR, 0, 0, 0});
    unprotect_to(right, both, (silberlaus_unprotected){SILBERLAUS_BEYOND_REPAIR, 0, 0, 0});
    unprotect_to(right, foreign, (silberlaus_unprotected){SILBERLAUS_FOREIGN, 0, 0, 0});
}

void slot_calls(void)
{
    for (size_t k = 0; k < ROOM; k++)
        noise[k] = (uint8_t)(11 * k + 1);
    frame_sizes();
    protect();
    unprotect_accepts();
    unprotect_refuses();
}
