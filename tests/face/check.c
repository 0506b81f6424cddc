/* Calls every function of include/silberlaus.h as compiled: what each accepts, all its refusals in their order, the bytes
   in and around every lent buffer; the layout of the structs, and the stack that a call needs. Whether the answers are
   right for all kinds of input is tested in tests/slot, tests/frame, tests/writer and tests/record, against other
   implementations.
   A line for each group; it ends with status 1 where an expectation was wrong. */
#include <stdio.h>
#include <string.h>

#include "check.h"

static unsigned long expectations, wrong, wrong_before;

void expect(int right, const char *text, const char *file, int line)
{
    expectations++;
    if (!right && wrong++ < 20)
        printf("  WRONG: %s:%d: %s\n", file, line, text);
}

uint8_t *lend(buffer *b, const uint8_t *from, size_t length)
{
    b->length = length;
    memset(b->bytes, 0xa5, sizeof b->bytes);
    if (length > 0)
        memcpy(b->bytes + GUARD, from, length);
    memcpy(b->before, b->bytes + GUARD, ROOM);
    return length > 0 ? b->bytes + GUARD : NULL;
}

int guards_hold(const buffer *b)
{
    for (size_t k = 0; k < GUARD; k++)
        if (b->bytes[k] != 0xa5 || b->bytes[GUARD + b->length + k] != 0xa5)
            return 0;
    return 1;
}

int holds(const buffer *b, const uint8_t *bytes)
{
    return memcmp(b->bytes + GUARD, bytes, b->length) == 0 && guards_hold(b);
}

int untouched(const buffer *b)
{
    return holds(b, b->before);
}

uint8_t frame[FRAME_SIZE], slot[SIZE];

const uint32_t no_forms[NO_FORMS] = {0, 3, 256 + 1, 256 + 2, 65536 + 1, 65536 + 2, 0x80000002u, 4294967295u};

/* Semi-octet k of word i stands at place 2 size - 1 - words k - i; place 2 j is the lower half of byte j (A.51). */
void damage(uint8_t *bytes, size_t size, size_t i, unsigned changes)
{
    size_t words = (2 * size + 14) / 15;
    for (size_t k = 0; k < changes; k++) {
        size_t place = 2 * size - 1 - words * k - i;
        bytes[place / 2] ^= (uint8_t)(5 << 4 * (place % 2));
    }
}

static void group(void (*cases)(void), const char *name)
{
    cases();
    printf("%-60s %5lu expectations, %lu wrong\n", name, expectations, wrong - wrong_before);
    expectations = 0;
    wrong_before = wrong;
}

int main(void)
{
    for (size_t k = 0; k < FRAME_SIZE; k++)
        frame[k] = (uint8_t)(7 * k + 3);
    EXPECT(silberlaus_protect(SIZE, MODE, REQUEST, frame, FRAME_SIZE, slot, SIZE) == SILBERLAUS_ACCEPTED);
    group(slot_calls, "slots: frame size, protect, unprotect, and their refusals");
    group(batch_calls, "slots: unprotect each, and its refusals");
    group(frame_calls, "frames: line count, read frame, read entry, and their refusals");
    group(write_calls, "frames: write frame, and its refusals");
    group(record_calls, "records: new, entries, entry, add, moves, and their refusals");
    group(layouts, "structs: every field where the library puts it");
    group(stacks, "stack: no call needs more than the header says");
    return wrong > 0;
}
