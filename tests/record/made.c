/* See made.h. */
#include "made.h"

#include "../common/cases.h"

static uint8_t frames[ROOM];
entry_place list[LISTED];

void made_start(void)
{
    random_bytes(frames, sizeof frames);
    random_frame();
}

uint32_t some_bits(uint32_t count)
{
    return below(8) == 0 ? UNKNOWN : count + below(3 * count + 1);
}

/* An entry in range but for its length, which may be any. */
static entry_place some_entry(uint32_t length)
{
    uint32_t count = below(3) ? below(163) : below(3);
    return (entry_place){below(ROOM - 1000), length, below(4), count, some_bits(count)};
}

void list_some(size_t entries, uint32_t longest)
{
    for (size_t k = 0; k < entries; k++)
        list[k] = some_entry(20 + below(longest - 19));
}

void list_total(size_t entries, size_t total)
{
    for (size_t k = 0; k < entries; k++)
        list[k] = some_entry((uint32_t)(total / entries + (k < total % entries)));
}

size_t write_both(uint32_t form, size_t entries)
{
    both_full_of((uint8_t)below(256));
    size_t used = reference_write(form, frames, list, entries, ours);
    theirs_as_ours();
    return used;
}

size_t frames_in(uint32_t form, size_t entries, size_t used)
{
    return used - reference_end(form) - entries * reference_beside(form);
}
