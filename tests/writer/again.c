/* Writing again (see again.h). */
#include "again.h"

#include <string.h>

static uint16_t lines_not_0(const settings *set, const int32_t *spectrum)
{
    uint16_t count = 0;
    for (unsigned k = 0; k < set->lines; k++)
        count = (uint16_t)(count + (spectrum[k] != 0));
    return count;
}

int again_asked(reader *read, const settings *set, const uint8_t *frame, size_t length, asked *a, written *want)
{
    answer given = {0};
    given.fields = read(set->khz, set->quarters, frame, length, given.spectrum, set->lines, given.residual, set->lines);
    uint16_t sent = given.fields.residual_bits, all = lines_not_0(set, given.spectrum);
    if (given.fields.number != 0 || given.fields.lsb_mode != 0)
        return 0;
    for (unsigned k = sent; k < all; k++)
        given.residual[k] = (uint8_t)(frame[k % length] & 1);
    given.fields.residual_bits = all;
    *a = ask_right(set, &given, length);
    *want = (written){.said = {.residual_bits = sent}};
    memcpy(want->frame, frame, length);
    return 1;
}
