/* See list.h. */
#include "list.h"

#include <inttypes.h>
#include <stdlib.h>

#include "../common/said.h"

FILE *list_open(const char *folder, const char *name)
{
    char path[4096];
    snprintf(path, sizeof path, "%s/%s", folder, name);
    FILE *list = fopen(path, "r");
    if (list == NULL) {
        perror(path);
        exit(2);
    }
    return list;
}

void malformed(const char *name)
{
    said(printf("WRONG: a line of %s is not as README.md says\n", name));
    exit(2);
}

size_t from_hex(const char *text, uint8_t *bytes)
{
    size_t length = 0;
    unsigned byte;
    while (length < ROOM && text[2 * length] != '\0' && sscanf(text + 2 * length, "%2x", &byte) == 1)
        bytes[length++] = (uint8_t)byte;
    return length;
}

int next_received(FILE *list, const char *name, received *line)
{
    unsigned number, request, semi_octets, bits;
    char slot_hex[2 * ROOM], frame_hex[2 * ROOM];
    int fields = fscanf(list, "%zu %" SCNu32 " %2047s %u %u %u %u %2047s", &line->size, &line->mode, slot_hex, &number, &request,
                        &semi_octets, &bits, frame_hex);
    if (fields == EOF)
        return 0;
    if (fields != 8)
        malformed(name);
    line->slot_len = from_hex(slot_hex, line->slot);
    line->want = (slot_answer){(uint8_t)number, (uint8_t)request, (uint16_t)semi_octets, (uint16_t)bits};
    if ((line->slot_len != line->size) != (number == 2)
        || from_hex(frame_hex, line->frame) != (number == 0 ? reference_frame_size(line->size, line->mode) : 0))
        malformed(name);
    return 1;
}
