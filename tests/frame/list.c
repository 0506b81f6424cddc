/* Reading lists of cases (see list.h). */
#include "list.h"

#include <stdio.h>
#include <stdlib.h>
#include <string.h>

#include "../common/said.h"

listed list[MOST_LISTED];
size_t list_length;
static const char *list_name;
static size_t line_number;

static _Noreturn void malformed(void)
{
    said(fprintf(stderr, "WRONG: line %zu of %s is not as README.md says\n", line_number, list_name));
    exit(2);
}

/* The next number of a line, in these bounds; it ends with that byte. */
static int64_t number_to(char **text, char end, int64_t least, int64_t most)
{
    char *stop;
    int64_t value = strtoll(*text, &stop, 10);
    if (stop == *text || *stop != end || value < least || value > most)
        malformed();
    *text = stop + 1;
    return value;
}

static uint8_t byte_to(char **text, char end)
{
    return (uint8_t)number_to(text, end, 0, UINT8_MAX);
}

static uint16_t short_to(char **text)
{
    return (uint16_t)number_to(text, ' ', 0, UINT16_MAX);
}

static uint32_t word_to(char **text)
{
    return (uint32_t)number_to(text, ' ', 0, UINT32_MAX);
}

static void bytes_to(char **text, listed *c)
{
    unsigned byte;
    for (c->length = 0; c->length < ROOM && sscanf(*text, "%2x", &byte) == 1 && **text != ' '; *text += 2)
        c->frame[c->length++] = (uint8_t)byte;
    *text += c->length == 0 && **text == '-';
    if (**text != ' ')
        malformed();
    ++*text;
}

/* Numbers with a comma between, `-` for none. */
static void coefficients_to(char **text, uint8_t order, uint8_t *coefficients)
{
    if (order > 8)
        malformed();
    for (unsigned k = 0; k < order; k++)
        coefficients[k] = byte_to(text, k + 1 < order ? ',' : ' ');
    if (order == 0 && strncmp(*text, "- ", 2) != 0)
        malformed();
    *text += order == 0 ? 2 : 0;
}

static void residual_to(char **text, answer *want)
{
    size_t count = want->fields.residual_bits;
    if (count > MOST_LINES || strspn(*text, "01") != count)
        malformed();
    for (size_t k = 0; k < count; k++)
        want->residual[k] = (uint8_t)(*(*text)++ - '0');
    *text += count == 0 && **text == '-';
    if (**text != ' ')
        malformed();
    ++*text;
}

static void side_information_to(char **text, silberlaus_frame *f)
{
    f->bandwidth = byte_to(text, ' ');
    f->last_line = short_to(text);
    f->lsb_mode = byte_to(text, ' ');
    f->gain = byte_to(text, ' ');
    f->tns_flag_0 = byte_to(text, ' ');
    f->tns_flag_1 = byte_to(text, ' ');
    f->pitch_present = byte_to(text, ' ');
    f->shape_low = byte_to(text, ' ');
    f->shape_high = byte_to(text, ' ');
    f->shape_mode = byte_to(text, ' ');
    f->shape_gain = byte_to(text, ' ');
    f->shape_sign = byte_to(text, ' ');
    f->shape_joint = word_to(text);
    f->filter_flag = byte_to(text, ' ');
    f->pitch_index = short_to(text);
    f->noise_level = byte_to(text, ' ');
}

static void accepted_to(char **text, answer *want)
{
    silberlaus_frame *f = &want->fields;
    side_information_to(text, f);
    f->tns_order_0 = byte_to(text, ' ');
    f->tns_order_1 = byte_to(text, ' ');
    coefficients_to(text, f->tns_order_0, f->tns_coefficients_0);
    coefficients_to(text, f->tns_order_1, f->tns_coefficients_1);
    f->symbols = short_to(text);
    f->residual_bits = short_to(text);
    residual_to(text, want);
    if (f->last_line > MOST_LINES)
        malformed();
    for (unsigned k = 0; k < f->last_line; k++)
        want->spectrum[k] = (int32_t)number_to(text, k + 1u < f->last_line ? ',' : '\n', INT32_MIN, INT32_MAX);
}

static void line_to(char *text, uint32_t quarters, listed *c)
{
    *c = (listed){0};
    c->khz = word_to(&text);
    c->quarters = quarters > 0 ? quarters : word_to(&text);
    bytes_to(&text, c);
    c->want.fields.number = byte_to(&text, ' ');
    c->want.fields.cause = byte_to(&text, c->want.fields.number == 0 ? ' ' : '\n');
    if (c->want.fields.number == 0)
        accepted_to(&text, &c->want);
    if (*text != '\0')
        malformed();
}

void list_read(const char *folder, const char *name, uint32_t quarters)
{
    static char path[4096], line[8192];
    list_name = name;
    line_number = 1;
    snprintf(path, sizeof path, "%s/%s", folder, name);
    FILE *file = fopen(path, "r");
    if (file == NULL) {
        perror(path);
        exit(2);
    }
    for (; list_length < MOST_LISTED && fgets(line, sizeof line, file) != NULL; line_number++)
        line_to(line, quarters, &list[list_length++]);
    if (ferror(file) || !feof(file))
        malformed();
    fclose(file);
}

const settings *list_settings(const listed *c)
{
    return c->want.fields.number == 1 ? NULL : reference_settings_of(c->khz, c->quarters);
}
