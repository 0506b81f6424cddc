/* Reading the list (see vectors.h). */
#include "vectors.h"

#include <stdio.h>
#include <stdlib.h>
#include <string.h>

#include "../common/said.h"

vector vectors[MOST_VECTORS];
size_t vectors_length;

static _Noreturn void malformed(void)
{
    said(fprintf(stderr, "WRONG: line %zu of write_frames.txt is not as README.md says\n", vectors_length + 1));
    exit(2);
}

/* The next number of a line, in these bounds, and a byte of these after it. */
static int64_t number_to(char **text, const char *ends, int64_t least, int64_t most)
{
    char *stop;
    int64_t value = strtoll(*text, &stop, 10);
    if (stop == *text || *stop == '\0' || strchr(ends, *stop) == NULL || value < least || value > most)
        malformed();
    *text = stop + 1;
    return value;
}

static uint8_t byte_to(char **text) { return (uint8_t)number_to(text, " ", 0, UINT8_MAX); }
static uint16_t short_to(char **text) { return (uint16_t)number_to(text, " ", 0, UINT16_MAX); }
static uint32_t word_to(char **text) { return (uint32_t)number_to(text, " ", 0, UINT32_MAX); }
static size_t length_to(char **text) { return (size_t)number_to(text, " ", 0, MOST_LENT); }

/* `-` and that byte, where nothing is given. */
static int nothing_to(char **text, char end)
{
    if ((*text)[0] != '-' || (*text)[1] != end)
        return 0;
    *text += 2;
    return 1;
}

/* Numbers with a comma between, at most so many; how many there are. */
static size_t numbers_to(char **text, int32_t *numbers, size_t most)
{
    if (nothing_to(text, ' '))
        return 0;
    for (size_t k = 0; k < most; k++) {
        numbers[k] = (int32_t)number_to(text, ", ", INT32_MIN, INT32_MAX);
        if ((*text)[-1] == ' ')
            return k + 1;
    }
    malformed();
}

static void coefficients_to(char **text, uint8_t *coefficients)
{
    int32_t numbers[8] = {0};
    numbers_to(text, numbers, 8);
    for (unsigned k = 0; k < 8; k++) {
        if (numbers[k] < 0 || numbers[k] > UINT8_MAX)
            malformed();
        coefficients[k] = (uint8_t)numbers[k];
    }
}

static void residual_to(char **text, asked *a)
{
    size_t count = strspn(*text, "0123456789");
    if (nothing_to(text, ' '))
        return;
    if (count > MOST_LINES || (*text)[count] != ' ')
        malformed();
    for (size_t k = 0; k < count; k++)
        a->residual[k] = (uint8_t)((*text)[k] - '0');
    *text += count + 1;
}

static void frame_to(char **text, vector *v)
{
    unsigned byte;
    size_t length = 0;
    if (v->want.said.number != 0 && nothing_to(text, '\n'))
        return;
    for (; length < MOST_BYTES && sscanf(*text, "%2x", &byte) == 1; *text += 2)
        v->want.frame[length++] = (uint8_t)byte;
    if (length != v->given.length || **text != '\n')
        malformed();
    ++*text;
}

static void shape_to(char **text, silberlaus_frame *f)
{
    f->shape_low = byte_to(text);
    f->shape_high = byte_to(text);
    f->shape_mode = byte_to(text);
    f->shape_gain = byte_to(text);
    f->shape_sign = byte_to(text);
    f->shape_joint = word_to(text);
}

static void fields_to(char **text, silberlaus_frame *f)
{
    f->bandwidth = byte_to(text);
    f->last_line = short_to(text);
    f->lsb_mode = byte_to(text);
    f->gain = byte_to(text);
    f->tns_flag_0 = byte_to(text);
    f->tns_flag_1 = byte_to(text);
    f->pitch_present = byte_to(text);
    shape_to(text, f);
    f->filter_flag = byte_to(text);
    f->pitch_index = short_to(text);
    f->noise_level = byte_to(text);
    f->tns_order_0 = byte_to(text);
    f->tns_order_1 = byte_to(text);
    coefficients_to(text, f->tns_coefficients_0);
    coefficients_to(text, f->tns_coefficients_1);
    f->residual_bits = short_to(text);
}

static void line_to(char *text, vector *v)
{
    asked *a = &v->given;
    *v = (vector){0};
    a->khz = word_to(&text);
    a->quarters = word_to(&text);
    a->length = length_to(&text);
    fields_to(&text, &a->fields);
    a->spectrum_length = length_to(&text);
    a->residual_length = length_to(&text);
    numbers_to(&text, a->spectrum, MOST_LINES);
    residual_to(&text, a);
    v->want.said.number = byte_to(&text);
    v->want.said.residual_bits = short_to(&text);
    frame_to(&text, v);
    if (*text != '\0')
        malformed();
}

void vectors_read(const char *folder)
{
    static char path[4096], line[8192];
    snprintf(path, sizeof path, "%s/write_frames.txt", folder);
    FILE *file = fopen(path, "r");
    if (file == NULL) {
        perror(path);
        exit(2);
    }
    for (; vectors_length < MOST_VECTORS && fgets(line, sizeof line, file) != NULL; vectors_length++)
        line_to(line, &vectors[vectors_length]);
    if (ferror(file) || !feof(file))
        malformed();
    fclose(file);
}
