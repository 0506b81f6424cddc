/* Every line of form2.txt (README.md) but those of the listing, which list.py runs: by the archive and by the reference. */
#include <stdio.h>
#include <stdlib.h>
#include <string.h>

#include "../common/cases.h"
#include "../common/said.h"
#include "kinds.h"
#include "made.h"

enum { SIDES = 2, LONGEST_LINE = 4096, MOST_FIELDS = 12, BYTES = LONGEST_LINE / 2 };

typedef silberlaus_added move_call(const uint8_t *, size_t, uint8_t *, size_t);

static const struct {
    uint8_t (*new)(uint32_t, uint8_t *, size_t);
    silberlaus_entries (*entries)(uint32_t, const uint8_t *, size_t);
    silberlaus_entry (*entry)(uint32_t, const uint8_t *, size_t, size_t);
    silberlaus_added (*add)(uint8_t *, size_t, size_t, const uint8_t *, size_t, uint32_t, uint32_t, uint32_t, uint32_t);
    move_call *to_form_2, *to_form_1;
} sides[SIDES] = {
    {silberlaus_record_new, silberlaus_record_entries, silberlaus_record_entry, silberlaus_record_add,
     silberlaus_record_to_form_2, silberlaus_record_to_form_1},
    {reference_new, reference_entries, reference_entry, reference_add, reference_to_form_2, reference_to_form_1},
};

static char *fields[MOST_FIELDS];
static size_t line_number;

static void malformed(void)
{
    said(printf("WRONG: line %zu of form2.txt is not as README.md says\n", line_number));
    exit(2);
}

static size_t number(size_t field)
{
    char *stop;
    unsigned long long value = strtoull(fields[field], &stop, 10);
    if (stop == fields[field] || *stop != '\0')
        malformed();
    return (size_t)value;
}

/* A setting of 32 bits, and a field of an answer. */
static uint32_t setting(size_t field)
{
    if (number(field) > 0xffffffff)
        malformed();
    return (uint32_t)number(field);
}

/* The bytes of a field in hex; `-` is none. */
static size_t from_hex(size_t field, uint8_t *bytes)
{
    const char *text = fields[field];
    size_t length = 0, digits = strcmp(text, "-") == 0 ? 0 : strlen(text);
    unsigned byte;
    for (; 2 * length + 1 < digits && sscanf(text + 2 * length, "%2x", &byte) == 1; length++)
        bytes[length] = (uint8_t)byte;
    if (2 * length != digits)
        malformed();
    return length;
}

/* A buffer as it is lent, with known bytes around it. */
typedef struct { uint8_t bytes[BYTES]; size_t length; buffer lent; } lent_bytes;

static uint8_t *lend(lent_bytes *b, size_t field)
{
    b->length = from_hex(field, b->bytes);
    return guarded(&b->lent, b->bytes, b->length);
}

static int holds(const lent_bytes *b, const uint8_t *bytes)
{
    static buffer whole;
    guarded(&whole, bytes, b->length);
    return same(&b->lent, &whole, b->length);
}

/* It is as the field says: `=` is as it was lent. */
static int holds_field(const lent_bytes *b, size_t field)
{
    static uint8_t after[BYTES];
    if (strcmp(fields[field], "=") == 0)
        return holds(b, b->bytes);
    return from_hex(field, after) == b->length && holds(b, after);
}

/* ---- the calls: their fields as README.md says */
static lent_bytes in, out;

static int new_line(unsigned side)
{
    uint8_t *buffer = lend(&out, 2), got = sides[side].new(setting(1), buffer, out.length);
    return got == number(3) && holds_field(&out, 4);
}

static int entries_line(unsigned side)
{
    const uint8_t *record = lend(&in, 2);
    silberlaus_entries got = sides[side].entries(setting(1), record, in.length);
    return got.number == number(3) && got.entries == number(4) && holds(&in, in.bytes);
}

static int entry_line(unsigned side)
{
    const uint8_t *record = lend(&in, 2);
    silberlaus_entry got = sides[side].entry(setting(1), record, in.length, number(3));
    return got.number == number(4) && got.start == number(5) && got.length == number(6) && got.request == number(7)
           && got.count == number(8) && got.bits == number(9) && holds(&in, in.bytes);
}

static int add_line(unsigned side)
{
    uint8_t *buffer = lend(&out, 1);
    const uint8_t *added = lend(&in, 3);
    silberlaus_added got = sides[side].add(buffer, out.length, number(2), added, in.length, setting(4), setting(5), setting(6),
                                           setting(7));
    return got.number == number(8) && got.used == number(9) && holds_field(&out, 10) && holds(&in, in.bytes);
}

static int move_line(move_call *to_form)
{
    const uint8_t *record = lend(&in, 1);
    uint8_t *buffer = lend(&out, 2);
    silberlaus_added got = to_form(record, in.length, buffer, out.length);
    return got.number == number(3) && got.used == number(4) && holds_field(&out, 5) && holds(&in, in.bytes);
}

static int to_form_2_line(unsigned side) { return move_line(sides[side].to_form_2); }
static int to_form_1_line(unsigned side) { return move_line(sides[side].to_form_1); }

/* ---- the list */
static const struct { const char *name; size_t fields; situation kind; int (*right)(unsigned side); } calls[] = {
    {"new", 5, LINE_NEW, new_line}, {"entries", 5, LINE_ENTRIES, entries_line}, {"entry", 10, LINE_ENTRY, entry_line},
    {"add", 11, LINE_ADD, add_line}, {"to2", 6, LINE_TO_FORM_2, to_form_2_line}, {"to1", 6, LINE_TO_FORM_1, to_form_1_line},
    {"list", 3, LINE_LIST, NULL},
};

static size_t split(char *line)
{
    size_t count = 0;
    for (char *field = strtok(line, " \n"); field != NULL; field = strtok(NULL, " \n")) {
        if (count == MOST_FIELDS)
            malformed();
        fields[count++] = field;
    }
    return count;
}

static void run_line(char *line)
{
    size_t count = split(line), c = 0;
    while (c < COUNT(calls) && (count == 0 || strcmp(fields[0], calls[c].name) != 0))
        c++;
    if (c == COUNT(calls) || count != calls[c].fields)
        malformed();
    met(calls[c].kind);
    for (unsigned side = 0; calls[c].right != NULL && side < SIDES; side++)
        if (case_shown(calls[c].right(side)))
            said(printf("  WRONG: line %zu of form2.txt, by the %s\n", line_number, side == 0 ? "archive" : "reference"));
}

void line_groups(const char *folder)
{
    char path[LONGEST_LINE], line[LONGEST_LINE];
    snprintf(path, sizeof path, "%s/form2.txt", folder);
    FILE *list_of_cases = fopen(path, "r");
    if (list_of_cases == NULL) {
        perror(path);
        exit(2);
    }
    for (line_number = 1; fgets(line, sizeof line, list_of_cases) != NULL; line_number++) {
        if (strchr(line, '\n') == NULL)
            malformed();
        run_line(line);
    }
    if (ferror(list_of_cases)) {
        perror(path);
        exit(2);
    }
    fclose(list_of_cases);
    group_ends("form2.txt: every line but the listing's, by the archive and by the reference");
}
