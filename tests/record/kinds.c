/* See kinds.h. */
#include "kinds.h"

#include <stddef.h>
#include <stdio.h>
#include <stdlib.h>

#include "../common/cases.h"
#include "../common/said.h"

enum { FORMS = 3, NUMBERS = 8 };

static unsigned long answers[CALLS][FORMS][NUMBERS], situations[SITUATIONS];

/* Every answer that there is: the call, the form (0 is any but 1 and 2), the number. */
static const struct { call c; unsigned form, number; const char *name; } answer_kinds[] = {
    {NEW, 0, 1, "new: no form"}, {NEW, 1, 0, "new: form 1"}, {NEW, 1, 6, "new: form 1, no room"},
    {NEW, 2, 0, "new: form 2"}, {NEW, 2, 6, "new: form 2, no room"},
    {ENTRIES, 0, 1, "entries: no form"}, {ENTRIES, 1, 0, "entries: form 1"}, {ENTRIES, 1, 7, "entries: no record of form 1"},
    {ENTRIES, 2, 0, "entries: form 2"}, {ENTRIES, 2, 7, "entries: no record of form 2"},
    {ENTRY, 0, 1, "entry: no form"}, {ENTRY, 1, 0, "entry: form 1"}, {ENTRY, 1, 7, "entry: no record of form 1"},
    {ENTRY, 1, 1, "entry: form 1, no place"}, {ENTRY, 2, 0, "entry: form 2"}, {ENTRY, 2, 7, "entry: no record of form 2"},
    {ENTRY, 2, 1, "entry: form 2, no place"},
    {ADD, 2, 0, "add: stored"}, {ADD, 2, 1, "add: a setting out of range"}, {ADD, 2, 7, "add: no record of form 2"},
    {ADD, 2, 6, "add: no room"},
    {TO_FORM_2, 1, 0, "to form 2: moved"}, {TO_FORM_2, 1, 7, "to form 2: no record of form 1"},
    {TO_FORM_2, 1, 6, "to form 2: no room"},
    {TO_FORM_1, 2, 0, "to form 1: moved"}, {TO_FORM_1, 2, 7, "to form 1: no record of form 2"},
    {TO_FORM_1, 2, 6, "to form 1: no room"},
};

static const char *const situation_names[SITUATIONS] = {
    [ADDED_UNKNOWN] = "added: bits unknown",
    [ADDED_LEAST] = "added: as many bits as semi-octets",
    [ADDED_MOST] = "added: four bits a semi-octet",
    [ADDED_BETWEEN] = "added: bits between the two",
    [BITS_BELOW] = "bits one below the semi-octets",
    [BITS_ABOVE] = "bits one above four a semi-octet",
    [BITS_649] = "bits 649",
    [BITS_BELOW_UNKNOWN] = "bits 65,534",
    [BITS_WIDE] = "bits in range but for what is above 16 bits",
    [READ_KNOWN] = "read: form 2, bits known",
    [READ_UNKNOWN] = "read: form 2, bits unknown",
    [READ_FORM_1] = "read: form 1, bits unknown",
    [ADD_TO_FORM_1] = "added to a form 1 record",
    [ADD_ABOVE_LARGEST] = "no room to add: 65,536 bytes, in a longer buffer",
    [ADD_ABOVE_CAPACITY] = "no room to add: the buffer one short",
    [MOVE_ABOVE_LARGEST] = "no room to move: 65,537 bytes, into a longer buffer",
    [MOVE_ONE_SHORT] = "no room to move: the buffer one short",
    [MOVE_WRONG_FORM] = "moved from the form that it is moved to",
    [TOO_LONG] = "in order but for its 65,537 bytes",
    [FILLED_FORM_1] = "a form 1 record of 65,536 bytes",
    [FILLED_FORM_2] = "a form 2 record of 65,536 bytes",
    [MOVED_EXACTLY] = "moved into a buffer of just its length",
    [MOVED_TO_LARGEST] = "moved to 65,536 bytes",
    [MOVED_FROM_LARGEST] = "moved from 65,536 bytes",
    [MOST_ENTRIES_1] = "2,730 entries of form 1",
    [MOST_ENTRIES_2] = "2,520 entries of form 2",
    [BACK_TO_FORM_1] = "form 1 to 2 to 1: the same bytes",
    [BACK_TO_FORM_2] = "form 2 to 1 to 2: the same bytes, all bits unknown",
    [BACK_WITHOUT_BITS] = "form 2 to 1 to 2: other bytes, some bits known",
    [BACK_EMPTY] = "there and back without entries",
    [DAMAGED_FRAME] = "damaged: a byte of a frame",
    [DAMAGED_REQUEST] = "damaged: a request",
    [DAMAGED_COUNT] = "damaged: a count",
    [DAMAGED_BITS] = "damaged: bits",
    [DAMAGED_LENGTH] = "damaged: a length",
    [DAMAGED_NUMBER] = "damaged: the number of entries",
    [DAMAGED_FORM] = "damaged: the last byte of form 2",
    [DAMAGED_UNSEEN] = "damaged beside the frames, and a record all the same",
    [LINE_NEW] = "form2.txt: new",
    [LINE_ENTRIES] = "form2.txt: entries",
    [LINE_ENTRY] = "form2.txt: entry",
    [LINE_ADD] = "form2.txt: add",
    [LINE_TO_FORM_2] = "form2.txt: to2",
    [LINE_TO_FORM_1] = "form2.txt: to1",
    [LINE_LIST] = "form2.txt: list, run by list.py",
};

void answered(call c, uint32_t form, uint8_t number)
{
    if (number < NUMBERS)
        answers[c][form == 1 || form == 2 ? form : 0][number]++;
}

void met(situation s)
{
    situations[s]++;
}

static size_t kind_is(const char *name, unsigned long count)
{
    said(printf("  %-54s %8lu%s\n", name, count, count == 0 ? " NEVER REACHED" : ""));
    return count == 0;
}

void kinds_end(void)
{
    size_t missing = 0;
    for (size_t k = 0; k < COUNT(answer_kinds); k++)
        missing += kind_is(answer_kinds[k].name, answers[answer_kinds[k].c][answer_kinds[k].form][answer_kinds[k].number]);
    for (size_t s = 0; s < SITUATIONS; s++)
        missing += kind_is(situation_names[s], situations[s]);
    said(printf("%zu kinds of cases, %zu never reached\n", COUNT(answer_kinds) + SITUATIONS, missing));
    all_said();
    if (missing > 0)
        exit(1);
}
