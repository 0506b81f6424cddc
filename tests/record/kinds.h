/* The kinds of cases that the record's test has to reach: what each call can answer, and what is easily left out beside.
   They are counted, and the test fails where one was never reached. */
#ifndef RECORD_KINDS_H
#define RECORD_KINDS_H

#include <stdint.h>

typedef enum { NEW, ENTRIES, ENTRY, ADD, TO_FORM_2, TO_FORM_1, CALLS } call;

/* A call was answered by that number; the form is that which the call was told or reads, and any but 1 and 2 is one kind. */
void answered(call c, uint32_t form, uint8_t number);

typedef enum {
    /* bits: added, and out of range */
    ADDED_UNKNOWN, ADDED_LEAST, ADDED_MOST, ADDED_BETWEEN, BITS_BELOW, BITS_ABOVE, BITS_649, BITS_BELOW_UNKNOWN, BITS_WIDE,
    /* entries read */
    READ_KNOWN, READ_UNKNOWN, READ_FORM_1,
    /* where a record is refused, or has no room */
    ADD_TO_FORM_1, ADD_ABOVE_LARGEST, ADD_ABOVE_CAPACITY, MOVE_ABOVE_LARGEST, MOVE_ONE_SHORT, MOVE_WRONG_FORM, TOO_LONG,
    /* to the last byte */
    FILLED_FORM_1, FILLED_FORM_2, MOVED_EXACTLY, MOVED_TO_LARGEST, MOVED_FROM_LARGEST, MOST_ENTRIES_1, MOST_ENTRIES_2,
    /* there and back */
    BACK_TO_FORM_1, BACK_TO_FORM_2, BACK_WITHOUT_BITS, BACK_EMPTY,
    /* the byte that is damaged */
    DAMAGED_FRAME, DAMAGED_REQUEST, DAMAGED_COUNT, DAMAGED_BITS, DAMAGED_LENGTH, DAMAGED_NUMBER, DAMAGED_FORM,
    DAMAGED_UNSEEN,
    /* the lines of form2.txt, by their call; those of the listing are run by list.py */
    LINE_NEW, LINE_ENTRIES, LINE_ENTRY, LINE_ADD, LINE_TO_FORM_2, LINE_TO_FORM_1, LINE_LIST,
    SITUATIONS
} situation;

void met(situation s);

/* Says how often each kind was reached. The program ends with status 1 where one was not. */
void kinds_end(void);

#endif
