/* Frames whose arithmetic code runs along a round number, just below it: its bytes are 0xff there, and wait. A symbol that goes
   past the number makes a carry through all of them. */
#ifndef STEER_H
#define STEER_H

#include "../frame/lend.h"

/* Orders, coefficients and lines of what is given, for a frame of so many bytes at that setting; its other fields stay. */
void steer_symbols(const settings *set, size_t length, answer *given);

#endif
