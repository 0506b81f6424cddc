/* Writing that is tested: the tests in C print through these, so that a full disk or a closed pipe is no passed test. */
#ifndef SAID_H
#define SAID_H

/* The answer of printf or fflush: below 0 the program ends with status 2, and says so on standard error. */
void said(int result);

/* Writes out what is buffered. */
void all_said(void);

#endif
