/* What the tests in C share: numbers that look random, cases counted in groups, and buffers to lend with known bytes on
   both sides. */
#ifndef CASES_H
#define CASES_H

#include <stddef.h>
#include <stdint.h>

#define COUNT(a) (sizeof(a) / sizeof(a)[0])

/* The seed in digits, or NULL for the usual one; it is said first. */
void cases_start(const char *seed);

/* Numbers that look random, the same for one seed. */
uint32_t next(void);
uint32_t below(uint32_t n);
void random_bytes(uint8_t *bytes, size_t length);

/* The wrong cases of the group, to which a test may add. */
extern unsigned long wrong;

/* Counts a case. Whether it is to be shown: it is one of the first wrong ones of its group. */
int case_shown(int right);

/* A line says how many cases the group had. The program ends with status 1 where one was wrong or there was none. */
void group_ends(const char *name);
void cases_end(void);

/* A buffer to lend, with known bytes on both sides. */
enum { GUARD = 32, LENT = 1 << 17 };
typedef struct { uint8_t bytes[GUARD + LENT + GUARD]; } buffer;
uint8_t *guarded(buffer *b, const uint8_t *from, size_t length);
int same(const buffer *a, const buffer *b, size_t length);

#endif
