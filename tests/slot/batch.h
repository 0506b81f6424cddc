/* The cases of many slots at once (silberlaus_unprotect_each): the archive, its call for one slot slot by slot, and quick.c,
   against reference.c and the lists. A case is a batch and counts once for each of them. */
#ifndef BATCH_H
#define BATCH_H

/* Runs them all, in groups (tests/common/cases.h). `folder`: where the lists of cases stand. */
void batches(const char *folder);

#endif
