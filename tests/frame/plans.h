/* Random plans of frames to make (make.h). */
#ifndef PLANS_H
#define PLANS_H

#include "make.h"

/* Every field in its range. */
void plan_frame(const settings *set, plan *p);

/* Puts that cause into the plan, 1 to 5 or 8, where the setting has it; cause 4 at a symbol that may be past the last. */
void plan_cause(const settings *set, unsigned cause, plan *p);

#endif
