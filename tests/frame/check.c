/* Holds the compiled frame reader (include/silberlaus.h) to what is known beforehand (held.h), and compares it with the
   reference (reference.c) on random and damaged frames: every field, the spectrum, the residual bits, and the memory in and
   around every buffer that is lent.

     check [SEED [FOLDER]]    FOLDER: where the two lists stand (tests/frame)

   A line for each group says how many cases it had, and two tables at the end how often each cause was made, the answer
   known beforehand, and how often it occurred in all. It ends with status 1 at the end of the first group with a wrong
   answer, or where a cause that can occur did not; standard error says what is wrong. */
#include "../common/cases.h"
#include "held.h"
#include "made.h"
#include "tries.h"

enum { TURNS = 8, TURNS_LISTED = 150, TURNS_NEAR = 500 };

int main(int argc, char **argv)
{
    cases_start(argc > 1 ? argv[1] : NULL);
    held_to_known(silberlaus_line_count, silberlaus_read_frame, argc > 2 ? argv[2] : "tests/frame");
    tries_listed(TURNS_LISTED);
    tries_random(TURNS);
    tries_near_causes(TURNS_NEAR);
    if (!made_enough() || !judge_causes())
        return 1;
    cases_end();
    return 0;
}
