/* Holds the reference (reference.c), to which check.c compares the archive, to what is known beforehand (held.h). It needs
   no archive.

     check_reference [SEED [FOLDER]]    FOLDER: where the two lists stand (tests/frame)

   It says and ends as check.c does, but for the second table. */
#include "../common/cases.h"
#include "held.h"
#include "made.h"

int main(int argc, char **argv)
{
    cases_start(argc > 1 ? argv[1] : NULL);
    held_to_known(reference_line_count, reference_read_frame, argc > 2 ? argv[2] : "tests/frame");
    if (!made_enough())
        return 1;
    cases_end();
    return 0;
}
