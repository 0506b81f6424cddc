/* Holds the reference (reference.c), to which check.c compares the archive, to what is known beforehand (held.h), and reads its
   frames back with the reference of tests/frame. It needs no archive.

     check_reference [SEED [FOLDER]]    FOLDER: where write_frames.txt stands (tests/writer)

   It says and ends as check.c does. */
#include "../common/cases.h"
#include "held.h"

enum { TURNS = 1000 };

int main(int argc, char **argv)
{
    cases_start(argc > 1 ? argv[1] : NULL);
    if (!held_to_known(reference_write_frame, reference_read_frame, argc > 2 ? argv[2] : "tests/writer", TURNS))
        return 1;
    cases_end();
    return 0;
}
