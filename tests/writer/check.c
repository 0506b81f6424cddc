/* Holds the compiled writer of frames (include/silberlaus.h) to what is known beforehand (held.h), and compares it with the
   reference (reference.c): number, residual bits sent, the frame, and the memory in and around every buffer that is lent. Each
   accepted frame is read back by the compiled reader.

     check [SEED [FOLDER]]    FOLDER: where write_frames.txt stands (tests/writer); ../frame from there has the reader's lists

   A line for each group says how many cases it had, and tables at the end how often each kind occurred. It ends with status 1 at
   the end of the first group with a wrong answer, or where a kind did not occur; standard error says what is wrong, with the case
   as a line of write_frames.txt. */
#include "../common/cases.h"
#include "held.h"

enum { TURNS = 4000 };

int main(int argc, char **argv)
{
    cases_start(argc > 1 ? argv[1] : NULL);
    if (!held_to_known(silberlaus_write_frame, silberlaus_read_frame, argc > 2 ? argv[2] : "tests/writer", TURNS))
        return 1;
    cases_end();
    return 0;
}
