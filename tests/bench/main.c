/* Times the archive (include/silberlaus.h) beside C that is written from the papers alone, in one run: slots, frames,
   records. What it prints is Markdown, for README.md.

     bench [FOLDER]    FOLDER: where bench_frames.txt stands (tests/frame) */
#include <stdio.h>
#include <time.h>

#include "../common/said.h"
#include "frames.h"
#include "parts.h"

int main(int argc, char **argv)
{
    char date[32];
    time_t now = time(NULL);
    struct tm *today = gmtime(&now);
    if (today == NULL || strftime(date, sizeof date, "%Y-%m-%d", today) == 0)
        fails("there is no date");
    said(printf("Measured on %s: ns a call, each the best of %d passes, the archive and the C in turns; ratio: the\n"
                "archive's time over that of the C, which is written from the papers alone and built by gcc %s with -O2.\n"
                "Both get the same inputs, and what they leave is compared after every turn. No buffer is cleared between\n"
                "calls.\n", date, RUNS, __VERSION__));
    bench_slots();
    bench_batches();
    frames_prepare(argc > 1 ? argv[1] : "tests/frame");
    bench_reading();
    bench_writing();
    bench_records();
    print_slower();
    all_said();
    return 0;
}
