/* The reference behind the C name silberlaus_write_frame, for trying out the tests without the archive's writer. It is then
   compared with itself, so what tests it is what is known beforehand: the list, the frames of tests/frame/make.c, the refusals
   and the reading back. The script `faults` puts a mistake into the reference first (WRITER names the file): check.c must pass
   the reference as it is and refuse it with each mistake. */
#define reference_trail stand_in_trail
#define reference_write_frame silberlaus_write_frame

#ifndef WRITER
#define WRITER "reference.c"
#endif
#include WRITER
