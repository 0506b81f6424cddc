/* The reference behind the C names of include/silberlaus.h, for trying out the tests without the archive. The script
   `faults` puts a mistake into the reference first (READER names the file): check.c must pass the reference as it is and
   refuse it with each mistake. */
#define reference_settings stand_in_settings
#define reference_settings_of stand_in_settings_of
#define reference_line_count silberlaus_line_count
#define reference_read_frame silberlaus_read_frame

#ifndef READER
#define READER "reference.c"
#endif
#include READER
