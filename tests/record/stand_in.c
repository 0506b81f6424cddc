/* The reference behind the C names of include/silberlaus.h, for trying out the tests without the archive. The script
   `faults` puts a mistake into the reference first (RECORD names the file): check.c must pass the reference as it is and
   refuse it with each mistake. */
#define reference_end stand_in_end
#define reference_beside stand_in_beside
#define reference_read stand_in_read
#define reference_write stand_in_write
#define reference_new silberlaus_record_new
#define reference_entries silberlaus_record_entries
#define reference_entry silberlaus_record_entry
#define reference_add silberlaus_record_add
#define reference_to_form_2 silberlaus_record_to_form_2
#define reference_to_form_1 silberlaus_record_to_form_1

#ifndef RECORD
#define RECORD "reference.c"
#endif
#include RECORD
