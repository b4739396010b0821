/* Standard output in the place of a file. */
#ifndef IMPORT_OUTPUT_H
#define IMPORT_OUTPUT_H

#include "import.h"

/* Whether a name is standard output, where a command writes a file. */
int is_standard_output(const char *name);

/* Keep standard output for the bytes of a file: from then on all lines go to standard error. Then write such bytes; and
** behind the last of them close it, so that whoever it leads to has them all. Each gives COMPLETE, or FAILED, which is
** told.
*/
int begin_output(const char *word);
int write_output(const uint8_t *bytes, size_t len);
int end_output(void);

#endif
