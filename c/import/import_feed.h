/* What the feed and the fields that go by share. */
#ifndef IMPORT_FEED_H
#define IMPORT_FEED_H

#include "import.h"

/* The bytes of a file that are read, and fed, at a time; and those of the longest field that a length can say. */
enum { CHUNK = 65536, LONGEST = HEADER + 65535 };

/* Begin with a stick's first byte. */
void begin_fields(struct stick *stick);

/* Read a chunk behind what the window has, and give how many bytes that were. */
size_t read_chunk(struct stick *stick, FILE *in);

/* Go past the fields that the library has taken; or past those before the refused one, which is read to its end where
** it is shown. Both give COMPLETE, or FAILED where the library's answer is not about the file, which is told.
*/
int pass_fields(struct stick *stick);
int find_refused(struct stick *stick, FILE *in);

#endif
