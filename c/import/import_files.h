/* Commands that take many sticks, one after the other. */
#ifndef IMPORT_FILES_H
#define IMPORT_FILES_H

#include "import.h"

/* What a command does with a stick that is complete, and is kept meanwhile: it gives COMPLETE, or FAILED, which is
** told. Whether it is for programs; and whether it is only for sticks that the library takes whole: a longer one is
** refused.
*/
struct job {
    int (*show)(const struct job *job, const struct stick *stick);
    void *to;
    int is_json, is_of_whole;
};

/* Do that with each file. One that is refused or cannot be read is told, for programs as an object, and stops no other.
** Gives the worst that came of a file.
*/
int each_file(int count, char **names, const struct job *job);

/* Feed a file, unless it is standard input once more, which can be read once; give what came of it, as feed_file does.
*/
int feed_once(struct stick *stick, const struct taker *taker);

/* Say how many of many files are done: in a line that comes after each file's lines and goes before the next ones. */
void files_progress(int done, int all);

/* Whether a file begins like a stick. Only of a plain file the first bytes can be read for that and nothing waits. */
int is_stick_file(const char *name);

#endif
