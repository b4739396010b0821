/* JSON for programs: an object for each file, on a line of its own. */
#ifndef IMPORT_JSON_H
#define IMPORT_JSON_H

#include "import.h"

/* A number without a sign that may be larger than 64 bits hold; JSON has no limit for a whole number. */
typedef unsigned __int128 large;

/* Begin a file's object, with its name, and end it with its line. Between the two come its members, each under a key,
** which is a plain word: texts, whole numbers, nothing (null), lists and objects. What is in a list has no key, NULL.
**
** A name's bytes that are no UTF-8 are each told as U+FFFD, and then there is also file_hex, which has all of its bytes
** in hexadecimal.
*/
void begin_json(const char *name);
void end_json(void);

void json_text(const char *key, const char *text);
void json_number(const char *key, int64_t number);
void json_large(const char *key, large number);
void json_truth(const char *key, int is_so);
void json_null(const char *key);
void json_open_list(const char *key);
void json_close_list(void);
void json_open(const char *key);
void json_close(void);

/* The members that say what came of a file: its status, complete, refused or failed. Of the first two there are the
** number of the refusal, which is 0 for a complete one, and the steps; of a complete one its bytes; of a refused one
** the words of its line, the place, what is wrong and what to do; of one that failed what was told of it.
*/
void json_answer(const struct stick *stick, int outcome);

/* Keep what is told of a file that failed, for its object. */
void keep_failure(const char *what, const char *why);

#endif
