/* Texts that are put together piece by piece, for the lines that people read and for programs. */
#ifndef IMPORT_TEXT_H
#define IMPORT_TEXT_H

#include "import.h"

/* A number of a stick: up to 64 bits, with a sign or without one. */
typedef __int128 number;

/* A text, which is empty where all of it is 0. It holds more than anything that is said here; what is beyond that is
** left out.
*/
enum { TEXT = 1500 };
struct text {
    char bytes[TEXT];
    size_t len;
};

/* Add what a format gives; a number, its thousands parted by commas; thousandths, with all of their three decimals. */
void say(struct text *text, const char *format, ...) __attribute__((format(printf, 2, 3)));
void say_number(struct text *text, number of);
void say_thousandths(struct text *text, int64_t of);

/* Add so many of something, "1 unit" or "3 units"; which of them it is, as files and as people count, "unit 2, the 3rd
** unit"; and the same of a step, "step 611, the 612th row".
*/
void say_many(struct text *text, uint64_t count, const char *what);
void say_which(struct text *text, const char *what, unsigned which);
void say_step(struct text *text, uint32_t step);

/* Print a text below a file's line, some blanks in, in lines of no more columns than that. */
enum { COLUMNS_OF_LINE = 100 };
void print_wrapped(const struct text *text);

#endif
