/* Numbers as texts that people read, and these in columns that fit a screen. */
#ifndef IMPORT_COLUMNS_H
#define IMPORT_COLUMNS_H

#include "import_json.h"

/* A row of texts, the first of which says what it is about; and how wide a screen is. */
enum { COLUMNS = 10, CELL = 64, SCREEN = 100 };

typedef char row[COLUMNS][CELL];

/* What the heading says of a column that has the step of the one before it. */
#define AT_STEP "at_step"

/* A whole number, its thousands parted by commas; the same with a sign. */
void whole_text(char *text, large number);
void signed_text(char *text, int64_t number);

/* Thousandths with all of their three decimals: watts as kW, milliamperes as A. */
void thousandths_text(char *text, int64_t number);

/* Joules as the nearest kWh of three decimals, and seconds as the nearest hours. */
void kwh_text(char *text, large energy);
void hours_text(char *text, uint64_t seconds);

/* Begin rows: the heading's, and below it so many that are numbered from 0. */
void begin_rows(row *rows, const char *const *heading, int columns, unsigned count);

/* Print the first so many cells of rows in columns. */
void print_rows(row *rows, unsigned count, int columns);

/* The same below an empty line, and no wider than a screen: columns that do not fit beside the others come below them,
** beside the first column once more.
*/
void print_blocks(row *rows, unsigned count, int columns);

#endif
