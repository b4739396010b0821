/* What check and show say of a complete stick. */
#ifndef IMPORT_LOOK_H
#define IMPORT_LOOK_H

#include "import_figures.h"
#include "import_text.h"

/* import_measured.c */

/* The readings of a complete stick: its season, and the figures of the library for its own target. A stick that is
** longer than the library takes whole has no figures.
*/
struct measured {
    struct season season;
    int64_t figures[YB_FIGURES];
};

/* Ask for them, of a stick that was kept. Gives COMPLETE, or FAILED where the answer is a fault, which is told. */
int ask_measured(struct measured *measured, const struct stick *stick);

/* Print the smallest and the largest measure with their steps, and how many readings are missing; or why not. */
void print_measured(const struct measured *measured);

/* Print the first steps whose readings are missing, of a stick that was kept, if there are any. */
void print_missing(const struct stick *stick);

/* import_contents.c */

/* Print what a complete stick says, all of it but its single steps. Gives COMPLETE, or FAILED where an answer of the
** library is a fault, which is told; then nothing is printed.
*/
int print_contents(const struct stick *stick);

#endif
