/* What a refusal says to the person who has the stick in hand. */
#ifndef IMPORT_ADVICE_H
#define IMPORT_ADVICE_H

#include "import_named.h"

/* What is wrong, and where; and what to do. It may be a fault of the program. */
struct told {
    struct text what, advice;
    int is_fault;
};

/* import_advice.c */

/* Tell both of a refused stick; and whether it does not begin like one. */
void tell_refusal(struct told *told, const struct stick *stick);
int is_foreign(const struct stick *stick);

/* Begin the advice with the copy, which is what went wrong most often, and go on with what to do if it stays so. */
void copy_or(struct told *told, const char *then);

/* import_foreign.c */

/* Tell both of a file that does not begin like a stick, by its first bytes. */
void tell_foreign(struct told *told, const uint8_t *bytes, size_t len);

#endif
