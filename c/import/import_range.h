/* What is wrong with the values of a refused field. */
#ifndef IMPORT_RANGE_H
#define IMPORT_RANGE_H

#include "import_named.h"

/* Why a value is not what it may be: by itself; it is above the value that bounds it; its unit would draw more than its
** S; it is no larger than that of the point before it; it is past the last point of its curve, and not 0.
*/
enum wrong { GOOD, BY_ITSELF, BY_BOUND, BY_DRAW, BY_ORDER, PAST_LAST };

/* Why the value of that number is wrong, of a field whose values these are; those are good that are not there. */
enum wrong wrong_of(const struct field *field, const struct part *parts, unsigned which);

/* Say what a value may be, with its unit; and in a few words, for a column. */
void say_range(struct text *text, const struct value *value);
void say_short_range(struct text *text, const struct value *value);

/* Say which value of a field is out of its range, what it is and what it may be; where others are too, how many. Gives
** 0, and says nothing, where no value is.
*/
int say_out_of_range(struct text *text, const struct field *field);

/* Say each double of a field that cannot be used, why, and what it may be. Gives the same. */
int say_not_usable(struct text *text, const struct field *field);

#endif
