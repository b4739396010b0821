/* The fields of a stick by their names, and their values: how these lie, what they are and what they may be. */
#ifndef IMPORT_NAMED_H
#define IMPORT_NAMED_H

#include "import_text.h"
#include "yesbrulka.h"

/* How a value is to be read: a number without a sign, one of four bytes with it, or a double. */
enum kind { PLAIN, SIGNED, DOUBLE };

/* A value of a field: its name and its unit, which may be empty; its first byte, counted behind the field's header, and
** its bytes; the least and the most that it may be, of a double in thousandths. Where it has choices it may be only a
** number that has a name among them, which may be empty. Where it is bound by another value of its field, this is the
** most that it may be.
*/
struct value {
    const char *name, *unit;
    unsigned from, width;
    enum kind kind;
    int64_t least, most;
    const char *const *choices;
    const struct value *bound;
};

/* A field as it stands in a stick, from its tag on, with as many of its bytes as are there; what stands before it; the
** edition and the units that the fleet says, which are 0 where no fleet stands before it; and its step, where it is of
** one.
*/
struct field {
    const uint8_t *bytes;
    size_t there;
    const struct before *before;
    unsigned edition, units;
    uint32_t step;
};

/* A value in a field: its first byte, from the field's tag on, and of the points of a curve or the units of connections
** the one that it is of, which is -1 for any other.
*/
struct part {
    const struct value *value;
    unsigned from;
    int which;
};

/* The most values that a field can have, which are those of connections. */
enum { MOST_PARTS = 2 * YB_MOST_UNITS };

/* The field of a stick that was refused. */
struct field refused_field(const struct stick *stick);

/* Its tag, which is 0 where tag and length are not there; whether there is such a tag; the length that it says, where
** it is there; and the length that it should say.
*/
uint8_t tag_of(const struct field *field);
int is_known(const struct field *field);
unsigned said_by(const struct field *field);
unsigned due_length(const struct field *field);

/* The values of a field, if its length is the one that it should be; gives how many there are. */
unsigned take_parts(struct part *parts, const struct field *field);

/* Whether all bytes of a value are there, and what it then is. */
int is_there(const struct part *part, const struct field *field);
number number_of(const struct part *part, const struct field *field);
double double_of(const struct part *part, const struct field *field);

/* Values by their numbers: those of a unit that others go by; those of an inverter; and of a curve its number of
** points, behind which x and y of each come in turn.
*/
enum { UNIT_KVA = 4, UNIT_IDLE_LOSS = 5, UNIT_EFFICIENCY = 8 };
enum { ARRAY_POWER, INVERTER_KVA, CUT_IN, CUT_OUT, ARRAY_LIMIT, INVERTER_REQUEST, INVERTER_PRIORITY };
enum { CURVE_POINTS, FIRST_X, FIRST_Y };

/* Say what a field is, in any place of a stick: "unit 2, the 3rd unit"; and the same with the step of a reading, a
** weather or a voltage: "the weather of step 0, the 1st row". Both give whether a comma has to follow before a sentence
** goes on.
*/
int say_field(struct text *text, const struct field *field);
int say_field_of_step(struct text *text, const struct field *field);

/* Say whose value it is: "of unit 2, the 3rd unit, ", "of the fleet ", "in step 611, the 612th row, ". */
void say_owner(struct text *text, const struct field *field, const struct part *part);

/* The curve that stands, or should stand, behind what stands before; and its name, which gives the same as the above.
*/
enum curve { NO_CURVE, TEMPERATURE, EFFICIENCY, VOLT_VAR };
enum curve curve_behind(const struct before *before);
int say_curve(struct text *text, const struct before *before);

/* Say a double as people read it: "no number", "infinite", or with three decimals. */
void say_double(struct text *text, double of);

/* Say a value that is there, without its unit: a number, with the name of what was chosen. */
void say_value(struct text *text, const struct part *part, const struct field *field);

#endif
