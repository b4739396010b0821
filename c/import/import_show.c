/* import show, of a refused stick: the refused field, its values by their names beside its bytes. */
#include <string.h>

#include "import_advice.h"
#include "import_columns.h"
#include "import_range.h"

/* A line for the tag, the length and each value, below a heading: whether it is wrong, its name and its unit, what it
** is, what it may be, and its bytes.
*/
enum { MARK, NAME, HERE, MAY_BE, BYTES, SHOWN_COLUMNS };
enum { MOST_ROWS = 1 + 2 + MOST_PARTS };

/* So many bytes are shown of what follows the end, and of a file that is no stick. */
enum { FIRST_BYTES = 32 };

static void put(char *cell, const struct text *text)
{
    snprintf(cell, CELL, "%.*s", CELL - 1, text->bytes);
}

static void put_bytes(char *cell, const uint8_t *bytes, size_t count)
{
    struct text text = {.len = 0};
    for (size_t i = 0; i < count; i++)
        say(&text, "%s%02X", i == 0 ? "" : " ", bytes[i]);
    put(cell, &text);
}

/* What the tag says that the field is, in a word. */
static const char *tag_word(const struct field *field)
{
    static const char *const words[] = {[FLEET_TAG] = "fleet", [UNIT_TAG] = "unit", [SETTINGS_TAG] = "settings",
        [POWER_TAG] = "power reading", [MISSING_TAG] = "missing reading", [INVERTER_TAG] = "inverter",
        [CURVE_TAG] = "curve", [WEATHER_TAG] = "weather", [CURRENT_TAG] = "current reading",
        [CONNECTIONS_TAG] = "connections", [FUNCTION_TAG] = "function", [VOLTAGE_TAG] = "voltage", [END_TAG] = "end"};
    return is_known(field) ? words[tag_of(field)] : "unknown";
}

static void put_tag(char (*cells)[CELL], const struct field *field)
{
    strcpy(cells[MARK], is_known(field) ? "" : "wrong");
    strcpy(cells[NAME], "tag");
    strcpy(cells[HERE], tag_word(field));
    strcpy(cells[MAY_BE], "");
    put_bytes(cells[BYTES], field->bytes, 1);
}

static void put_length(char (*cells)[CELL], const struct field *field)
{
    struct text here = {.len = 0}, due = {.len = 0};
    say_number(&here, said_by(field));
    if (is_known(field))
        say_number(&due, due_length(field));
    strcpy(cells[MARK], is_known(field) && said_by(field) != due_length(field) ? "wrong" : "");
    strcpy(cells[NAME], "length");
    put(cells[HERE], &here);
    put(cells[MAY_BE], &due);
    put_bytes(cells[BYTES], field->bytes + 1, 2);
}

/* The name of a value, with whose it is among the points or units, and its unit where that is a word. */
static void say_part(struct text *text, const struct part *part, const struct field *field)
{
    const char *unit = part->value->unit;
    say(text, "%s", part->value->name);
    if (part->which >= 0)
        say(text, " of %s %d", tag_of(field) == CURVE_TAG ? "point" : "unit", part->which);
    if (*unit != '\0' && strchr(unit, ' ') == NULL)
        say(text, " %s", unit);
}

/* Numbers that are larger than any range are not parted by commas, so that the line is not too long. */
static void say_here(struct text *text, const struct part *part, const struct field *field)
{
    if (part->value->kind != DOUBLE && number_of(part, field) > INT64_C(99999999999999))
        say(text, "%llu", (unsigned long long)number_of(part, field));
    else
        say_value(text, part, field);
}

/* The end counts the steps before it, and so may be nothing else. */
static void say_may_be(struct text *text, const struct part *part, const struct field *field)
{
    if (tag_of(field) == END_TAG)
        say_number(text, field->step);
    else
        say_short_range(text, part->value);
}

static int is_wrong(const struct field *field, const struct part *parts, unsigned which)
{
    if (tag_of(field) == END_TAG)
        return is_there(parts, field) && number_of(parts, field) != field->step;
    return wrong_of(field, parts, which) != GOOD;
}

static void put_part(char (*cells)[CELL], const struct field *field, const struct part *parts, unsigned which)
{
    const struct part *part = &parts[which];
    size_t there = field->there <= part->from ? 0 : field->there - part->from;
    struct text name = {.len = 0}, here = {.len = 0}, may_be = {.len = 0};
    say_part(&name, part, field);
    if (is_there(part, field))
        say_here(&here, part, field);
    else
        say(&here, "%s", there == 0 ? "missing" : "cut short");
    say_may_be(&may_be, part, field);
    strcpy(cells[MARK], is_wrong(field, parts, which) ? "wrong" : "");
    put(cells[NAME], &name);
    put(cells[HERE], &here);
    put(cells[MAY_BE], &may_be);
    put_bytes(cells[BYTES], field->bytes + part->from, there < part->value->width ? there : part->value->width);
    if (there == 0)
        strcpy(cells[BYTES], "-");
}

/* Past the last point of a curve all is 0, and goes without saying. */
static int goes_without_saying(const struct field *field, const struct part *parts, unsigned which)
{
    return tag_of(field) == CURVE_TAG && parts[which].which >= 0 && is_there(&parts[which], field) &&
        wrong_of(field, parts, CURVE_POINTS) == GOOD &&
        parts[which].which >= number_of(&parts[CURVE_POINTS], field) && number_of(&parts[which], field) == 0;
}

/* What the values are in whose units have no room beside their names: "In parts in 10,000: cut-in, cut-out, limit." */
static void print_units_of(const struct part *parts, unsigned count)
{
    struct text text = {.len = 0};
    for (unsigned i = 0; i < count && parts[i].which <= 0; i++) {
        const char *unit = parts[i].value->unit;
        int is_said = strchr(unit, ' ') == NULL;
        for (unsigned k = 0; k < i; k++)
            is_said |= parts[k].value->unit == unit;
        if (is_said)
            continue;
        say(&text, "%sIn %s: %s", text.len == 0 ? "" : " ", unit, parts[i].value->name);
        for (unsigned k = i + 1; k < count && parts[k].which <= 0; k++)
            if (parts[k].value->unit == unit)
                say(&text, ", %s", parts[k].value->name);
        say(&text, ".");
    }
    if (text.len != 0)
        print_wrapped(&text);
}

static void print_field_table(const struct field *field)
{
    static const char *const heading[SHOWN_COLUMNS] = {"", "value", "here", "may be", "bytes"};
    static row rows[MOST_ROWS];
    struct part parts[MOST_PARTS];
    unsigned count = take_parts(parts, field), used = 0, left_out = 0;
    begin_rows(rows, heading, SHOWN_COLUMNS, 0);
    put_tag(rows[++used], field);
    put_length(rows[++used], field);
    for (unsigned i = 0; i < count; i++)
        if (goes_without_saying(field, parts, i))
            left_out++;
        else
            put_part(rows[++used], field, parts, i);
    print_rows(rows, used + 1, SHOWN_COLUMNS);
    if (left_out != 0) {
        printf("    Past the last point ");
        print_many(left_out, "value", " is 0, as it should be.\n", " are 0, as they should be.\n");
    }
    print_units_of(parts, count);
}

/* Which field it is, where it begins, and how many of its bytes are there. */
static void print_field_line(const struct stick *stick, const struct field *field)
{
    size_t len = HEADER + said_by(field);
    struct text text = {.len = 0};
    say(&text, "At byte ");
    say_number(&text, stick->place);
    say(&text, ": ");
    if (is_known(field))
        say_field_of_step(&text, field);
    else
        say(&text, "an unknown field");
    say(&text, ", ");
    if (field->there < len) {
        say_number(&text, field->there);
        say(&text, " of its ");
    }
    say_number(&text, len);
    say(&text, " bytes:");
    print_wrapped(&text);
}

/* The value bytes of a field that has no names for them: its tag or its length is wrong. */
static void print_value_bytes(const struct stick *stick, const struct field *field)
{
    uint64_t place = stick->place - stick->window_from;
    uint64_t start = yb_value_start(stick->window, stick->window_len, place);
    uint64_t count = yb_value_len(stick->window, stick->window_len, place);
    if ((is_known(field) && said_by(field) == due_length(field)) || count == 0)
        return;
    printf("    The ");
    print_many(count, "value byte", "", "");
    if (count == said_by(field)) {
        printf(" that its length says:\n");
    } else {
        printf(" there, of ");
        print_commas(said_by(field));
        printf(":\n");
    }
    print_bytes(stick->window + start, count, stick->window_from + start);
}

/* What there is where no field is: nothing, what follows the end, another file, or less than a tag and a length. */
static void print_no_field(const struct stick *stick, const struct field *field)
{
    size_t count = field->there < FIRST_BYTES ? field->there : FIRST_BYTES;
    if (count == 0)
        printf("    There is no field to show: the file ends before it.\n");
    else if (stick->number == YB_AFTER_END)
        printf("    The first bytes behind the end:\n");
    else if (is_foreign(stick))
        printf("    The first bytes of the file:\n");
    else
        printf("    The bytes that are there of its tag and length:\n");
    print_bytes(field->bytes, count, stick->place);
}

void print_refused_field(const struct stick *stick)
{
    struct field field = refused_field(stick);
    if (field.there < HEADER || stick->number == YB_AFTER_END || is_foreign(stick)) {
        print_no_field(stick, &field);
        return;
    }
    print_field_line(stick, &field);
    print_field_table(&field);
    print_value_bytes(stick, &field);
}
