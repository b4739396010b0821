/* What is wrong with the values of a refused field: each is held against what it may be, by itself and beside the other
** values of its field. Whether a double can be used is asked of the library, which converts all of them by one rule.
*/
#include <string.h>

#include "import_range.h"

/* Whether a double becomes a whole number of thousandths within the value's range. */
static int is_usable(const struct value *value, double of)
{
    int32_t thousandths;
    return yb_watts(of, &thousandths) == 0 && thousandths >= value->least && thousandths <= value->most;
}

static int is_in_range(const struct part *part, const struct field *field)
{
    const struct value *value = part->value;
    if (value->kind == DOUBLE)
        return is_usable(value, double_of(part, field));
    number of = number_of(part, field);
    if (value->bound == NULL && (of < value->least || of > value->most))
        return 0;
    return value->choices == NULL || value->choices[of] != NULL;
}

/* The draw of an idling unit, in W: its idle loss by its efficiency, rounded up. */
static number idle_draw(const struct field *field, const struct part *parts)
{
    number loss = number_of(&parts[UNIT_IDLE_LOSS], field), efficiency = number_of(&parts[UNIT_EFFICIENCY], field);
    return (loss * YB_MOST_EFFICIENCY + efficiency - 1) / efficiency;
}

/* The idle draw is held against S, but for the older model, where the inverter does not see it; and only where all
** three that it goes by are there, and good by themselves.
*/
static int draws_too_much(const struct field *field, const struct part *parts)
{
    if (field->edition == OLDER_MODEL_EDITION || !is_there(&parts[UNIT_EFFICIENCY], field) ||
        !is_in_range(&parts[UNIT_IDLE_LOSS], field) || !is_in_range(&parts[UNIT_EFFICIENCY], field) ||
        !is_in_range(&parts[UNIT_KVA], field))
        return 0;
    return idle_draw(field, parts) > number_of(&parts[UNIT_KVA], field);
}

/* The part of the value that bounds another, which stands before it. */
static const struct part *bound_of(const struct part *parts, unsigned which)
{
    unsigned i = 0;
    while (i < which && parts[i].value != parts[which].value->bound)
        i++;
    return &parts[i];
}

static enum wrong wrong_beside(const struct field *field, const struct part *parts, unsigned which)
{
    const struct part *part = &parts[which], *bound = bound_of(parts, which);
    if (part->value->bound != NULL && is_in_range(bound, field) && number_of(part, field) > number_of(bound, field))
        return BY_BOUND;
    if (tag_of(field) == UNIT_TAG && which == UNIT_IDLE_LOSS && draws_too_much(field, parts))
        return BY_DRAW;
    return GOOD;
}

/* The values of a curve's points go two by two, x and y. */
static enum wrong wrong_point(const struct field *field, const struct part *parts, unsigned which)
{
    const struct part *part = &parts[which];
    int is_x = which % 2 == 1;
    if (!is_in_range(&parts[CURVE_POINTS], field))
        return GOOD;
    if (part->which >= number_of(&parts[CURVE_POINTS], field))
        return number_of(part, field) == 0 ? GOOD : PAST_LAST;
    if (!is_in_range(part, field))
        return BY_ITSELF;
    if (!is_x || part->which == 0 || !is_in_range(part - 2, field))
        return GOOD;
    return number_of(part, field) > number_of(part - 2, field) ? GOOD : BY_ORDER;
}

enum wrong wrong_of(const struct field *field, const struct part *parts, unsigned which)
{
    if (!is_there(&parts[which], field))
        return GOOD;
    if (tag_of(field) == CURVE_TAG && which != CURVE_POINTS)
        return wrong_point(field, parts, which);
    return is_in_range(&parts[which], field) ? wrong_beside(field, parts, which) : BY_ITSELF;
}

static void say_unit(struct text *text, const struct value *value)
{
    say(text, "%s%s", value->unit[0] == '\0' ? "" : " ", value->unit);
}

/* The choices, with their names: "1 (PeakShave), 2 (Support) or 3 (PeakShaveLow)". */
static void say_choices(struct text *text, const struct value *value)
{
    int64_t last = value->most, before_last = last - 1;
    while (before_last >= value->least && value->choices[before_last] == NULL)
        before_last--;
    for (int64_t of = value->least; of <= last; of++) {
        const char *name = value->choices[of];
        if (name == NULL)
            continue;
        say(text, "%d", (int)of);
        if (*name != '\0')
            say(text, " (%s)", name);
        say(text, of == last ? "" : of == before_last ? " or " : ", ");
    }
}

/* The ends of a range; those of a double are whole units. */
static int64_t shown_end(const struct value *value, int64_t end)
{
    return value->kind == DOUBLE ? end / 1000 : end;
}

static void say_ends(struct text *text, const struct value *value)
{
    say_number(text, shown_end(value, value->least));
    say(text, " to ");
    say_number(text, shown_end(value, value->most));
}

/* A unit of several words is said with the value alone; but a double that is no number has none beside it. */
void say_range(struct text *text, const struct value *value)
{
    if (value->choices != NULL) {
        say_choices(text, value);
        return;
    }
    say_ends(text, value);
    if (value->kind == DOUBLE || strchr(value->unit, ' ') == NULL)
        say_unit(text, value);
}

void say_short_range(struct text *text, const struct value *value)
{
    int is_gapped = 0;
    for (int64_t of = value->least; value->choices != NULL && of <= value->most; of++)
        is_gapped |= value->choices[of] == NULL;
    if (value->bound != NULL) {
        say(text, "0 to the %s", value->bound->name);
    } else if (is_gapped) {
        say_choices(text, value);
    } else if (value->least < 0 && value->least == -value->most) {
        say_number(text, shown_end(value, value->most));
        say(text, " either way");
    } else {
        say_ends(text, value);
    }
}

/* One of a unit that is a word is said as such: "1 part in 10,000". */
static void say_with_unit(struct text *text, const struct part *part, const struct field *field)
{
    const char *unit = part->value->unit;
    int word = (int)strcspn(unit, " ");
    number of = number_of(part, field);
    say_value(text, part, field);
    if ((of == 1 || of == -1) && word > 2 && unit[word - 1] == 's')
        say(text, " %.*s%s", word - 1, unit, unit + word);
    else
        say_unit(text, part->value);
}

static void say_draw(struct text *text, const struct field *field, const struct part *parts)
{
    say_owner(text, field, &parts[UNIT_IDLE_LOSS]);
    say(text, "is ");
    say_number(text, idle_draw(field, parts));
    say(text, " W, which an idle loss of ");
    say_with_unit(text, &parts[UNIT_IDLE_LOSS], field);
    say(text, " makes at an inverter efficiency of ");
    say_with_unit(text, &parts[UNIT_EFFICIENCY], field);
    say(text, "; it may be 0 to its kVA rating S, which is ");
    say_with_unit(text, &parts[UNIT_KVA], field);
}

/* What a value may be, and where that goes by another value, what this is. */
static void say_allowed(struct text *text, const struct field *field, const struct part *parts, unsigned which)
{
    const struct part *part = &parts[which];
    switch (wrong_of(field, parts, which)) {
    case BY_BOUND:
        say(text, "; it may be 0 to its %s, which is ", part->value->bound->name);
        say_with_unit(text, bound_of(parts, which), field);
        break;
    case BY_ORDER:
        say(text, "; it must be above that of the point before it, which is ");
        say_with_unit(text, part - 2, field);
        break;
    case PAST_LAST:
        say(text, "; the curve has ");
        say_many(text, (uint64_t)number_of(&parts[CURVE_POINTS], field), "point");
        say(text, ", and all that is past them is 0");
        break;
    default:
        say(text, "; it may be ");
        say_range(text, part->value);
        break;
    }
}

static void say_wrong(struct text *text, const struct field *field, const struct part *parts, unsigned which)
{
    if (wrong_of(field, parts, which) == BY_DRAW) {
        say(text, "The idle draw ");
        say_draw(text, field, parts);
    } else {
        say(text, "The %s ", parts[which].value->name);
        say_owner(text, field, &parts[which]);
        say(text, "is ");
        say_with_unit(text, &parts[which], field);
        say_allowed(text, field, parts, which);
    }
    say(text, ".");
}

int say_out_of_range(struct text *text, const struct field *field)
{
    struct part parts[MOST_PARTS];
    unsigned count = take_parts(parts, field), more = 0;
    for (unsigned i = 0; i < count; i++)
        if (wrong_of(field, parts, i) != GOOD && more++ == 0)
            say_wrong(text, field, parts, i);
    if (more > 1) {
        say(text, " Besides, ");
        say_number(text, more - 1);
        say(text, " more of its values %s wrong; import show marks %s.", more == 2 ? "is" : "are",
            more == 2 ? "it" : "them");
    }
    return more != 0;
}

/* Why a double cannot be used. */
static void say_unusable(struct text *text, const struct part *part, double of)
{
    say_double(text, of);
    if (of - of != 0)
        return;
    say_unit(text, part->value);
    say(text, of > 0 ? ", too large" : part->value->least == 0 ? ", below 0" : ", too far below 0");
}

int say_not_usable(struct text *text, const struct field *field)
{
    struct part parts[MOST_PARTS];
    unsigned count = take_parts(parts, field), more = 0;
    for (unsigned i = 0; i < count; i++) {
        if (parts[i].value->kind != DOUBLE || wrong_of(field, parts, i) == GOOD)
            continue;
        say(text, "%s %s ", more == 0 ? "The" : " Its", parts[i].value->name);
        if (more++ == 0)
            say_owner(text, field, &parts[i]);
        say(text, "is ");
        say_unusable(text, &parts[i], double_of(&parts[i], field));
        say(text, "; it may be ");
        say_range(text, parts[i].value);
        say(text, ".");
    }
    return more != 0;
}
