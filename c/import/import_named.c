/* The table of a stick's fields and their values, from which the words about a refused field and show come. The layout
** is that of the run file, the ranges are the header's.
*/
#include <math.h>
#include <stdlib.h>
#include <string.h>

#include "import_named.h"

static const char *const editions[YB_MOST_EDITION + 1] = {NULL, "", "", ""};
static const char *const modes[] = {[YB_PEAK_SHAVE] = "PeakShave", [YB_SUPPORT] = "Support",
    [YB_PEAK_SHAVE_LOW] = "PeakShaveLow", [YB_I_PEAK_SHAVE] = "I-PeakShave",
    [YB_I_PEAK_SHAVE_LOW] = "I-PeakShaveLow"};
static const char *const phase_choices[] = {[YB_PHASE_SUM] = "the sum of the phases", [YB_PHASE_1] = "phase 1",
    [YB_PHASE_2] = "phase 2", [YB_PHASE_3] = "phase 3", [YB_PHASE_LARGEST] = "the largest phase",
    [YB_PHASE_SMALLEST] = "the smallest phase"};
static const char *const priorities[] = {[YB_WATTS_FIRST] = "watts first", [YB_VARS_FIRST] = "vars first"};
static const char *const bases[] = {[YB_BASE_KVA] = "S", [YB_BASE_LEFT] = "what the watts leave of S"};
static const char *const phases[] = {[YB_ONE_PHASE] = "", [YB_THREE_PHASES] = ""};

static const char parts_in[] = "parts in 10,000", per_unit[] = "ten-thousandths of per unit";

static const struct value fleet[] = {
    {"edition", "", 0, 1, PLAIN, 1, YB_MOST_EDITION, editions, NULL},
    {"number of units", "", 1, 1, PLAIN, 1, YB_MOST_UNITS, NULL, NULL},
    {"step length", "s", 2, 4, PLAIN, 1, YB_MOST_SECONDS, NULL, NULL},
};

/* Only from the edition of limits on a unit has the last two. */
enum { LIMITS = 2 };
static const struct value unit[] = {
    {"rated energy", "J", 0, 8, PLAIN, 1, YB_MOST_RATED, NULL, NULL},
    {"reserve", "J", 8, 8, PLAIN, 0, YB_MOST_RATED, NULL, &unit[0]},
    {"stored energy", "J", 16, 8, PLAIN, 0, YB_MOST_RATED, NULL, &unit[0]},
    {"power rating R", "W", 24, 4, PLAIN, 1, YB_MOST_POWER, NULL, NULL},
    [UNIT_KVA] = {"kVA rating S", "VA", 28, 4, PLAIN, 1, YB_MOST_POWER, NULL, NULL},
    [UNIT_IDLE_LOSS] = {"idle loss", "W", 32, 4, PLAIN, 0, YB_MOST_IDLE_LOSS, NULL, NULL},
    {"var request", "var", 36, 4, SIGNED, -YB_MOST_POWER, YB_MOST_POWER, NULL, NULL},
    {"weight", "", 40, 2, PLAIN, 1, YB_MOST_WEIGHT, NULL, NULL},
    [UNIT_EFFICIENCY] = {"inverter efficiency", parts_in, 42, 2, PLAIN, YB_LEAST_EFFICIENCY, YB_MOST_EFFICIENCY, NULL,
        NULL},
    {"charge efficiency", parts_in, 44, 2, PLAIN, YB_LEAST_EFFICIENCY, YB_MOST_EFFICIENCY, NULL, NULL},
    {"discharge efficiency", parts_in, 46, 2, PLAIN, YB_LEAST_EFFICIENCY, YB_MOST_EFFICIENCY, NULL, NULL},
    {"priority", "", 48, 1, PLAIN, YB_WATTS_FIRST, YB_VARS_FIRST, priorities, NULL},
    {"provide limit", "var", 49, 4, PLAIN, 0, YB_MOST_POWER, NULL, &unit[UNIT_KVA]},
    {"absorb limit", "var", 53, 4, PLAIN, 0, YB_MOST_POWER, NULL, &unit[UNIT_KVA]},
};

static const struct value settings[] = {
    {"mode", "", 0, 1, PLAIN, YB_PEAK_SHAVE, YB_I_PEAK_SHAVE_LOW, modes, NULL},
    {"target", "W", 1, 4, SIGNED, -YB_MOST_POWER, YB_MOST_POWER, NULL, NULL},
    {"band", "W", 5, 4, PLAIN, 0, YB_MOST_BAND, NULL, NULL},
    {"factor", "thousandths", 9, 2, PLAIN, 1, YB_MOST_FACTOR, NULL, NULL},
    {"phase choice", "", 11, 1, PLAIN, YB_PHASE_SUM, YB_PHASE_SMALLEST, phase_choices, NULL},
}, settings_by_current[] = {
    {"mode", "", 0, 1, PLAIN, YB_PEAK_SHAVE, YB_I_PEAK_SHAVE_LOW, modes, NULL},
    {"target", "mA", 1, 4, SIGNED, -YB_MOST_POWER, YB_MOST_POWER, NULL, NULL},
    {"band", "mA", 5, 4, PLAIN, 0, YB_MOST_BAND, NULL, NULL},
    {"factor", "thousandths", 9, 2, PLAIN, 1, YB_MOST_FACTOR, NULL, NULL},
    {"phase choice", "", 11, 1, PLAIN, YB_PHASE_SUM, YB_PHASE_SMALLEST, phase_choices, NULL},
};

static const struct value powers[] = {
    {"power of phase 1", "kW", 0, 8, DOUBLE, -YB_MOST_POWER, YB_MOST_POWER, NULL, NULL},
    {"power of phase 2", "kW", 8, 8, DOUBLE, -YB_MOST_POWER, YB_MOST_POWER, NULL, NULL},
    {"power of phase 3", "kW", 16, 8, DOUBLE, -YB_MOST_POWER, YB_MOST_POWER, NULL, NULL},
}, currents[] = {
    {"current of phase 1", "A", 0, 8, DOUBLE, 0, YB_MOST_POWER, NULL, NULL},
    {"current of phase 2", "A", 8, 8, DOUBLE, 0, YB_MOST_POWER, NULL, NULL},
    {"current of phase 3", "A", 16, 8, DOUBLE, 0, YB_MOST_POWER, NULL, NULL},
}, weather[] = {
    {"irradiance", "kW/m2", 0, 8, DOUBLE, 0, YB_MOST_THOUSANDTHS, NULL, NULL},
    {"temperature", "degrees C", 8, 8, DOUBLE, -YB_MOST_THOUSANDTHS, YB_MOST_THOUSANDTHS, NULL, NULL},
}, voltage[] = {
    {"voltage", per_unit, 0, 2, PLAIN, 0, YB_MOST_VOLTAGE, NULL, NULL},
};

static const struct value inverter[] = {
    [ARRAY_POWER] = {"array power", "W", 0, 4, PLAIN, 1, YB_MOST_POWER, NULL, NULL},
    [INVERTER_KVA] = {"kVA rating S", "VA", 4, 4, PLAIN, 1, YB_MOST_POWER, NULL, NULL},
    [CUT_IN] = {"cut-in", parts_in, 8, 2, PLAIN, 0, YB_MOST_PARTS, NULL, NULL},
    [CUT_OUT] = {"cut-out", parts_in, 10, 2, PLAIN, 0, YB_MOST_PARTS, NULL, &inverter[CUT_IN]},
    [ARRAY_LIMIT] = {"limit", parts_in, 12, 2, PLAIN, 0, YB_MOST_PARTS, NULL, NULL},
    [INVERTER_REQUEST] = {"var request", "var", 14, 4, SIGNED, -YB_MOST_POWER, YB_MOST_POWER, NULL, NULL},
    [INVERTER_PRIORITY] = {"priority", "", 18, 1, PLAIN, YB_WATTS_FIRST, YB_VARS_FIRST, priorities, NULL},
};

/* The points of a curve, by its kind; those of one that stands in no place of a curve may be anything. */
static const struct value curve[] = {
    [CURVE_POINTS] = {"number of points", "", 0, 1, PLAIN, YB_LEAST_POINTS, YB_MOST_POINTS, NULL, NULL},
}, temperature_points[] = {
    {"x", "thousandths of a degree C", 1, 4, SIGNED, -YB_MOST_THOUSANDTHS, YB_MOST_THOUSANDTHS, NULL, NULL},
    {"y", parts_in, 5, 4, SIGNED, 0, YB_MOST_ARRAY_PARTS, NULL, NULL},
}, efficiency_points[] = {
    {"x", "thousandths of DC power per kVA", 1, 4, SIGNED, 0, YB_MOST_THOUSANDTHS, NULL, NULL},
    {"y", parts_in, 5, 4, SIGNED, 0, YB_MOST_PARTS, NULL, NULL},
}, volt_var_points[] = {
    {"x", per_unit, 1, 4, SIGNED, 0, YB_MOST_VOLTAGE, NULL, NULL},
    {"y", parts_in, 5, 4, SIGNED, -YB_MOST_PARTS, YB_MOST_PARTS, NULL, NULL},
}, any_points[] = {
    {"x", "", 1, 4, SIGNED, INT32_MIN, INT32_MAX, NULL, NULL},
    {"y", "", 5, 4, SIGNED, INT32_MIN, INT32_MAX, NULL, NULL},
};

static const struct value function[] = {
    {"base", "", 0, 1, PLAIN, YB_BASE_KVA, YB_BASE_LEFT, bases, NULL},
}, connection[] = {
    {"number of phases", "", 0, 1, PLAIN, YB_ONE_PHASE, YB_THREE_PHASES, phases, NULL},
    {"phase-to-neutral voltage", "V", 1, 2, PLAIN, 1, YB_MOST_VOLTS, NULL, NULL},
}, end[] = {
    {"number of steps", "", 0, 4, PLAIN, 0, YB_MOST_STEPS, NULL, NULL},
};

/* The values of a field: those that it has once, and those that come again for each point or unit. */
struct form {
    const struct value *once;
    unsigned once_count;
    const struct value *each;
    unsigned each_count, stride, times;
};

#define ONCE(values) .once = values, .once_count = sizeof values / sizeof values[0]
#define EACH(values, bytes) .each = values, .each_count = sizeof values / sizeof values[0], .stride = bytes

enum { POINT_BYTES = 8, CONNECTION_BYTES = 3 };

/* By their tags; a missing reading has no values. */
static const struct form forms[END_TAG + 1] = {
    [FLEET_TAG] = {ONCE(fleet)},
    [UNIT_TAG] = {ONCE(unit)},
    [SETTINGS_TAG] = {ONCE(settings)},
    [POWER_TAG] = {ONCE(powers)},
    [INVERTER_TAG] = {ONCE(inverter)},
    [CURVE_TAG] = {ONCE(curve), EACH(any_points, POINT_BYTES), .times = YB_MOST_POINTS},
    [WEATHER_TAG] = {ONCE(weather)},
    [CURRENT_TAG] = {ONCE(currents)},
    [CONNECTIONS_TAG] = {EACH(connection, CONNECTION_BYTES)},
    [FUNCTION_TAG] = {ONCE(function)},
    [VOLTAGE_TAG] = {ONCE(voltage)},
    [END_TAG] = {ONCE(end)},
};

struct field refused_field(const struct stick *stick)
{
    return (struct field){refused_bytes(stick), refused_len(stick), &stick->before, edition_of(stick),
        fleet_units(stick), stick->steps};
}

uint8_t tag_of(const struct field *field)
{
    return field->there >= HEADER ? field->bytes[0] : 0;
}

unsigned said_by(const struct field *field)
{
    return (unsigned)number_at(field->bytes + 1, 2);
}

enum curve curve_behind(const struct before *before)
{
    if (before->last == INVERTER_TAG)
        return TEMPERATURE;
    if (before->last == FUNCTION_TAG)
        return VOLT_VAR;
    return before->curves == 1 && !before->has_function ? EFFICIENCY : NO_CURVE;
}

/* Some go by what stands before, and target and band by the mode that the settings name themselves. */
static struct form form_of(const struct field *field)
{
    static const struct value *const points[] = {[NO_CURVE] = any_points, [TEMPERATURE] = temperature_points,
        [EFFICIENCY] = efficiency_points, [VOLT_VAR] = volt_var_points};
    uint8_t tag = tag_of(field);
    struct form form = forms[tag <= END_TAG ? tag : 0];
    if (tag == UNIT_TAG && field->edition < LIMITS_EDITION)
        form.once_count -= LIMITS;
    if (tag == SETTINGS_TAG && field->there > HEADER && is_by_current(field->bytes[HEADER]))
        form.once = settings_by_current;
    if (tag == CURVE_TAG)
        form.each = points[curve_behind(field->before)];
    if (tag == CONNECTIONS_TAG)
        form.times = field->units < YB_MOST_UNITS ? field->units : YB_MOST_UNITS;
    return form;
}

int is_known(const struct field *field)
{
    struct form form = form_of(field);
    return tag_of(field) == MISSING_TAG || form.once != NULL || form.each != NULL;
}

unsigned due_length(const struct field *field)
{
    struct form form = form_of(field);
    unsigned len = 0;
    if (form.once_count != 0)
        len = form.once[form.once_count - 1].from + form.once[form.once_count - 1].width;
    return len + form.stride * form.times;
}

unsigned take_parts(struct part *parts, const struct field *field)
{
    struct form form = form_of(field);
    unsigned count = 0;
    if (!is_known(field) || said_by(field) != due_length(field))
        return 0;
    for (unsigned i = 0; i < form.once_count; i++)
        parts[count++] = (struct part){&form.once[i], HEADER + form.once[i].from, -1};
    for (unsigned k = 0; k < form.times; k++)
        for (unsigned i = 0; i < form.each_count; i++)
            parts[count++] = (struct part){&form.each[i], HEADER + form.each[i].from + form.stride * k, (int)k};
    return count;
}

int is_there(const struct part *part, const struct field *field)
{
    return part->from + part->value->width <= field->there;
}

number number_of(const struct part *part, const struct field *field)
{
    number of = number_at(field->bytes + part->from, (int)part->value->width);
    return part->value->kind == SIGNED && of > INT32_MAX ? of - UINT32_MAX - 1 : of;
}

double double_of(const struct part *part, const struct field *field)
{
    uint64_t bits = number_at(field->bytes + part->from, (int)part->value->width);
    double of;
    memcpy(&of, &bits, sizeof of);
    return of;
}

int say_curve(struct text *text, const struct before *before)
{
    static const char *const names[] = {[NO_CURVE] = "a curve", [TEMPERATURE] = "the temperature curve of ",
        [EFFICIENCY] = "the efficiency curve of ", [VOLT_VAR] = "the volt-var curve"};
    enum curve curve = curve_behind(before);
    say(text, "%s", names[curve]);
    if (curve != TEMPERATURE && curve != EFFICIENCY)
        return 0;
    say_which(text, "inverter", before->inverters - 1);
    return 1;
}

static const char *plain_name(uint8_t tag)
{
    static const char *const names[] = {[FLEET_TAG] = "the fleet", [SETTINGS_TAG] = "the settings",
        [POWER_TAG] = "a reading", [CURRENT_TAG] = "a reading", [MISSING_TAG] = "a reading",
        [WEATHER_TAG] = "a weather", [CONNECTIONS_TAG] = "the connections", [FUNCTION_TAG] = "the function",
        [VOLTAGE_TAG] = "a voltage", [END_TAG] = "the end"};
    return tag < sizeof names / sizeof names[0] && names[tag] != NULL ? names[tag] : "a field";
}

int say_field(struct text *text, const struct field *field)
{
    switch (tag_of(field)) {
    case UNIT_TAG:
        say_which(text, "unit", field->before->units);
        return 1;
    case INVERTER_TAG:
        say_which(text, "inverter", field->before->inverters);
        return 1;
    case CURVE_TAG:
        return say_curve(text, field->before);
    default:
        say(text, "%s", plain_name(tag_of(field)));
        return 0;
    }
}

static int is_of_step(uint8_t tag)
{
    return is_reading(tag) || tag == WEATHER_TAG || tag == VOLTAGE_TAG;
}

int say_field_of_step(struct text *text, const struct field *field)
{
    if (!is_of_step(tag_of(field)))
        return say_field(text, field);
    say(text, "the%s of ", plain_name(tag_of(field)) + 1);
    say_step(text, field->step);
    return 1;
}

void say_owner(struct text *text, const struct field *field, const struct part *part)
{
    int has_comma = 1;
    say(text, is_of_step(tag_of(field)) ? "in " : "of ");
    if (is_of_step(tag_of(field))) {
        say_step(text, field->step);
    } else if (tag_of(field) == CONNECTIONS_TAG) {
        say_which(text, "unit", (unsigned)part->which);
        say(text, ", in the connections");
        has_comma = 0;
    } else {
        if (part->which >= 0) {
            say_which(text, "point", (unsigned)part->which);
            say(text, ", of ");
        }
        has_comma = say_field(text, field);
    }
    say(text, has_comma ? ", " : " ");
}

void say_double(struct text *text, double of)
{
    if (isnan(of)) {
        say(text, "no number");
    } else if (isinf(of)) {
        say(text, of < 0 ? "minus infinite" : "infinite");
    } else if (fabs(of) >= 1e12) {
        say(text, "%.3g", of);
    } else {
        char digits[32];
        int len = snprintf(digits, sizeof digits, "%.3f", fabs(of));
        int is_below = of < 0 && strspn(digits, "0.") < (size_t)len;
        say(text, is_below ? "-" : "");
        say_number(text, (number)strtoll(digits, NULL, 10));
        say(text, "%s", digits + len - 4);
    }
}

void say_value(struct text *text, const struct part *part, const struct field *field)
{
    const struct value *value = part->value;
    if (value->kind == DOUBLE) {
        say_double(text, double_of(part, field));
        return;
    }
    number of = number_of(part, field);
    say_number(text, of);
    if (value->choices != NULL && of >= value->least && of <= value->most && value->choices[of] != NULL &&
        value->choices[of][0] != '\0')
        say(text, " (%s)", value->choices[of]);
}
