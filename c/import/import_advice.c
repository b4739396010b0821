/* Advice: what a refusal says to the person who has the stick in hand: what happened, where, and what to do. */
#include "import_advice.h"
#include "import_range.h"

/* The lengths of a unit without var limits, which is also the one before any fleet, and of one with them. */
enum { UNIT_BYTES = 49, LIMITED_UNIT_BYTES = 57 };

static const char new_stick[] = "ask the manager for a new one.";
static const char written_anew[] = "do not repair the file; ask the manager to write the stick anew.";

void copy_or(struct told *told, const char *then)
{
    say(&told->advice, "Copy the stick again; if it stays so, %s", then);
}

/* The library's answer and the bytes do not go together, or there is no such answer. */
static void tell_fault(struct told *told, const char *what)
{
    say(&told->what, "%s: this is a fault of the program.", what);
    say(&told->advice, "Keep the file and tell the developers.");
    told->is_fault = 1;
}

/* A number of so many bytes as it stands in the file, and as people write it. */
static void say_hex(struct text *text, unsigned of, int width)
{
    say(text, "hex %0*X (", 2 * width, of);
    say_number(text, of);
    say(text, ")");
}

static void say_tag_and_length(struct text *text, const struct field *field)
{
    say(text, "the tag ");
    say_hex(text, field->bytes[0], 1);
    say(text, " and the length ");
    say_hex(text, said_by(field), 2);
}

static void tell_cut_short(struct told *told, const struct field *field)
{
    struct text *what = &told->what;
    say(what, "The file ends in the middle of ");
    if (field->there < HEADER) {
        say(what, "a field's tag and length");
    } else {
        say_field_of_step(what, field);
        say(what, ": ");
        say_number(what, field->there);
        say(what, " of its ");
        say_number(what, HEADER + said_by(field));
        say(what, " bytes are there");
    }
    say(what, ". The copy is not whole.");
    copy_or(told, new_stick);
}

static void tell_tag(struct told *told, const struct field *field)
{
    if (field->there < HEADER || is_known(field)) {
        tell_fault(told, "The library knows no such tag, and the tool does");
        return;
    }
    say(&told->what, "No field begins with ");
    say_tag_and_length(&told->what, field);
    say(&told->what, ", which stand here: the bytes are damaged, or another program wrote them.");
    copy_or(told, "ask the manager what wrote it.");
}

/* What a length goes by where not by the tag alone: a unit's may be that of another edition. */
static void tell_due_length(struct told *told, const struct field *field)
{
    unsigned said = said_by(field), is_unit = tag_of(field) == UNIT_TAG;
    const char *why = "bytes were changed or lost here", *then = new_stick;
    say(&told->what, "; the length should be ");
    say_hex(&told->what, due_length(field), 2);
    if (is_unit && field->edition == 0) {
        why = "the fleet, which comes first, is not there";
    } else if (is_unit) {
        say(&told->what, " in edition %u, which the fleet names", field->edition);
    } else if (tag_of(field) == CONNECTIONS_TAG && field->units != 0) {
        say(&told->what, " for ");
        say_many(&told->what, field->units, "unit");
    }
    if (is_unit && field->edition != 0 && (said == UNIT_BYTES || said == LIMITED_UNIT_BYTES)) {
        why = "fleet and units are not of one edition";
        then = "ask the manager to write it anew, all of it in one edition.";
    }
    say(&told->what, ": %s.", why);
    copy_or(told, then);
}

static void tell_length(struct told *told, const struct field *field)
{
    if (!is_known(field) || said_by(field) == due_length(field)) {
        tell_fault(told, "The library takes this length for wrong, and the tool does not");
        return;
    }
    say(&told->what, "Here the file has ");
    say_field_of_step(&told->what, field);
    say(&told->what, ", with ");
    say_tag_and_length(&told->what, field);
    tell_due_length(told, field);
}

static int has_steps_before(const struct before *before)
{
    return is_reading(before->last) || before->last == WEATHER_TAG || before->last == VOLTAGE_TAG;
}

static int is_before_steps(uint8_t tag)
{
    return tag == INVERTER_TAG || tag == CURVE_TAG || tag == CONNECTIONS_TAG || tag == FUNCTION_TAG;
}

/* Where a function is all that a voltage wants to stand there. */
static int wants_function(const struct before *before)
{
    int is_site_whole = before->last == SETTINGS_TAG || before->last == CONNECTIONS_TAG || before->curves == 2;
    return !before->has_function && (is_site_whole || has_steps_before(before));
}

/* What may stand behind the connections; and behind the settings, where these may still come and in some modes must. */
static void say_behind_connections(struct text *text, const struct before *before)
{
    say(text, "%sthe function, a step or the end", before->inverters < YB_MOST_INVERTERS ? "an inverter, " : "");
}

static void say_behind_settings(struct text *text, const struct before *before)
{
    say(text, "the connections");
    if (is_by_current(before->mode))
        return;
    say(text, ", ");
    say_behind_connections(text, before);
}

/* What may stand behind a curve: another one, or what comes behind both of an inverter's, or behind the function's. */
static int say_behind_curve(struct text *text, const struct before *before)
{
    if (curve_behind(before) != NO_CURVE)
        return say_curve(text, before);
    if (before->has_function)
        say(text, "a step or the end");
    else
        say_behind_connections(text, before);
    return 0;
}

/* Behind the fleet and its units either the next unit is due or the settings. */
static int say_behind_units(struct text *text, const struct field *field)
{
    if (field->before->units >= field->units) {
        say(text, "the settings");
        return 0;
    }
    say_which(text, "unit", field->before->units);
    return 1;
}

/* What should stand where a field is; gives whether a comma has to follow. */
static int say_due(struct text *text, const struct field *field)
{
    const struct before *before = field->before;
    switch (before->last) {
    case 0:
        say(text, "the fleet");
        return 0;
    case FLEET_TAG:
    case UNIT_TAG:
        return say_behind_units(text, field);
    case SETTINGS_TAG:
        say_behind_settings(text, before);
        return 0;
    case INVERTER_TAG:
    case FUNCTION_TAG:
        return say_curve(text, before);
    case CURVE_TAG:
        return say_behind_curve(text, before);
    case CONNECTIONS_TAG:
        say_behind_connections(text, before);
        return 0;
    case WEATHER_TAG:
        say(text, "the %sreading that follows a weather", before->has_function ? "voltage or the " : "");
        return 0;
    case VOLTAGE_TAG:
        say(text, "the reading that follows a voltage");
        return 0;
    default:
        say(text, "a step or the end");
        return 0;
    }
}

/* What stands there, and what should; what more is to be said of it follows. */
static void say_out_of_order(struct text *what, const struct field *field, const char *more)
{
    say_field(what, field);
    say(what, ", where ");
    say(what, say_due(what, field) ? ", should be" : " should be");
    say(what, "%s", more);
}

static void tell_too_many_inverters(struct told *told)
{
    say(&told->what, ", and a stick holds at most %d.", YB_MOST_INVERTERS);
    copy_or(told, "ask the manager to write it anew with no more inverters than that.");
}

static void tell_no_connections(struct told *told, const struct field *field)
{
    say_out_of_order(&told->what, field, ": ");
    say(&told->what, "in mode %u%s a stick says the phases and volts of every unit.", field->before->mode,
        mode_name(field->before->mode));
    copy_or(told, "do not repair the file; ask the manager to write the stick anew, with the connections.");
}

static void tell_no_function(struct told *told, const struct field *field)
{
    say_field(&told->what, field);
    say(&told->what, ", and the stick has no function, whose curve would say which vars it asks for.");
    copy_or(told, "ask the manager for the function, or to leave all voltages out, and to write the stick anew.");
}

/* A weather or a voltage, with nothing behind it but the end. */
static void tell_no_reading(struct told *told, const struct field *field)
{
    int is_weather = field->before->last == WEATHER_TAG;
    say_field(&told->what, field);
    say(&told->what, ", and the %s before it has no reading, which would close ", is_weather ? "weather" : "voltage");
    say_step(&told->what, field->step);
    say(&told->what, ".");
    copy_or(told, is_weather
        ? "ask the manager for that row, or to leave that weather out, and to write the stick anew."
        : "ask the manager for that row, or to leave that voltage out, with its weather if it has one, and to write "
        "the stick anew.");
}

static void tell_order(struct told *told, const struct field *field)
{
    const struct before *before = field->before;
    uint8_t tag = tag_of(field);
    int is_last_waiting = before->last == WEATHER_TAG || before->last == VOLTAGE_TAG;
    say(&told->what, "Here the file has ");
    if (tag == INVERTER_TAG && before->inverters == YB_MOST_INVERTERS && before->curves == 2) {
        say_field(&told->what, field);
        tell_too_many_inverters(told);
    } else if (is_before_steps(tag) && has_steps_before(before)) {
        say_out_of_order(&told->what, field, ": connections, inverters, the function and all curves come before the "
            "first step.");
        copy_or(told, written_anew);
    } else if (before->last == SETTINGS_TAG && is_by_current(before->mode)) {
        tell_no_connections(told, field);
    } else if (tag == VOLTAGE_TAG && wants_function(before)) {
        tell_no_function(told, field);
    } else if (tag == END_TAG && is_last_waiting) {
        tell_no_reading(told, field);
    } else {
        say_out_of_order(&told->what, field, ": a field is missing, or this one is there twice or in the wrong place.");
        copy_or(told, written_anew);
    }
}

/* A reading of the other kind than the mode goes by. */
static int is_other_kind(const struct field *field)
{
    int is_current = is_by_current(field->before->mode);
    return is_current ? tag_of(field) == POWER_TAG : tag_of(field) == CURRENT_TAG;
}

static void tell_other_kind(struct told *told, const struct field *field)
{
    int is_current = is_by_current(field->before->mode);
    say(&told->what, "In mode %u%s, which goes by %s, a reading has %s or is missing; ", field->before->mode,
        mode_name(field->before->mode), is_current ? "current" : "watts", is_current ? "currents" : "powers");
    say_field_of_step(&told->what, field);
    say(&told->what, ", has %s.", is_current ? "powers" : "currents");
    copy_or(told, is_current
        ? "ask the manager for that row in amperes, or whether the mode of the settings is right, and to write the "
        "stick anew."
        : "ask the manager for that row in kW, or whether the mode of the settings is right, and to write the stick "
        "anew.");
}

static void tell_range(struct told *told, const struct field *field)
{
    if (is_other_kind(field))
        tell_other_kind(told, field);
    else if (!say_out_of_range(&told->what, field))
        tell_fault(told, "The library takes a value of this field for out of range, and the tool finds none that is");
    else if (tag_of(field) == VOLTAGE_TAG)
        copy_or(told, "ask the manager for the voltage of that row, and have it entered again or left out; without it "
            "the vars last requested stay.");
    else
        copy_or(told, "ask the manager to correct it and to write the stick anew.");
}

static void tell_usable(struct told *told, const struct field *field)
{
    if (!say_not_usable(&told->what, field))
        tell_fault(told, "The library takes this reading for not usable, and the tool finds nothing wrong in it");
    else if (tag_of(field) == WEATHER_TAG)
        copy_or(told, "ask the manager for the weather of that row, and have it entered again or left out; without it "
            "the step has no sun.");
    else
        copy_or(told, "ask the manager for that row, and have it entered again or marked as missing.");
}

static void tell_count(struct told *told, const struct field *field)
{
    struct part parts[MOST_PARTS];
    unsigned count = take_parts(parts, field);
    if (count != 1 || !is_there(parts, field) || number_of(parts, field) == field->step) {
        tell_fault(told, "The library takes the count of the end for wrong, and the tool does not");
        return;
    }
    say(&told->what, "The end counts ");
    say_many(&told->what, (uint64_t)number_of(parts, field), "step");
    say(&told->what, ", and the file has ");
    say_number(&told->what, field->step);
    say(&told->what, ": rows were lost or added.");
    copy_or(told, new_stick);
}

static void tell_end_missing(struct told *told, const struct field *field, int is_empty)
{
    if (is_empty) {
        say(&told->what, "The file is empty.");
    } else {
        say(&told->what, "The file stops after ");
        say_many(&told->what, field->step, "step");
        say(&told->what, ", where ");
        say(&told->what, say_due(&told->what, field) ? ", should be" : " should be");
        say(&told->what, ": it was not written to its end, or not copied to it.");
    }
    copy_or(told, "ask the manager to write it anew.");
}

static void tell_after_end(struct told *told)
{
    say(&told->what, "Something follows the end: a second file, or what an older one left.");
    copy_or(told, "ask the manager for a stick with this one season on it.");
}

/* A file that is too long to be lent as a whole is refused at its first byte, and one of too many steps never is. */
static void tell_too_many(struct told *told, const struct stick *stick)
{
    if (stick->place != 0) {
        say(&told->what, "The file goes on after 65,535 steps, and a stick holds no more.");
        say(&told->advice, "Ask the manager to divide the season, with a stick for each part.");
        return;
    }
    say(&told->what, "The file has more than the 2,097,152 bytes that are taken as a whole.");
    say(&told->advice, "Check it with import check, which takes any length: if it is complete it needs no rescue, import "
        "summary judges its result too, and for other targets ask the manager to divide the season, with a stick for "
        "each part; else copy the stick again or ask the manager for a new one.");
}

/* One that has lost its fleet begins with a unit. */
int is_foreign(const struct stick *stick)
{
    struct field field = refused_field(stick);
    int is_about_beginning = stick->number == YB_CUT_SHORT || stick->number == YB_UNKNOWN_TAG ||
        stick->number == YB_WRONG_LENGTH || stick->number == YB_TOO_MANY;
    if (stick->place != 0 || !is_about_beginning || field.there == 0 || field.bytes[0] == FLEET_TAG)
        return 0;
    return tag_of(&field) != UNIT_TAG || said_by(&field) != LIMITED_UNIT_BYTES;
}

static void tell_number(struct told *told, const struct stick *stick, const struct field *field)
{
    switch (stick->number) {
    case YB_CUT_SHORT:
        tell_cut_short(told, field);
        break;
    case YB_UNKNOWN_TAG:
        tell_tag(told, field);
        break;
    case YB_WRONG_LENGTH:
        tell_length(told, field);
        break;
    case YB_OUT_OF_ORDER:
        tell_order(told, field);
        break;
    case YB_OUT_OF_RANGE:
        tell_range(told, field);
        break;
    case YB_NOT_USABLE:
        tell_usable(told, field);
        break;
    case YB_WRONG_COUNT:
        tell_count(told, field);
        break;
    case YB_END_MISSING:
        tell_end_missing(told, field, stick->place == 0);
        break;
    case YB_AFTER_END:
        tell_after_end(told);
        break;
    case YB_TOO_MANY:
        tell_too_many(told, stick);
        break;
    default:
        tell_fault(told, "There is no such refusal of a file");
        break;
    }
}

/* A rescue takes no file that is too long, and none that a new end could make so. */
static void say_rescue(struct text *text, const struct stick *stick)
{
    enum { NEW_END = 7, MOST_RESCUED = YB_MOST_FILE_BYTES - NEW_END };
    if (stick->size > MOST_RESCUED || stick->len > MOST_RESCUED)
        return;
    say(text, " import rescue keeps what can be kept of this one");
    if (stick->size == 0) {
        say(text, ", if it has no more than ");
        say_number(text, MOST_RESCUED);
        say(text, " bytes");
    }
    say(text, ".");
}

void tell_refusal(struct told *told, const struct stick *stick)
{
    struct field field = refused_field(stick);
    *told = (struct told){.what = {.len = 0}};
    if (is_foreign(stick))
        tell_foreign(told, field.bytes, field.there);
    else
        tell_number(told, stick, &field);
    /* Where a step has begun a rescue has something to keep. */
    if (!told->is_fault && (has_steps_before(&stick->before) || stick->number == YB_AFTER_END))
        say_rescue(&told->advice, stick);
}

const char *refusal_name(const struct stick *stick)
{
    return yb_refusal_words(stick->number);
}

void print_advice(const struct stick *stick)
{
    struct told told;
    struct text all = {.len = 0};
    tell_refusal(&told, stick);
    say(&all, "%s %s", told.what.bytes, told.advice.bytes);
    print_wrapped(&all);
}
