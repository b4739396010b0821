/* import show, of a complete stick: its fleet, its settings, its units with their connections, its inverters and its
** function with their curves, and its readings. What no call of the library tells is read from the stick's head by the
** table of its fields.
*/
#include <string.h>

#include "import_look.h"
#include "import_named.h"

/* All that is asked for before a line is printed. */
struct contents {
    const struct stick *stick;
    struct measured measured;
    struct unit units[YB_MOST_UNITS];
    struct limits limits[YB_MOST_UNITS];
    int has_connections;
    uint8_t phases[YB_MOST_UNITS];
    uint16_t volts[YB_MOST_UNITS];
};

/* A heading, and a line for each unit or for each inverter. */
static row rows[1 + (YB_MOST_UNITS > YB_MOST_INVERTERS ? YB_MOST_UNITS : YB_MOST_INVERTERS)];

/* A stick without connections has none of any unit. */
static int ask_connection(struct contents *contents, unsigned which)
{
    const struct stick *stick = contents->stick;
    uint32_t number = yb_connection(stick->head, stick->head_len, which, &contents->phases[which],
        &contents->volts[which]);
    if (which == 0)
        contents->has_connections = number == 0;
    return number == (contents->has_connections ? 0 : YB_DOES_NOT_FIT) ? COMPLETE : fault(stick->name);
}

static int ask_contents(struct contents *contents)
{
    const struct stick *stick = contents->stick;
    int outcome = ask_measured(&contents->measured, stick);
    for (unsigned i = 0; i < stick->units && outcome == COMPLETE; i++) {
        outcome = ask_unit(&contents->units[i], stick, i);
        if (outcome == COMPLETE)
            outcome = ask_limits(&contents->limits[i], stick, i);
        if (outcome == COMPLETE)
            outcome = ask_connection(contents, i);
    }
    return outcome;
}

/* Parts in 10,000 as per cent. */
static void say_percent(struct text *text, int64_t parts)
{
    int64_t size = parts < 0 ? -parts : parts;
    say(text, "%s", parts < 0 ? "-" : "");
    say_number(text, size / 100);
    say(text, ".%02d", (int)(size % 100));
}

static void put_percent(char *cell, int64_t parts)
{
    struct text text = {.len = 0};
    say_percent(&text, parts);
    snprintf(cell, CELL, "%.*s", CELL - 1, text.bytes);
}

static void put_first(char *cell, unsigned priority)
{
    strcpy(cell, priority == YB_WATTS_FIRST ? "watts" : "vars");
}

static void print_table(unsigned count, int columns)
{
    printf("\n");
    print_rows(rows, count + 1, columns);
}

static void print_units(const struct contents *contents)
{
    static const char *const heading[] = {"unit", "rated kWh", "reserve kWh", "stored kWh", "R kW", "S kVA",
        "idle loss W", "weight"};
    enum { UNIT_COLUMNS = sizeof heading / sizeof heading[0] };
    unsigned count = contents->stick->units;
    begin_rows(rows, heading, UNIT_COLUMNS, count);
    for (unsigned i = 0; i < count; i++) {
        const struct unit *unit = &contents->units[i];
        kwh_text(rows[i + 1][1], unit->rated);
        kwh_text(rows[i + 1][2], unit->reserve);
        kwh_text(rows[i + 1][3], unit->stored);
        thousandths_text(rows[i + 1][4], unit->rating);
        thousandths_text(rows[i + 1][5], unit->kva);
        signed_text(rows[i + 1][6], unit->idle_loss);
        signed_text(rows[i + 1][7], unit->weight);
    }
    print_table(count, UNIT_COLUMNS);
}

/* The var limits are in the last two columns, where they are the units' own. */
static void print_efficiencies(const struct contents *contents)
{
    static const char *const heading[] = {"unit", "inverter %", "charge %", "discharge %", "request var", "first",
        "provide var", "absorb var"};
    enum { EFFICIENCY_COLUMNS = sizeof heading / sizeof heading[0] };
    unsigned count = contents->stick->units;
    int has_limits = edition_of(contents->stick) >= LIMITS_EDITION;
    begin_rows(rows, heading, EFFICIENCY_COLUMNS, count);
    for (unsigned i = 0; i < count; i++) {
        const struct unit *unit = &contents->units[i];
        put_percent(rows[i + 1][1], unit->inverter);
        put_percent(rows[i + 1][2], unit->charge);
        put_percent(rows[i + 1][3], unit->discharge);
        signed_text(rows[i + 1][4], unit->var_request);
        put_first(rows[i + 1][5], unit->priority);
        signed_text(rows[i + 1][6], contents->limits[i].provide);
        signed_text(rows[i + 1][7], contents->limits[i].absorb);
    }
    print_table(count, has_limits ? EFFICIENCY_COLUMNS : EFFICIENCY_COLUMNS - 2);
}

static void print_connections(const struct contents *contents)
{
    static const char *const heading[] = {"unit", "phases", "volts"};
    enum { CONNECTION_COLUMNS = sizeof heading / sizeof heading[0] };
    unsigned count = contents->stick->units;
    if (!contents->has_connections)
        return;
    begin_rows(rows, heading, CONNECTION_COLUMNS, count);
    for (unsigned i = 0; i < count; i++) {
        signed_text(rows[i + 1][1], contents->phases[i]);
        signed_text(rows[i + 1][2], contents->volts[i]);
    }
    print_table(count, CONNECTION_COLUMNS);
}

/* Goes through the fields of the head. */
static void walk_head(const struct stick *stick, void (*see)(const struct field *field))
{
    struct before before = {.last = 0};
    size_t len;
    for (size_t at = 0; stick->head_len - at >= HEADER; at += len) {
        len = field_len(stick->head + at);
        if (stick->head_len - at < len)
            break;
        see(&(struct field){stick->head + at, len, &before, edition_of(stick), fleet_units(stick), 0});
        count_field(&before, stick->head + at);
    }
}

static void put_inverter(const struct field *field)
{
    struct part parts[MOST_PARTS];
    unsigned which = field->before->inverters;
    if (tag_of(field) != INVERTER_TAG || which >= YB_MOST_INVERTERS || take_parts(parts, field) == 0)
        return;
    char (*cells)[CELL] = rows[which + 1];
    thousandths_text(cells[1], (int64_t)number_of(&parts[ARRAY_POWER], field));
    thousandths_text(cells[2], (int64_t)number_of(&parts[INVERTER_KVA], field));
    put_percent(cells[3], (int64_t)number_of(&parts[CUT_IN], field));
    put_percent(cells[4], (int64_t)number_of(&parts[CUT_OUT], field));
    put_percent(cells[5], (int64_t)number_of(&parts[ARRAY_LIMIT], field));
    signed_text(cells[6], (int64_t)number_of(&parts[INVERTER_REQUEST], field));
    put_first(cells[7], (unsigned)number_of(&parts[INVERTER_PRIORITY], field));
}

static void print_inverters(const struct stick *stick)
{
    static const char *const heading[] = {"inverter", "array kW", "S kVA", "cut-in %", "cut-out %", "limit %",
        "request var", "first"};
    enum { INVERTER_COLUMNS = sizeof heading / sizeof heading[0] };
    if (stick->inverters == 0)
        return;
    begin_rows(rows, heading, INVERTER_COLUMNS, stick->inverters);
    walk_head(stick, put_inverter);
    print_table(stick->inverters, INVERTER_COLUMNS);
}

/* What the x of a curve are in; those of a volt-var curve have four decimals, all others three. */
static void say_x(struct text *text, enum curve curve, int64_t x)
{
    if (curve == VOLT_VAR)
        say(text, "%d.%04d", (int)(x / 10000), (int)(x % 10000));
    else
        say_thousandths(text, x);
}

static void say_points(struct text *text, const struct field *field, const struct part *parts)
{
    static const char *const units[] = {[NO_CURVE] = "", [TEMPERATURE] = " degrees C", [EFFICIENCY] = " kW DC per kVA",
        [VOLT_VAR] = " per unit"};
    enum curve curve = curve_behind(field->before);
    unsigned points = (unsigned)number_of(&parts[CURVE_POINTS], field);
    for (unsigned k = 0; k < points && k < YB_MOST_POINTS; k++) {
        say(text, k == 0 ? "" : ", ");
        say_percent(text, (int64_t)number_of(&parts[FIRST_Y + 2 * k], field));
        say(text, " %% at ");
        say_x(text, curve, (int64_t)number_of(&parts[FIRST_X + 2 * k], field));
        say(text, "%s", k == 0 ? units[curve] : "");
    }
    say(text, ".");
}

/* A curve's points in a paragraph, and a function's base before its own. */
static void print_curve(const struct field *field)
{
    struct part parts[MOST_PARTS];
    struct text text = {.len = 0}, name = {.len = 0};
    unsigned count = take_parts(parts, field);
    if (tag_of(field) == FUNCTION_TAG && count != 0) {
        say(&text, "The function gives vars by the voltage, as a part of %s.",
            number_of(parts, field) == YB_BASE_KVA ? "S" : "what the watts leave of S");
    } else if (tag_of(field) == CURVE_TAG && count != 0) {
        say_curve(&name, field->before);
        say(&text, "T%s: ", name.bytes + 1);
        say_points(&text, field, parts);
    } else {
        return;
    }
    print_wrapped(&text);
}

static void print_curves(const struct stick *stick)
{
    if (stick->inverters == 0 && !stick->before.has_function)
        return;
    printf("\n");
    walk_head(stick, print_curve);
}

static void print_fleet(const struct contents *contents)
{
    const struct stick *stick = contents->stick;
    struct text text = {.len = 0};
    say(&text, "Edition %u", edition_of(stick));
    if (edition_of(stick) == OLDER_MODEL_EDITION)
        say(&text, " (the older storage model: idle loss at the grid)");
    say(&text, ": ");
    say_many(&text, stick->units, "unit");
    if (stick->inverters != 0) {
        say(&text, ", ");
        say_many(&text, stick->inverters, "inverter");
    }
    say(&text, "%s, ", stick->before.has_function ? ", a function" : "");
    say_many(&text, stick->steps, "step");
    say(&text, " of ");
    say_number(&text, contents->measured.season.seconds);
    say(&text, " s. All are counted from 0, as in the file: unit 0 is the 1st unit.");
    print_wrapped(&text);
}

/* What the mode does, and what it goes by. */
static void print_settings(const struct contents *contents)
{
    static const char *const modes[] = {"", [YB_PEAK_SHAVE] = "the units give while the measure is above the target",
        [YB_SUPPORT] = "the units give while measure and target together are above 0",
        [YB_PEAK_SHAVE_LOW] = "the units take while the measure is below the target",
        [YB_I_PEAK_SHAVE] = "the units give while the measure is above the target",
        [YB_I_PEAK_SHAVE_LOW] = "the units take while the measure is below the target"};
    static const char *const phases[] = {[YB_PHASE_SUM] = "the sum of the three phases", [YB_PHASE_1] = "phase 1",
        [YB_PHASE_2] = "phase 2", [YB_PHASE_3] = "phase 3", [YB_PHASE_LARGEST] = "the largest of the three phases",
        [YB_PHASE_SMALLEST] = "the smallest of the three phases"};
    const struct settings *settings = &contents->measured.season.settings;
    const char *in = measure_unit(&contents->measured.season);
    struct text text = {.len = 0};
    say(&text, "Mode %u%s: %s. The measure is %s. Target ", settings->mode, mode_name(settings->mode),
        modes[settings->mode <= YB_I_PEAK_SHAVE_LOW ? settings->mode : 0],
        phases[settings->phase <= YB_PHASE_SMALLEST ? settings->phase : YB_PHASE_SUM]);
    say_thousandths(&text, settings->target);
    say(&text, " %s, band ", in);
    say_thousandths(&text, settings->band);
    say(&text, " %s, factor ", in);
    say_thousandths(&text, settings->factor);
    say(&text, ".");
    print_wrapped(&text);
}

int print_contents(const struct stick *stick)
{
    static struct contents contents;
    contents.stick = stick;
    if (ask_contents(&contents) != COMPLETE)
        return FAILED;
    print_answer(stick);
    print_fleet(&contents);
    print_settings(&contents);
    print_units(&contents);
    print_efficiencies(&contents);
    print_connections(&contents);
    print_inverters(stick);
    print_curves(stick);
    printf("\n");
    print_measured(&contents.measured);
    print_missing(stick);
    return COMPLETE;
}
