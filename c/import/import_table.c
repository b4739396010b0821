/* import table: the result file as lines of numbers, parted by tabs or, for a spreadsheet, by commas. Behind what
** the result says come the measure of the step, the power of the whole fleet, and the measure less that power.
**
** The measure is the library's: it is asked for the figures of a stick that has this one reading. Inverters and
** function are left out of that stick, for no measure goes by them.
*/
#include <inttypes.h>
#include <string.h>

#include "import_figures.h"
#include "import_options.h"
#include "import_result.h"

/* The most bytes that a stick of one reading can have, and that the cells can have which all lines of a step end
** with.
*/
enum { ONE = 65536, TAIL = 3 * CELL };

/* What is shown, and how: what parts two cells, and what stands where there is no value. The next field of the stick; a
** stick of one step, and how many bytes stand before its reading.
*/
struct table {
    const struct stick *stick;
    struct season season;
    char comma;
    const char *none;
    uint64_t next;
    uint8_t one[ONE];
    size_t before;
    char tail[TAIL];
    int outcome;
};

/* Whether a field has to stand before a reading. */
static int is_needed(uint8_t tag)
{
    return tag == FLEET_TAG || tag == UNIT_TAG || tag == SETTINGS_TAG || tag == CONNECTIONS_TAG;
}

/* The fields before the reading of the stick of one step. */
static int begin_one(struct table *table)
{
    const struct stick *stick = table->stick;
    for (size_t at = 0; stick->head_len - at >= HEADER; at += field_len(stick->head + at)) {
        size_t len = field_len(stick->head + at);
        if (len > stick->head_len - at || len > ONE - table->before)
            return fault(stick->name);
        if (!is_needed(stick->head[at]))
            continue;
        memcpy(table->one + table->before, stick->head + at, len);
        table->before += len;
    }
    return COMPLETE;
}

/* The reading of the next step. */
static const uint8_t *next_reading(struct table *table)
{
    const struct stick *stick = table->stick;
    while (stick->len - table->next >= HEADER) {
        const uint8_t *field = stick->kept + table->next;
        if (stick->len - table->next < field_len(field))
            break;
        table->next += field_len(field);
        if (is_reading(field[0]))
            return field;
    }
    return NULL;
}

/* The measure of a reading that is not missing. */
static int ask_measure(int64_t *measure, struct table *table, const uint8_t *reading)
{
    static const uint8_t end[] = {END_TAG, 0, 4, 0, 0, 0, 1};
    int64_t figures[YB_FIGURES];
    uint8_t *at = table->one + table->before;
    size_t len = field_len(reading);
    if (len + sizeof end > ONE - table->before)
        return fault(table->stick->name);
    memcpy(at, reading, len);
    memcpy(at + len, end, sizeof end);
    len += table->before + sizeof end;
    if (!ask_figures_of(figures, table->one, len, 1, table->season.settings.target) || !has_measure(figures))
        return fault(table->stick->name);
    *measure = figures[YB_FIGURE_LEAST];
    return COMPLETE;
}

static int64_t fleet_power(const struct run *run, uint32_t step)
{
    int64_t power = 0;
    for (unsigned unit = 0; unit < run->units; unit++)
        power += record_at(run, step, unit).watts;
    return power;
}

/* The cells that every line of a step ends with. A missing reading and a current have no measure less the fleet. */
static int find_tail(struct table *table, const struct run *run, uint32_t step)
{
    const uint8_t *reading = next_reading(table);
    int64_t measure = 0, power = fleet_power(run, step);
    char seen[CELL] = "missing", net[CELL], c = table->comma;
    if (reading == NULL)
        return fault(table->stick->name);
    if (reading[0] != MISSING_TAG && ask_measure(&measure, table, reading) != COMPLETE)
        return FAILED;
    if (reading[0] != MISSING_TAG)
        snprintf(seen, CELL, "%" PRId64, measure);
    snprintf(net, CELL, "%" PRId64, measure - power);
    snprintf(table->tail, TAIL, "%c%s%c%" PRId64 "%c%s", c, seen, c, power, c,
        reading[0] == POWER_TAG ? net : table->none);
    return COMPLETE;
}

/* Beside inverters a unit has none of what these have more. */
static void print_unit(const struct table *table, const struct run *run, uint32_t step, unsigned unit)
{
    struct record r = record_at(run, step, unit);
    char kw[KW_TEXT], c = table->comma;
    kw_text(kw, r.watts);
    printf("%" PRIu32 "%c%u%c%" PRId32 "%c%s%c%" PRId32 "%c%" PRIu64 "%c%" PRIu64, step, c, unit, c, r.request, c, kw,
        c, r.vars, c, r.stored, c, r.loss);
    if (run->inverters != 0)
        printf("%c%s%c%s", c, table->none, c, table->none);
    printf("%s\n", table->tail);
}

/* An inverter has no request, store and loss. */
static void print_inverter(const struct table *table, const struct run *run, uint32_t step, unsigned inverter)
{
    struct solar s = solar_at(run, step, inverter);
    char kw[KW_TEXT], c = table->comma;
    const char *none = table->none;
    kw_text(kw, s.watts);
    printf("%" PRIu32 "%cinverter %u%c%s%c%s%c%" PRId32 "%c%s%c%s%c%d%c%" PRIu64 "%s\n", step, c, inverter, c, none, c,
        kw, c, s.vars, c, none, c, none, c, s.on, c, s.dc, table->tail);
}

static void print_steps(void *to, const struct run *run)
{
    struct table *table = to;
    for (uint32_t step = run->first; step < run->first + run->steps && !ferror(stdout); step++) {
        if (table->outcome == COMPLETE)
            table->outcome = find_tail(table, run, step);
        if (table->outcome != COMPLETE)
            return;
        for (unsigned unit = 0; unit < run->units; unit++)
            print_unit(table, run, step, unit);
        for (unsigned inverter = 0; inverter < run->inverters; inverter++)
            print_inverter(table, run, step, inverter);
    }
}

/* The heading's blanks are underscores where the cells are parted by commas. */
static void print_heading(const struct table *table)
{
    char text[200];
    snprintf(text, sizeof text, "step\tunit\trequest W\tdelivered kW\tvars\tstored J\tloss J%s\tmeasure %s\t"
        "fleet W\tnet W", table->stick->inverters != 0 ? "\ton\tDC W" : "",
        is_by_current(table->season.settings.mode) ? "mA" : "W");
    for (char *at = text; *at != '\0' && table->comma == ','; at++)
        *at = *at == '\t' ? ',' : *at == ' ' ? '_' : *at;
    printf("%s\n", text);
}

static int show_table(struct table *table)
{
    int outcome = ask_season(&table->season, table->stick);
    if (outcome == COMPLETE)
        outcome = begin_one(table);
    if (outcome != COMPLETE)
        return outcome;
    print_heading(table);
    outcome = feed_again(table->stick, &(struct taker){print_steps, table});
    return outcome == COMPLETE ? table->outcome : outcome;
}

int table_command(const struct call *call)
{
    static struct table table;
    struct stick stick;
    int outcome = open_result(&stick, call->words[0], call->words[1]), is_csv = (call->options & CSV) != 0;
    if (outcome != COMPLETE)
        return outcome;
    table.stick = &stick;
    table.comma = is_csv ? ',' : '\t';
    table.none = is_csv ? "" : "-";
    outcome = show_table(&table);
    free_kept(&stick);
    return outcome;
}
