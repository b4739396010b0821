/* The inverters' lines of the summary, and one for the roof, which is all of them. */
#include <string.h>

#include "import_summary.h"

/* The columns of a line; its first is its name. */
enum { ROOF_COLUMNS = 6 };

/* One step of an inverter, or the sum of one step of the roof. */
static void see_power(struct roof_line *line, uint32_t step, int64_t watts)
{
    if (watts > line->out) {
        line->out = watts;
        line->out_step = step;
    }
}

/* No inverter gives more than its array. */
static void see_energy(struct roof_line *line, const struct solar *s, uint32_t seconds)
{
    line->given += (joules)s->watts * seconds;
    line->unused += (joules)(s->dc - (uint64_t)s->watts) * seconds;
}

void see_roof(struct roof_line *lines, const struct run *run, uint32_t seconds)
{
    struct roof_line *roof = &lines[run->inverters];
    for (uint32_t step = run->first; step < run->first + run->steps; step++) {
        int64_t watts = 0;
        int on = 0;
        for (unsigned i = 0; i < run->inverters; i++) {
            struct solar s = solar_at(run, step, i);
            see_power(&lines[i], step, s.watts);
            see_energy(&lines[i], &s, seconds);
            see_energy(roof, &s, seconds);
            lines[i].on += s.on ? seconds : 0;
            watts += s.watts;
            on |= s.on;
        }
        see_power(roof, step, watts);
        roof->on += on ? seconds : 0;
    }
}

/* Where no power was given there is no step that gave the most. */
static void line_texts(row cells, const struct roof_line *line)
{
    thousandths_text(cells[1], line->out);
    whole_text(cells[2], line->out_step);
    if (line->out == 0)
        strcpy(cells[2], "-");
    kwh_text(cells[3], line->given);
    hours_text(cells[4], line->on);
    kwh_text(cells[5], line->unused);
}

void print_roof(const struct roof_line *lines, const struct stick *stick)
{
    static const char *const heading[ROOF_COLUMNS] = {"inverter", "out_kW", AT_STEP, "out_kWh", "on_h",
        "unused_kWh"};
    static row rows[ROWS];
    begin_rows(rows, heading, ROOF_COLUMNS, stick->inverters);
    for (unsigned i = 0; i <= stick->inverters; i++)
        line_texts(rows[i + 1], &lines[i]);
    strcpy(rows[stick->inverters + 1][0], "roof");
    print_blocks(rows, stick->inverters + 2, ROOF_COLUMNS);
}

void json_roof(const struct roof_line *line)
{
    json_number("out_W", line->out);
    if (line->out == 0)
        json_null("out_step");
    else
        json_number("out_step", line->out_step);
    json_large("out_J", line->given);
    json_number("on_s", (int64_t)line->on);
    json_large("unused_J", line->unused);
}
