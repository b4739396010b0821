/* The units' lines of the summary, and one for the fleet. */
#include <string.h>

#include "import_summary.h"

/* The columns of a line; its first is its name. */
enum { FLEET_COLUMNS = 10 };

/* A request is not met where it is not 0 and the inverter's power is another: less than was asked, or the idle draw. A
** unit that is asked nothing does what it is asked when it idles.
*/
static int is_met(const struct line *line, const struct record *r)
{
    return r->request == 0 || (int64_t)r->watts + line->grid_loss == r->request;
}

static int64_t size_of(int64_t watts)
{
    return watts < 0 ? -watts : watts;
}

/* One step of a unit, or the sums of one step of the fleet. */
static void see_step(struct line *line, uint32_t step, int64_t request, int64_t watts, uint64_t stored, int met)
{
    if (size_of(request) > size_of(line->request))
        line->request = request;
    if (watts > line->out)
        line->out = watts;
    if (-watts > line->in)
        line->in = -watts;
    if (step == 0 || stored < line->low) {
        line->low = stored;
        line->low_step = step;
    }
    line->not_met += !met;
}

static void see_energy(struct line *line, const struct record *r, uint32_t seconds)
{
    joules energy = (joules)size_of(r->watts) * seconds;
    if (r->watts > 0)
        line->given += energy;
    else
        line->taken += energy;
    line->lost += r->loss;
}

void see_fleet(struct line *lines, const struct run *run, uint32_t seconds)
{
    struct line *fleet = &lines[run->units];
    for (uint32_t step = run->first; step < run->first + run->steps; step++) {
        int64_t request = 0, watts = 0;
        uint64_t stored = 0;
        int met = 1;
        for (unsigned unit = 0; unit < run->units; unit++) {
            struct record r = record_at(run, step, unit);
            int unit_met = is_met(&lines[unit], &r);
            see_step(&lines[unit], step, r.request, r.watts, r.stored, unit_met);
            see_energy(&lines[unit], &r, seconds);
            see_energy(fleet, &r, seconds);
            request += r.request;
            watts += r.watts;
            stored += r.stored;
            met &= unit_met;
        }
        see_step(fleet, step, request, watts, stored, met);
    }
}

/* Without a step there is no least store. */
static void line_texts(row cells, const struct line *line, uint32_t steps)
{
    thousandths_text(cells[1], line->request);
    thousandths_text(cells[2], line->out);
    thousandths_text(cells[3], line->in);
    kwh_text(cells[4], line->given);
    kwh_text(cells[5], line->taken);
    kwh_text(cells[6], line->lost);
    kwh_text(cells[7], line->low);
    whole_text(cells[8], line->low_step);
    if (steps == 0)
        strcpy(cells[7], "-"), strcpy(cells[8], "-");
    whole_text(cells[9], line->not_met);
}

void print_unit_lines(const struct line *lines, const struct stick *stick)
{
    static const char *const heading[FLEET_COLUMNS] = {"unit", "request_kW", "out_kW", "in_kW", "out_kWh", "in_kWh",
        "loss_kWh", "low_kWh", AT_STEP, "not_met"};
    static row rows[ROWS + 1];
    begin_rows(rows, heading, FLEET_COLUMNS, stick->units);
    for (unsigned i = 0; i <= stick->units; i++)
        line_texts(rows[i + 1], &lines[i], stick->steps);
    strcpy(rows[stick->units + 1][0], "fleet");
    print_blocks(rows, stick->units + 2, FLEET_COLUMNS);
}

void json_line(const struct line *line, const struct stick *stick)
{
    json_number("request_W", line->request);
    json_number("out_W", line->out);
    json_number("in_W", line->in);
    json_large("out_J", line->given);
    json_large("in_J", line->taken);
    json_large("loss_J", line->lost);
    if (stick->steps == 0) {
        json_null("store_least_J");
        json_null("store_least_step");
    } else {
        json_large("store_least_J", line->low);
        json_number("store_least_step", line->low_step);
    }
    json_number("not_met_steps", line->not_met);
}
