/* The var lines of the summary: what each unit may provide and absorb, and what it did; and for each unit and inverter
** the largest and the smallest vars.
*/
#include <string.h>

#include "import_summary.h"

/* The columns of a line of either kind; its first is its name. */
enum { VAR_COLUMNS = 7, END_COLUMNS = 5 };

void see_vars(struct var_line *lines, const struct run *run)
{
    for (uint32_t step = run->first; step < run->first + run->steps; step++)
        for (unsigned unit = 0; unit < run->units; unit++) {
            int64_t vars = record_at(run, step, unit).vars;
            if (vars > lines[unit].out)
                lines[unit].out = vars;
            if (-vars > lines[unit].in)
                lines[unit].in = -vars;
        }
}

int ask_vars(struct var_line *lines, const struct stick *stick)
{
    int outcome = COMPLETE;
    for (unsigned i = 0; i < stick->units && outcome == COMPLETE; i++) {
        outcome = ask_unit(&lines[i].unit, stick, i);
        if (outcome == COMPLETE)
            outcome = ask_limits(&lines[i].limits, stick, i);
    }
    return outcome;
}

static void line_texts(row cells, const struct var_line *line)
{
    whole_text(cells[1], line->unit.kva);
    signed_text(cells[2], line->unit.var_request);
    whole_text(cells[3], line->limits.provide);
    whole_text(cells[4], line->limits.absorb);
    signed_text(cells[5], line->out);
    signed_text(cells[6], line->in);
}

void print_vars(const struct var_line *lines, const struct stick *stick)
{
    static const char *const heading[VAR_COLUMNS] = {"unit", "S_VA", "request_var", "provide_var", "absorb_var",
        "out_var", "in_var"};
    static row rows[ROWS];
    begin_rows(rows, heading, VAR_COLUMNS, stick->units);
    for (unsigned i = 0; i < stick->units; i++)
        line_texts(rows[i + 1], &lines[i]);
    print_blocks(rows, stick->units + 1, VAR_COLUMNS);
}

void json_vars(const struct var_line *line)
{
    json_number("kva_VA", line->unit.kva);
    json_number("request_var", line->unit.var_request);
    json_number("provide_var", line->limits.provide);
    json_number("absorb_var", line->limits.absorb);
    json_number("out_var", line->out);
    json_number("in_var", line->in);
}

static void see_step(struct var_ends *ends, uint32_t step, int32_t vars)
{
    if (step == 0 || vars > ends->high) {
        ends->high = vars;
        ends->high_step = step;
    }
    if (step == 0 || vars < ends->low) {
        ends->low = vars;
        ends->low_step = step;
    }
}

void see_var_ends(struct var_ends *ends, const struct run *run)
{
    for (uint32_t step = run->first; step < run->first + run->steps; step++) {
        for (unsigned unit = 0; unit < run->units; unit++)
            see_step(&ends[unit], step, record_at(run, step, unit).vars);
        for (unsigned i = 0; i < run->inverters; i++)
            see_step(&ends[run->units + i], step, solar_at(run, step, i).vars);
    }
}

/* Without a step there are none. */
static void end_texts(row cells, const struct var_ends *ends, uint32_t steps)
{
    signed_text(cells[1], ends->high);
    whole_text(cells[2], ends->high_step);
    signed_text(cells[3], ends->low);
    whole_text(cells[4], ends->low_step);
    for (int k = 1; k < END_COLUMNS && steps == 0; k++)
        strcpy(cells[k], "-");
}

/* An inverter has the word before its number, as in a table. */
void print_var_ends(const struct var_ends *ends, const struct stick *stick)
{
    static const char *const heading[END_COLUMNS] = {"unit", "high_var", AT_STEP, "low_var", AT_STEP};
    static row rows[ROWS];
    unsigned count = stick->units + stick->inverters;
    begin_rows(rows, heading, END_COLUMNS, stick->units);
    for (unsigned i = 0; i < stick->inverters; i++)
        snprintf(rows[stick->units + i + 1][0], CELL, "inverter %u", i);
    for (unsigned i = 0; i < count; i++)
        end_texts(rows[i + 1], &ends[i], stick->steps);
    print_blocks(rows, count + 1, END_COLUMNS);
}

void json_var_ends(const struct var_ends *ends, const struct stick *stick)
{
    static const char *const keys[] = {"high_var", "high_var_step", "low_var", "low_var_step"};
    const int64_t values[] = {ends->high, ends->high_step, ends->low, ends->low_step};
    for (int k = 0; k < 4; k++)
        if (stick->steps == 0)
            json_null(keys[k]);
        else
            json_number(keys[k], values[k]);
}
