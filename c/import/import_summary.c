/* import summary: what a planner asks of a season: its figures, which the library tells; a line for each unit and one
** for the fleet; beneath them, where the units have var limits, a line of these for each; a line for each inverter and
** one for the roof; and last, for each unit and inverter, a line of the largest and the smallest vars.
*/
#include <string.h>

#include "import_files.h"
#include "import_options.h"
#include "import_summary.h"

/* A stick's season, its figures, and all lines. */
struct summary {
    struct season season;
    int64_t figures[YB_FIGURES];
    struct line lines[YB_MOST_UNITS + 1];
    struct var_line vars[YB_MOST_UNITS];
    struct roof_line roof[YB_MOST_INVERTERS + 1];
    struct var_ends ends[YB_MOST_UNITS + YB_MOST_INVERTERS];
};

static void see_run(void *to, const struct run *run)
{
    struct summary *summary = to;
    see_fleet(summary->lines, run, summary->season.seconds);
    see_vars(summary->vars, run);
    see_roof(summary->roof, run, summary->season.seconds);
    see_var_ends(summary->ends, run);
}

/* The grid losses are those of the units that the var lines have. */
static void take_grid_losses(struct summary *summary, const struct stick *stick)
{
    for (unsigned i = 0; i < stick->units; i++)
        summary->lines[i].grid_loss = edition_of(stick) == OLDER_MODEL_EDITION ? summary->vars[i].unit.idle_loss : 0;
}

/* All that is known of a complete stick that was kept. */
static int summarize(struct summary *summary, const struct stick *stick)
{
    memset(summary, 0, sizeof *summary);
    int outcome = ask_season(&summary->season, stick);
    if (outcome == COMPLETE)
        outcome = ask_vars(summary->vars, stick);
    if (outcome == COMPLETE && has_figures(stick))
        outcome = ask_figures(summary->figures, stick, summary->season.settings.target);
    take_grid_losses(summary, stick);
    return outcome == COMPLETE ? feed_again(stick, &(struct taker){see_run, summary}) : outcome;
}

static void print_summary(const struct summary *summary, const struct stick *stick)
{
    print_answer(stick);
    print_season(&summary->season);
    if (has_figures(stick))
        print_figures(&summary->season, summary->figures);
    else
        print_no_figures();
    printf("\nBelow, units, inverters and steps are counted from 0, as in the files: at_step 0 is the 1st row.\n");
    print_unit_lines(summary->lines, stick);
    if (edition_of(stick) >= LIMITS_EDITION)
        print_vars(summary->vars, stick);
    if (stick->inverters != 0)
        print_roof(summary->roof, stick);
    print_var_ends(summary->ends, stick);
}

/* What the stick says of a unit, its kVA and its vars aside. */
static void json_said(const struct unit *unit)
{
    json_number("rated_J", (int64_t)unit->rated);
    json_number("reserve_J", (int64_t)unit->reserve);
    json_number("stored_J", (int64_t)unit->stored);
    json_number("rating_W", unit->rating);
}

static void json_units(const struct summary *summary, const struct stick *stick)
{
    json_open_list("units");
    for (unsigned i = 0; i < stick->units; i++) {
        json_open(NULL);
        json_number("unit", i);
        json_line(&summary->lines[i], stick);
        json_said(&summary->vars[i].unit);
        json_vars(&summary->vars[i]);
        json_var_ends(&summary->ends[i], stick);
        json_close();
    }
    json_close_list();
    json_open("fleet");
    json_line(&summary->lines[stick->units], stick);
    json_close();
}

static void json_inverters(const struct summary *summary, const struct stick *stick)
{
    json_open_list("inverters");
    for (unsigned i = 0; i < stick->inverters; i++) {
        json_open(NULL);
        json_number("inverter", i);
        json_roof(&summary->roof[i]);
        json_var_ends(&summary->ends[stick->units + i], stick);
        json_close();
    }
    json_close_list();
    json_open("roof");
    json_roof(&summary->roof[stick->inverters]);
    json_close();
}

static void json_summary(const struct summary *summary, const struct stick *stick)
{
    const int64_t *figures = has_figures(stick) ? summary->figures : NULL;
    begin_json(stick->name);
    json_answer(stick, COMPLETE);
    json_season(&summary->season);
    json_readings(&summary->season, figures);
    json_target(&summary->season, summary->season.settings.target, figures);
    json_units(summary, stick);
    json_inverters(summary, stick);
    end_json();
}

static int show_summary(const struct job *job, const struct stick *stick)
{
    struct summary *summary = job->to;
    int outcome = summarize(summary, stick);
    if (outcome == COMPLETE && job->is_json)
        json_summary(summary, stick);
    else if (outcome == COMPLETE)
        print_summary(summary, stick);
    return outcome;
}

/* Of two words the second is a result, unless it begins like a stick. For programs all words are sticks. */
static int has_result(const struct call *call)
{
    return call->count == 2 && !(call->options & JSON) && !is_stick_file(call->words[1]);
}

int summary_command(const struct call *call)
{
    static struct summary summary;
    struct job job = {.show = show_summary, .to = &summary, .is_json = (call->options & JSON) != 0};
    struct stick stick;
    if (!has_result(call))
        return each_file(call->count, call->words, &job);
    int outcome = open_result(&stick, call->words[0], call->words[1]);
    if (outcome != COMPLETE)
        return outcome;
    outcome = show_summary(&job, &stick);
    free_kept(&stick);
    return outcome;
}
