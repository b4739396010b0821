/* import peak: a season at one target after another, a line for each, so that a planner sees which peak can be
** held. Each line's figures are the library's.
*/
#define _POSIX_C_SOURCE 200809L /* for clock_gettime */
#include <stdlib.h>
#include <string.h>
#include <time.h>

#include "import_files.h"
#include "import_help.h"
#include "import_options.h"
#include "import_sweep.h"

enum { PEAK_COLUMNS = 8 };

/* A season's targets, the figures of each, and which of them is the best that held, or -1. The sweep is the
** caller's, or chosen for each stick.
*/
struct peak {
    struct sweep asked, sweep;
    struct season season;
    int count, best;
    int32_t targets[MOST_LINES + 1];
    int64_t figures[MOST_LINES + 1][YB_FIGURES];
};

/* A target held if no step is outside by its net measure. Where there is none, nobody can say. */
static int held(const struct peak *peak, int which)
{
    return has_net(&peak->season, peak->figures[which]) && peak->figures[which][YB_FIGURE_NET_OUTSIDE] == 0;
}

/* A low target asks the more of a fleet that shaves a peak; a high one of a fleet that charges, and of one that
** supports, whose need is the measure with the target added.
*/
static int is_highest_best(const struct peak *peak)
{
    return is_charging(peak->season.settings.mode) || peak->season.settings.mode == YB_SUPPORT;
}

static void find_best(struct peak *peak)
{
    peak->best = -1;
    for (int i = 0; i < peak->count; i++)
        if (held(peak, i) && (peak->best < 0 || is_highest_best(peak)))
            peak->best = i;
}

/* Whether one that asks less of the fleet than the best did not hold. */
static int has_gap(const struct peak *peak)
{
    for (int i = 0; i < peak->count && peak->best >= 0; i++)
        if ((is_highest_best(peak) ? i < peak->best : i > peak->best) && !held(peak, i))
            return 1;
    return 0;
}

static double now(void)
{
    struct timespec time;
    return clock_gettime(CLOCK_MONOTONIC, &time) == 0 ? (double)time.tv_sec + 1e-9 * (double)time.tv_nsec : 0;
}

/* From a second on a line says how far it is. */
static void targets_progress(double began, int done, int all)
{
    char text[PROGRESS];
    if (now() - began < 1)
        return;
    snprintf(text, sizeof text, "%d of %d targets", done, all);
    show_progress(text);
}

/* The sweep of a stick, and the figures of each of its targets. */
static int try_targets(struct peak *peak, const struct stick *stick)
{
    double began = now();
    int64_t own[YB_FIGURES];
    int outcome = ask_season(&peak->season, stick);
    peak->sweep = peak->asked;
    if (outcome == COMPLETE && peak->sweep.step == 0)
        outcome = ask_figures(own, stick, peak->season.settings.target);
    if (outcome == COMPLETE && peak->sweep.step == 0)
        outcome = choose_sweep(&peak->sweep, &peak->season, own);
    if (outcome == COMPLETE)
        peak->count = sweep_targets(peak->targets, &peak->sweep, peak->season.settings.target);
    end_progress();
    for (int i = 0; i < peak->count && outcome == COMPLETE; i++) {
        outcome = ask_figures(peak->figures[i], stick, peak->targets[i]);
        targets_progress(began, i + 1, peak->count);
    }
    end_progress();
    find_best(peak);
    return outcome;
}

/* The marks stand before the target. */
static void target_text(char *text, const struct peak *peak, int which)
{
    char number[CELL];
    thousandths_text(number, peak->targets[which]);
    snprintf(text, CELL, "%s%s%.32s", which == peak->best ? "held " : "",
        peak->targets[which] == peak->season.settings.target ? "own " : "", number);
}

static void line_texts(row cells, const struct peak *peak, int which)
{
    const int64_t *figures = peak->figures[which];
    int charges = is_charging(peak->season.settings.mode);
    target_text(cells[0], peak, which);
    thousandths_text(cells[1], figures[charges ? YB_FIGURE_NET_LEAST : YB_FIGURE_NET_MOST]);
    signed_text(cells[2], figures[charges ? YB_FIGURE_NET_LEAST_STEP : YB_FIGURE_NET_MOST_STEP]);
    signed_text(cells[3], figures[YB_FIGURE_NET_OUTSIDE]);
    for (int k = 1; k < 4 && !has_net(&peak->season, figures); k++)
        strcpy(cells[k], "-");
    kwh_text(cells[4], (large)figures[YB_FIGURE_STORE]);
    signed_text(cells[5], figures[YB_FIGURE_STORE_STEP]);
    for (int k = 4; k < 6 && figures[YB_FIGURE_STEPS] == 0; k++)
        strcpy(cells[k], "-");
    kwh_text(cells[6], loss_of(figures));
    signed_text(cells[7], figures[YB_FIGURE_NOT_MET]);
}

static void print_lines(const struct peak *peak)
{
    static row rows[MOST_LINES + 2];
    unsigned mode = peak->season.settings.mode;
    const char *const heading[PEAK_COLUMNS] = {is_by_current(mode) ? "target_A" : "target_kW",
        is_charging(mode) ? "net_least_kW" : "net_most_kW", AT_STEP,
        mode == YB_SUPPORT ? "outside" : is_charging(mode) ? "below" : "above", "low_kWh", AT_STEP, "loss_kWh",
        "not_met"};
    begin_rows(rows, heading, PEAK_COLUMNS, 0);
    for (int i = 0; i < peak->count; i++)
        line_texts(rows[i + 1], peak, i);
    print_blocks(rows, (unsigned)peak->count + 1, PEAK_COLUMNS);
}

/* What a step is that is outside, as a sentence ends. */
static const char *outside_words(unsigned mode)
{
    if (mode == YB_SUPPORT)
        return "above 0 together with it by more than half the band";
    return is_charging(mode) ? "below it by more than half the band" : "above it by more than half the band";
}

/* What the marks mean, and what it means where none held. */
static void print_held(const struct peak *peak)
{
    const char *words = outside_words(peak->season.settings.mode);
    if (peak->best < 0) {
        printf("None of these targets held: at each there is a step whose measure less the fleet's power is\n%s.\n"
            "%s targets may hold: FROM TO STEP names those to be tried.\n", words,
            is_highest_best(peak) ? "Lower" : "Higher");
        return;
    }
    printf("held  the %s of these targets that held: in no step is the measure less the fleet's power\n      %s\n",
        is_highest_best(peak) ? "highest" : "lowest", words);
    if (has_gap(peak))
        printf("      Not every %s one held: look at each before you choose.\n",
            is_highest_best(peak) ? "lower" : "higher");
}

static int has_own(const struct peak *peak)
{
    for (int i = 0; i < peak->count; i++)
        if (peak->targets[i] == peak->season.settings.target)
            return 1;
    return 0;
}

static void print_notes(const struct peak *peak)
{
    int is_net = has_net(&peak->season, peak->figures[0]);
    putchar('\n');
    if (is_net)
        print_held(peak);
    if (has_own(peak))
        printf("own   the target that the stick itself has\n");
    printf("Steps are counted from 0, as in the files: at_step 0 is the 1st row.\n");
    if (is_net)
        print_net_meaning();
    else if (!has_measure(peak->figures[0]))
        printf("No step has a reading: there is no peak to hold.\n");
    else
        print_no_net();
}

static void print_peak(const struct peak *peak)
{
    print_answer(peak->season.stick);
    print_season(&peak->season);
    if (has_measure(peak->figures[0]))
        print_peak_of(&peak->season, peak->figures[0]);
    print_lines(peak);
    print_notes(peak);
}

static void json_truth_of(const char *key, int is_known, int is_so)
{
    if (is_known)
        json_truth(key, is_so);
    else
        json_null(key);
}

static void json_targets(const struct peak *peak)
{
    json_open_list("targets");
    for (int i = 0; i < peak->count; i++) {
        json_open(NULL);
        json_target(&peak->season, peak->targets[i], peak->figures[i]);
        json_truth_of("held", has_net(&peak->season, peak->figures[i]), held(peak, i));
        json_close();
    }
    json_close_list();
}

static void json_peak(const struct peak *peak)
{
    const struct season *season = &peak->season;
    int is_current = is_by_current(season->settings.mode);
    begin_json(season->stick->name);
    json_answer(season->stick, COMPLETE);
    json_season(season);
    json_number(is_current ? "own_target_mA" : "own_target_W", season->settings.target);
    json_readings(season, peak->figures[0]);
    if (peak->best < 0)
        json_null(is_current ? "held_target_mA" : "held_target_W");
    else
        json_number("held_target_W", peak->targets[peak->best]);
    json_targets(peak);
    end_json();
}

static int show_peak(const struct job *job, const struct stick *stick)
{
    struct peak *peak = job->to;
    int outcome = try_targets(peak, stick);
    if (outcome == COMPLETE && job->is_json)
        json_peak(peak);
    else if (outcome == COMPLETE)
        print_peak(peak);
    return outcome;
}

/* Take the whole numbers out of the words that stood before a --; gives how many they are, of which there is room for
** three.
*/
static int take_numbers(int64_t *numbers, int *files, const struct call *call)
{
    int count = 0;
    *files = 0;
    for (int i = 0; i < call->count; i++)
        if (i >= call->plain || !is_whole_number(call->words[i]))
            call->words[(*files)++] = call->words[i];
        else if (count++ < 3)
            numbers[count - 1] = strtoll(call->words[i], NULL, 10);
    return count;
}

/* What is wrong with the three, or NULL. A number that is too large for its type is so for its range too. */
static const char *wrong_sweep(const struct sweep *sweep)
{
    if (sweep->from < -YB_MOST_POWER || sweep->to > YB_MOST_POWER)
        return "FROM and TO are targets, -100,000,000 to 100,000,000 W, or mA for sticks by current";
    if (sweep->from > sweep->to)
        return "FROM is above TO";
    if (sweep->step < 1)
        return "STEP is at least 1";
    if (sweep_lines(sweep) > MOST_LINES)
        return "FROM TO STEP make more than 10,000 lines; take a larger STEP";
    return NULL;
}

int peak_command(const struct call *call)
{
    static struct peak peak;
    struct job job = {.show = show_peak, .to = &peak, .is_json = (call->options & JSON) != 0, .is_of_whole = 1};
    int64_t numbers[3] = {0};
    int files, count = take_numbers(numbers, &files, call);
    if (files == 0)
        return wrong_call("peak needs a FILE or several; a file whose name is a whole number comes behind --");
    if (count != 0 && count != 3)
        return wrong_call("peak needs FROM, TO and STEP, three whole numbers, or none of them");
    peak.asked = (struct sweep){.from = numbers[0], .to = numbers[1], .step = numbers[2]};
    if (count == 3 && wrong_sweep(&peak.asked) != NULL)
        return wrong_call(wrong_sweep(&peak.asked));
    return each_file(files, call->words, &job);
}
