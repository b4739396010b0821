/* The figures of a season: asked of the library, and told in words. A figure that cannot be about the stick is a fault.
*/
#include <inttypes.h>
#include <string.h>

#include "import_figures.h"

int ask_season(struct season *season, const struct stick *stick)
{
    season->stick = stick;
    season->seconds = yb_seconds(stick->head, stick->head_len);
    return season->seconds != 0 ? ask_settings(&season->settings, stick) : fault(stick->name);
}

int has_figures(const struct stick *stick)
{
    return stick->len <= YB_MOST_FILE_BYTES;
}

int is_charging(unsigned mode)
{
    return mode == YB_PEAK_SHAVE_LOW || mode == YB_I_PEAK_SHAVE_LOW;
}

int has_measure(const int64_t *figures)
{
    return figures[YB_FIGURE_MISSING] < figures[YB_FIGURE_STEPS];
}

int has_net(const struct season *season, const int64_t *figures)
{
    return has_measure(figures) && !is_by_current(season->settings.mode);
}

large loss_of(const int64_t *figures)
{
    return (large)figures[YB_FIGURE_LOSS_MJ] * 1000000 + (large)figures[YB_FIGURE_LOSS_J];
}

/* The most that a measure can be with all that the largest fleet can draw. */
#define MOST_NET (YB_MOST_MEASURE + YB_MOST_UNITS * ((int64_t)YB_MOST_POWER + YB_MOST_IDLE_LOSS))

/* Whether a smallest and a largest can be: in their range, and at steps that there are. */
static int are_ends(const int64_t *least, const int64_t *most, int64_t size, int64_t steps)
{
    int64_t last = steps == 0 ? 0 : steps - 1;
    return least[0] >= -size && least[0] <= most[0] && most[0] <= size && least[1] >= 0 && least[1] <= last &&
        most[1] >= 0 && most[1] <= last;
}

/* Whether figures can be about so many steps: counts are of these, and numbers in their ranges. */
static int are_about(const int64_t *figures, int64_t steps)
{
    static const int counts[] = {YB_FIGURE_MISSING, YB_FIGURE_OUTSIDE, YB_FIGURE_NET_OUTSIDE, YB_FIGURE_NOT_MET};
    const int64_t *store = figures + YB_FIGURE_STORE;
    for (size_t i = 0; i < sizeof counts / sizeof counts[0]; i++)
        if (figures[counts[i]] < 0 || figures[counts[i]] > steps)
            return 0;
    return figures[YB_FIGURE_STEPS] == steps &&
        are_ends(figures + YB_FIGURE_LEAST, figures + YB_FIGURE_MOST, YB_MOST_MEASURE, steps) &&
        are_ends(figures + YB_FIGURE_NET_LEAST, figures + YB_FIGURE_NET_MOST, MOST_NET, steps) &&
        are_ends(store, store, YB_MOST_UNITS * (int64_t)YB_MOST_RATED, steps) && store[0] >= 0 &&
        figures[YB_FIGURE_LOSS_MJ] >= 0 && figures[YB_FIGURE_LOSS_J] >= 0 && figures[YB_FIGURE_LOSS_J] <= 999999;
}

int ask_figures_of(int64_t *figures, const uint8_t *file, size_t len, uint32_t steps, int32_t target)
{
    return yb_peaks(file, len, target, figures, YB_FIGURES) == 0 && are_about(figures, steps);
}

int ask_figures(int64_t *figures, const struct stick *stick, int32_t target)
{
    return ask_figures_of(figures, stick->kept, (size_t)stick->len, stick->steps, target) ? COMPLETE :
        fault(stick->name);
}

const char *measure_unit(const struct season *season)
{
    return is_by_current(season->settings.mode) ? "A" : "kW";
}

/* Seconds in the words that they fill: "1 day 30 min". */
static void print_time(uint64_t seconds)
{
    static const struct {
        uint64_t seconds;
        const char *one, *many;
    } parts[] = {{86400, "day", "days"}, {3600, "h", "h"}, {60, "min", "min"}, {1, "s", "s"}};
    const char *before = "";
    if (seconds == 0)
        printf("0 s");
    for (size_t i = 0; i < sizeof parts / sizeof parts[0]; i++) {
        uint64_t count = seconds / parts[i].seconds;
        if (count == 0)
            continue;
        printf("%s", before);
        print_commas(count);
        printf(" %s", count == 1 ? parts[i].one : parts[i].many);
        seconds %= parts[i].seconds;
        before = " ";
    }
}

static void print_steps(const struct season *season)
{
    uint32_t seconds = season->seconds, steps = season->stick->steps;
    print_many(steps, "step", " of ", " of ");
    print_commas(seconds);
    printf(" s");
    if (seconds >= 60) {
        printf(" (");
        print_time(seconds);
        printf(")");
    }
    printf(", ");
    print_time((uint64_t)seconds * steps);
    putchar('\n');
}

/* A plan of the older model is told from others, for its power and energy are not to be read beside theirs. */
void print_season(const struct season *season)
{
    const struct settings *settings = &season->settings;
    const char *unit = measure_unit(season);
    char target[CELL], band[CELL];
    print_many(season->stick->units, "unit", ", ", ", ");
    if (season->stick->inverters != 0)
        print_many(season->stick->inverters, "inverter", ", ", ", ");
    print_steps(season);
    thousandths_text(target, settings->target);
    thousandths_text(band, settings->band);
    printf("mode %u%s, target %s %s, band %s %s, factor ", (unsigned)settings->mode, mode_name(settings->mode), target,
        unit, band, unit);
    print_commas(settings->factor);
    printf(" thousandths\n");
    if (edition_of(season->stick) == OLDER_MODEL_EDITION)
        printf("older storage model (edition 3): idle loss at the grid\n");
}

/* How many steps something is said of. */
static void print_count(int64_t steps)
{
    if (steps == 0)
        printf("    no step is ");
    else
        printf("    "), print_many((uint64_t)steps, "step", " is ", " are ");
}

/* Where it begins to be outside: half a band beyond the target, which may be half a watt more than a whole one. */
static void print_limit(const struct season *season)
{
    const struct settings *settings = &season->settings;
    int64_t target = settings->mode == YB_SUPPORT ? -(int64_t)settings->target : settings->target;
    int64_t twice = 2 * target + (is_charging(settings->mode) ? -(int64_t)settings->band : settings->band);
    char text[CELL];
    thousandths_text(text, (twice < 0 ? -twice : twice) / 2);
    printf("%s %s%s%s %s", is_charging(settings->mode) ? "below" : "above", twice < 0 ? "-" : "", text,
        twice % 2 != 0 ? "5" : "", measure_unit(season));
}

/* The smallest or the largest of something, with its step. */
static void print_end(const struct season *season, const char *which, int width, const int64_t *figure)
{
    char text[CELL];
    thousandths_text(text, figure[0]);
    printf("    %s  %*s %s at ", which, width, text, measure_unit(season));
    print_the_step((uint32_t)figure[1]);
    putchar('\n');
}

void print_peak_of(const struct season *season, const int64_t *figures)
{
    int charges = is_charging(season->settings.mode);
    const int64_t *figure = figures + (charges ? YB_FIGURE_LEAST : YB_FIGURE_MOST);
    char text[CELL];
    thousandths_text(text, figure[0]);
    printf("%s measure %s %s at ", charges ? "smallest" : "largest", text, measure_unit(season));
    print_the_step((uint32_t)figure[1]);
    putchar('\n');
}

/* Both of them, in one column. */
static void print_ends(const struct season *season, const int64_t *least, const int64_t *most)
{
    char one[CELL], other[CELL];
    thousandths_text(one, least[0]);
    thousandths_text(other, most[0]);
    int width = (int)(strlen(one) > strlen(other) ? strlen(one) : strlen(other));
    print_end(season, "smallest", width, least);
    print_end(season, "largest ", width, most);
}

static void print_measure(const struct season *season, const int64_t *figures)
{
    static const char *const by[] = {"above the target by more than half the band: ",
        "below the target by more than half the band: "};
    printf("\nThe measure, as the meter logged it; ");
    if (figures[YB_FIGURE_MISSING] == 0)
        printf("no reading is missing\n");
    else
        print_many((uint64_t)figures[YB_FIGURE_MISSING], "reading", " is missing\n", " are missing\n");
    if (!has_measure(figures)) {
        printf("    No step has a reading: there is no smallest and no largest.\n");
        return;
    }
    print_ends(season, figures + YB_FIGURE_LEAST, figures + YB_FIGURE_MOST);
    print_count(figures[YB_FIGURE_OUTSIDE]);
    printf("%s", season->settings.mode == YB_SUPPORT ? "above 0 together with the target by more than half the band: " :
        by[is_charging(season->settings.mode)]);
    print_limit(season);
    putchar('\n');
}

void print_no_net(void)
{
    printf("The stick goes by current, so that there is no measure less the fleet's power: this is in watts,\n"
        "and what it takes off the meter's amperes no stick says.\n");
}

void print_net_meaning(void)
{
    printf("The net measure is the measure less the fleet's power: what the meter would have shown with the\n"
        "fleet at work, if the log was taken without it. Of any other log it says nothing.\n");
}

static void print_net(const struct season *season, const int64_t *figures)
{
    if (is_by_current(season->settings.mode)) {
        putchar('\n');
        print_no_net();
        return;
    }
    if (!has_measure(figures))
        return;
    printf("\nThe net measure\n");
    print_ends(season, figures + YB_FIGURE_NET_LEAST, figures + YB_FIGURE_NET_MOST);
    print_count(figures[YB_FIGURE_NET_OUTSIDE]);
    print_limit(season);
    putchar('\n');
    print_net_meaning();
}

void print_figures(const struct season *season, const int64_t *figures)
{
    char store[CELL], loss[CELL];
    print_measure(season, figures);
    print_net(season, figures);
    if (figures[YB_FIGURE_STEPS] == 0)
        return;
    kwh_text(store, (large)figures[YB_FIGURE_STORE]);
    kwh_text(loss, loss_of(figures));
    printf("\nThe fleet\n    lowest store  %s kWh after ", store);
    print_the_step((uint32_t)figures[YB_FIGURE_STORE_STEP]);
    printf("\n    losses        %s kWh\n    not_met       in ", loss);
    if (figures[YB_FIGURE_NOT_MET] == 0) {
        printf("no step: every unit gives or takes what it is asked for\n");
        return;
    }
    print_many((uint64_t)figures[YB_FIGURE_NOT_MET], "step", "", "");
    printf(" some unit gives or takes another power than it is asked for;\n"
        "                  that alone says nothing of the peak\n");
}

void print_no_figures(void)
{
    printf("\nThe smallest and the largest measure cannot be told of a stick that long: the library takes at most\n");
    print_commas(YB_MOST_FILE_BYTES);
    printf(" bytes for them. What follows is all that is there.\n");
}

/* A figure under its key, or nothing. */
static void json_figure(const char *key, const int64_t *figures, int which, int is_there)
{
    if (is_there)
        json_number(key, figures[which]);
    else
        json_null(key);
}

/* A key for W, or by current for mA. */
static const char *key_of(const struct season *season, const char *watts, const char *milliamperes)
{
    return is_by_current(season->settings.mode) ? milliamperes : watts;
}

void json_season(const struct season *season)
{
    const struct settings *settings = &season->settings;
    json_number("seconds", season->seconds);
    json_number("edition", edition_of(season->stick));
    json_number("mode", settings->mode);
    json_number("phase", settings->phase);
    json_number(key_of(season, "band_W", "band_mA"), settings->band);
    json_number("factor_thousandths", settings->factor);
}

void json_readings(const struct season *season, const int64_t *figures)
{
    int is_there = figures != NULL && has_measure(figures);
    json_figure("missing_steps", figures, YB_FIGURE_MISSING, figures != NULL);
    json_figure(key_of(season, "least_W", "least_mA"), figures, YB_FIGURE_LEAST, is_there);
    json_figure("least_step", figures, YB_FIGURE_LEAST_STEP, is_there);
    json_figure(key_of(season, "most_W", "most_mA"), figures, YB_FIGURE_MOST, is_there);
    json_figure("most_step", figures, YB_FIGURE_MOST_STEP, is_there);
}

void json_target(const struct season *season, int32_t target, const int64_t *figures)
{
    int is_there = figures != NULL, has = is_there && has_net(season, figures);
    int has_steps = is_there && figures[YB_FIGURE_STEPS] != 0;
    json_number(key_of(season, "target_W", "target_mA"), target);
    json_figure("outside_steps", figures, YB_FIGURE_OUTSIDE, is_there);
    json_figure("net_least_W", figures, YB_FIGURE_NET_LEAST, has);
    json_figure("net_least_step", figures, YB_FIGURE_NET_LEAST_STEP, has);
    json_figure("net_most_W", figures, YB_FIGURE_NET_MOST, has);
    json_figure("net_most_step", figures, YB_FIGURE_NET_MOST_STEP, has);
    json_figure("net_outside_steps", figures, YB_FIGURE_NET_OUTSIDE, has);
    json_figure("store_least_J", figures, YB_FIGURE_STORE, has_steps);
    json_figure("store_least_step", figures, YB_FIGURE_STORE_STEP, has_steps);
    if (is_there)
        json_large("loss_J", loss_of(figures));
    else
        json_null("loss_J");
    json_figure("not_met_steps", figures, YB_FIGURE_NOT_MET, is_there);
}
