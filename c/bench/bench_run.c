/* The run of a year, whole and fed in chunks, beside the quick one; and the verdict on its result, beside the run. All
** of them take in the check of the file.
*/
#include <inttypes.h>
#include <stdio.h>
#include <stdlib.h>
#include <string.h>

#include "bench.h"

#define MOST_ROOM ((RECORD * YB_MOST_UNITS + SOLAR * YB_MOST_INVERTERS) * YEAR + 7)

/* The chunks of a fed run, and room for its state. */
#define CHUNK 65536
#define MOST_STATE 65536

/* The room that is lent to a run, and the result that the archive left in it. */
static uint8_t room[MOST_ROOM], kept[MOST_ROOM];
static size_t room_len;

typedef uint32_t run_call(const uint8_t *file, size_t len, uint8_t *room, size_t room_len);

/* The run of the archive, fed in chunks; called like the others. */
static uint32_t feed_run(const uint8_t *bytes, size_t len, uint8_t *results, size_t results_len)
{
    static uint8_t state[MOST_STATE];
    size_t size = (size_t)yb_feed_size();
    if (size > sizeof state)
        give_up("a state is larger than it was");
    uint32_t number = yb_feed_start(state, size);
    for (size_t at = 0; at < len && number == 0; at += CHUNK) {
        uint64_t written = 0;
        number = yb_feed(state, size, bytes + at, len - at < CHUNK ? len - at : CHUNK, results, results_len, &written);
        results += written;
        results_len -= (size_t)written;
    }
    uint64_t written;
    return number != 0 ? number : yb_feed_end(state, size, results, results_len, &written);
}

/* 1 if a run is accepted and leaves the result that is kept, else 0 and a line that says what it did. */
static int leaves_the_same(const char *whose, run_call *run, struct season season)
{
    memset(room, 0, room_len);
    uint32_t number = run(file, file_len, room, room_len);
    size_t at = 0;
    while (at < room_len && room[at] == kept[at])
        at++;
    if (number == 0 && at == room_len)
        return 1;
    printf("WRONG: %s of %d units and %d inverters in mode %d: its number is %" PRIu32
        ", and its result is the archive's up to byte %zu of %zu\n",
        whose, season.units, season.inverters, season.mode, number, at, room_len);
    return 0;
}

int same_results(struct season season)
{
    make_season(season);
    room_len = result_bytes(season);
    memset(kept, 0, room_len);
    uint32_t number = yb_run(file, file_len, kept, room_len);
    if (number != 0)
        printf("WRONG: the run of %d units and %d inverters in mode %d is refused: %" PRIu32 "\n",
            season.units, season.inverters, season.mode, number);
    int fed_same = leaves_the_same("the fed run", feed_run, season);
    return leaves_the_same("the Rust's run", ref_run, season) && fed_same && number == 0;
}

/* Every run finds the same room, cleared, and must leave the same result again. */
static double time_one_run(run_call *run)
{
    memset(room, 0, room_len);
    double start = now();
    uint32_t number = run(file, file_len, room, room_len);
    double end = now();
    if (number != 0 || memcmp(room, kept, room_len) != 0) {
        printf("WRONG: a run that was right was not right when it was timed\n");
        exit(1);
    }
    return end - start;
}

double time_run(void)
{
    return time_one_run(yb_run);
}

double time_fed_run(void)
{
    return time_one_run(feed_run);
}

double time_ref_run(void)
{
    return time_one_run(ref_run);
}

/* The verdict on the archive's own result, which is right. */
static double time_partner(void)
{
    uint8_t verdict = 1;
    uint64_t shown = 0, len = 0;
    double start = now();
    uint32_t number = yb_partner(file, file_len, kept, room_len, &verdict, &shown, &len);
    double end = now();
    if (number != 0 || verdict != YB_RIGHT) {
        printf("WRONG: the archive's own result is not right\n");
        exit(1);
    }
    return end - start;
}

/* The planner's figures of the file at hand, which must come out the same every time. */
static int64_t figures[YB_FIGURES], right_figures[YB_FIGURES];
static int32_t target;

static uint32_t peaks(void)
{
    return yb_peaks(file, file_len, target, figures, YB_FIGURES);
}

static double time_peaks(void)
{
    memset(figures, 0, sizeof figures);
    double start = now();
    uint32_t number = peaks();
    double end = now();
    if (number != 0 || memcmp(figures, right_figures, sizeof figures) != 0) {
        printf("WRONG: figures that were right were not right when they were timed\n");
        exit(1);
    }
    return end - start;
}

static uint64_t stored_in(const uint8_t *record)
{
    uint64_t stored = 0;
    for (int i = 24; i < 32; i++)
        stored = stored << 8 | record[i];
    return stored;
}

static int asked_in(const uint8_t *record)
{
    return (record[8] | record[9] | record[10] | record[11]) != 0;
}

/* What the year was like: of all records of units after the first step's, the parts in a hundred where the store fell,
** where it rose, where it did neither though the unit was asked, and where the unit was not asked; and of all records
** of inverters those where it was on.
*/
static void show_year(struct season season)
{
    size_t step = step_bytes(season), out = 0, in = 0, dry = 0, idle = 0, on = 0;
    size_t all = (size_t)season.units * (season.steps - 1), solar = (size_t)season.inverters * (season.steps - 1);
    for (const uint8_t *at = kept + step; at < kept + room_len - 7; at += step) {
        for (const uint8_t *record = at; record < at + RECORD * season.units; record += RECORD) {
            uint64_t before = stored_in(record - step), after = stored_in(record);
            out += after < before;
            in += after > before;
            dry += after == before && asked_in(record);
            idle += !asked_in(record);
        }
        for (const uint8_t *record = at + RECORD * season.units; record < at + step; record += SOLAR)
            on += record[8];
    }
    printf("  |  %3zu  %3zu  %3zu  %4zu  %3zu", 100 * out / all, 100 * in / all, 100 * dry / all, 100 * idle / all,
        solar == 0 ? 0 : 100 * on / solar);
}

static void show_season(struct season season)
{
    static const char *const leads[] = {"own", "by S", "by rest"};
    printf("%5d  %9d  %4d  %5s  %7s", season.units, season.inverters, season.mode,
        season.vars_first ? "first" : "mixed", leads[season.lead]);
}

static int show_run(struct season season)
{
    static double (*const calls[])(void) = {time_run, time_fed_run, time_ref_run};
    struct rounds rounds[MOST_CALLS];
    if (!same_results(season))
        return 0;
    measure(3, calls, rounds);
    double steps = (double)(season.units + season.inverters) * season.steps;
    show_season(season);
    show_year(season);
    printf("  |  %6.1f  %6.1f  %6.1f", median_of(rounds[0]) / steps, median_of(rounds[1]) / steps,
        median_of(rounds[2]) / steps);
    show_ratio(ratio_of(rounds[0], rounds[2]));
    show_ratio(ratio_of(rounds[1], rounds[2]));
    printf("\n");
    fflush(stdout);
    return 1;
}

/* The years that are run. */
static const struct season years[] = {
    {.units = 1, .mode = 1, .steps = YEAR},
    {.units = 8, .mode = 1, .steps = YEAR},
    {.units = 64, .mode = 1, .steps = YEAR},
    {.units = 1, .mode = 3, .steps = YEAR},
    {.units = 8, .mode = 3, .steps = YEAR},
    {.units = 64, .mode = 3, .steps = YEAR},
    {.units = 1, .mode = 4, .steps = YEAR},
    {.units = 8, .mode = 4, .steps = YEAR},
    {.units = 64, .mode = 4, .steps = YEAR},
    {.units = 1, .mode = 1, .vars_first = 1, .steps = YEAR},
    {.units = 8, .mode = 1, .vars_first = 1, .steps = YEAR},
    {.units = 64, .mode = 1, .vars_first = 1, .steps = YEAR},
    {.units = 1, .inverters = 1, .mode = 1, .steps = YEAR},
    {.units = 8, .inverters = 8, .mode = 1, .steps = YEAR},
    {.units = 64, .inverters = 64, .mode = 1, .steps = YEAR},
    {.units = 8, .inverters = 8, .mode = 1, .lead = BY_RATING, .steps = YEAR},
    {.units = 8, .inverters = 8, .mode = 1, .lead = BY_WHAT_WATTS_LEAVE, .steps = YEAR},
    {.units = 64, .inverters = 64, .mode = 3, .lead = BY_RATING, .steps = YEAR},
};

int show_runs(void)
{
    int right = 1;
    printf("\nThe run of %d steps, the check of the file included: ns for each step of a unit or an inverter, medians\n"
        "of %d rounds, of the archive's run, of the same fed in chunks of %d bytes, and of the quick Rust's, which\n"
        "has the whole file; the ratios are of the first two to the third.\n", YEAR, ROUNDS, CHUNK);
    printf("Out, in, dry and idle are the parts in a hundred of the year in which a unit gave, took, was asked and\n"
        "could do neither, and was not asked; on, those in which an inverter was on. Where vars come first, at every\n"
        "unit, the circle leaves the watts less than most requests. They are a unit's own, or led by a voltage, in\n"
        "parts of the rating S or of the rest that the watts leave of it.\n\n");
    printf("%5s  %9s  %4s  %5s  %7s  |  %3s  %3s  %3s  %4s  %3s  |  %6s  %6s  %6s", "units", "inverters", "mode",
        "vars", "led", "out", "in", "dry", "idle", "on", "run", "fed", "Rust");
    show_ratio_heading("run");
    show_ratio_heading("fed");
    printf("\n");
    for (size_t i = 0; i < sizeof years / sizeof years[0]; i++)
        right &= show_run(years[i]);
    return right;
}

/* The verdict on a year's result, and the run. */
static int show_verdict(struct season season)
{
    static double (*const calls[])(void) = {time_partner, time_run};
    struct rounds rounds[MOST_CALLS];
    if (!same_results(season))
        return 0;
    measure(2, calls, rounds);
    double steps = (double)(season.units + season.inverters) * season.steps;
    printf("%5d  %9d  %8zu  |  %7.1f  %6.1f", season.units, season.inverters, room_len, median_of(rounds[0]) / steps,
        median_of(rounds[1]) / steps);
    show_ratio(ratio_of(rounds[0], rounds[1]));
    printf("\n");
    fflush(stdout);
    return 1;
}

int show_verdicts(void)
{
    static const int fleets[] = {1, 8, 64}, roofs[] = {8, 64};
    int right = 1;
    printf("\nThe archive's verdict on the right result of %d steps, of so many bytes, and the run that writes it: ns\n"
        "for each step of a unit or an inverter, medians of %d rounds, and the ratio.\n\n", YEAR, ROUNDS);
    printf("%5s  %9s  %8s  |  %7s  %6s", "units", "inverters", "bytes", "verdict", "run");
    show_ratio_heading("ratio");
    printf("\n");
    for (size_t i = 0; i < sizeof fleets / sizeof fleets[0]; i++)
        right &= show_verdict((struct season){.units = fleets[i], .mode = 1, .steps = YEAR});
    for (size_t i = 0; i < sizeof roofs / sizeof roofs[0]; i++)
        right &= show_verdict((struct season){.units = roofs[i], .inverters = roofs[i], .mode = 1, .steps = YEAR});
    return right;
}

/* The figures of a year, and the run. */
static int show_figures(struct season season)
{
    static double (*const calls[])(void) = {time_peaks, time_run};
    struct rounds rounds[MOST_CALLS];
    if (!same_results(season))
        return 0;
    target = (int32_t)season_target(season);
    if (peaks() != 0 || figures[YB_FIGURE_STEPS] != (int64_t)season.steps) {
        printf("WRONG: the figures of %d units in mode %d are refused, or are not of all steps\n", season.units, season.mode);
        return 0;
    }
    memcpy(right_figures, figures, sizeof figures);
    measure(2, calls, rounds);
    double steps = (double)season.units * season.steps;
    show_season(season);
    printf("  |  %7.1f  %6.1f", median_of(rounds[0]) / steps, median_of(rounds[1]) / steps);
    show_ratio(ratio_of(rounds[0], rounds[1]));
    printf("\n");
    fflush(stdout);
    return 1;
}

int show_peaks(void)
{
    static const struct season seasons[] = {
        {.units = 1, .mode = 1, .steps = YEAR},
        {.units = 8, .mode = 1, .steps = YEAR},
        {.units = 64, .mode = 1, .steps = YEAR},
        {.units = 64, .mode = 3, .steps = YEAR},
        {.units = 64, .mode = 4, .steps = YEAR},
        {.units = 8, .mode = 1, .lead = BY_RATING, .steps = YEAR},
        {.units = 8, .mode = 1, .lead = BY_WHAT_WATTS_LEAVE, .steps = YEAR},
    };
    int right = 1;
    printf("\nThe planner's figures of a season of %d steps at its own target, and its run: ns for each step of a unit,\n"
        "medians of %d rounds, and the ratio.\n\n", YEAR, ROUNDS);
    printf("%5s  %9s  %4s  %5s  %7s  |  %7s  %6s", "units", "inverters", "mode", "vars", "led", "figures", "run");
    show_ratio_heading("ratio");
    printf("\n");
    for (size_t i = 0; i < sizeof seasons / sizeof seasons[0]; i++)
        right &= show_figures(seasons[i]);
    return right;
}
