/* How times grow: with the steps and with the units of a run, and with the bytes of a check. Each is timed at eight
** points in turn, and the straight line nearest to their times is shown, with how far they lie from it. The stores of
** these seasons outlast them, so that no step of a year is easier than those before it.
*/
#include <stdio.h>

#include "bench.h"

#define POINTS 8

/* Fifty days of hours. */
#define DAYS 1200

/* What the points are of: each makes its file and compares the answers. */
struct growth {
    const char *over, *slope_of;
    int (*prepare)(int point, double *x);
    double part; /* the slope is shown in nanoseconds by this */
    int count; /* of the calls, whose names and times these are */
    const char *names[MOST_CALLS];
    double (*calls[MOST_CALLS])(void);
};

/* Eight units over 50 days and up to 400. */
static int more_steps(int point, double *x)
{
    struct season season = {.units = 8, .mode = 1, .steps = DAYS * (uint32_t)(point + 1), .deep = 1};
    *x = season.steps;
    return same_results(season);
}

/* From 8 units to 64 over 100 days. */
static int more_units(int point, double *x)
{
    struct season season = {.units = 8 * (point + 1), .mode = 1, .steps = 2 * DAYS, .deep = 1};
    *x = season.units;
    return same_results(season);
}

/* The largest file of powers, and from an eighth of its steps on. */
static int more_bytes(int point, double *x)
{
    struct answer right = make_complete(POWERS, YB_MOST_STEPS / POINTS * (uint32_t)(point + 1));
    *x = (double)right.place;
    return same_answers(right);
}

/* The line of one call through its medians, or through its least times. */
static struct line line_of(const double x[], struct rounds rounds[POINTS][MOST_CALLS], int call,
    double (*figure)(struct rounds))
{
    double y[POINTS];
    for (int point = 0; point < POINTS; point++)
        y[point] = figure(rounds[point][call]);
    return line_through(POINTS, x, y);
}

static void show_line(const struct growth *growth, struct line line)
{
    printf("  |  %9.3f  %9.1f  %8.2f", line.slope / growth->part, line.start / 1000, line.farthest);
}

static int show_one_growth(const struct growth *growth)
{
    static struct rounds rounds[POINTS][MOST_CALLS];
    double x[POINTS];
    for (int round = 0; round < ROUNDS; round++)
        for (int point = 0; point < POINTS; point++) {
            if (!growth->prepare(point, &x[point]))
                return 0;
            measure_once(growth->count, growth->calls, round, rounds[point]);
        }
    for (int call = 0; call < growth->count; call++) {
        printf("%7.0f to %7.0f %-6s  %-11s  %-5s", x[0], x[POINTS - 1], growth->over, growth->slope_of,
            growth->names[call]);
        show_line(growth, line_of(x, rounds, call, median_of));
        show_line(growth, line_of(x, rounds, call, least_of));
        printf("\n");
    }
    fflush(stdout);
    return 1;
}

static const struct growth growths[] = {
    {"steps", "step", more_steps, 1, 3, {"run", "fed", "Rust"}, {time_run, time_fed_run, time_ref_run}},
    {"units", "unit's step", more_units, 2 * DAYS, 3, {"run", "fed", "Rust"}, {time_run, time_fed_run, time_ref_run}},
    {"bytes", "byte", more_bytes, 1, 2, {"check", "Rust"}, {time_check, time_ref_check}},
};

int show_growth(void)
{
    int right = 1;
    printf("\nGrowth: the straight line through the times at %d points, by their medians of %d rounds and by their\n"
        "least times: ns for each further step, unit's step and byte; where the line begins, in us; and how far the\n"
        "farthest point lies from it, in parts in a hundred.\n\n", POINTS, ROUNDS);
    printf("%45s  |  %-30s  |  least\n", "", "median");
    printf("%-25s  %-11s  %-5s", "over", "slope is of", "");
    for (int i = 0; i < 2; i++)
        printf("  |  %9s  %9s  %8s", "slope", "start", "farthest");
    printf("\n");
    for (size_t i = 0; i < sizeof growths / sizeof growths[0]; i++)
        right &= show_one_growth(&growths[i]);
    return right;
}
