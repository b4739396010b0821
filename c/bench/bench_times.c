/* Rounds of times, and what is made of them. */
#define _POSIX_C_SOURCE 200809L /* for clock_gettime */
#include <math.h>
#include <stdio.h>
#include <stdlib.h>
#include <time.h>

#include "bench.h"

_Noreturn void give_up(const char *why)
{
    fprintf(stderr, "bench: %s\n", why);
    exit(2);
}

double now(void)
{
    struct timespec t;
    if (clock_gettime(CLOCK_PROCESS_CPUTIME_ID, &t) != 0)
        give_up("there is no clock");
    return 1e9 * (double)t.tv_sec + (double)t.tv_nsec;
}

void measure_once(int count, double (*const calls[])(void), int round, struct rounds rounds[])
{
    for (int turn = 0; turn < count; turn++) {
        int call = (turn + round) % count;
        rounds[call].ns[round] = calls[call]();
    }
}

void measure(int count, double (*const calls[])(void), struct rounds rounds[])
{
    for (int round = 0; round < ROUNDS; round++)
        measure_once(count, calls, round, rounds);
}

static int by_size(const void *a, const void *b)
{
    double x = *(const double *)a, y = *(const double *)b;
    return (x > y) - (x < y);
}

static struct rounds sorted(struct rounds rounds)
{
    qsort(rounds.ns, ROUNDS, sizeof *rounds.ns, by_size);
    return rounds;
}

double median_of(struct rounds rounds)
{
    return sorted(rounds).ns[ROUNDS / 2];
}

double least_of(struct rounds rounds)
{
    return sorted(rounds).ns[0];
}

struct ratio ratio_of(struct rounds above, struct rounds below)
{
    struct rounds each;
    for (int round = 0; round < ROUNDS; round++)
        each.ns[round] = above.ns[round] / below.ns[round];
    each = sorted(each);
    return (struct ratio){median_of(above) / median_of(below), each.ns[ROUNDS / 4], each.ns[ROUNDS - 1 - ROUNDS / 4],
        least_of(above) / least_of(below)};
}

struct line line_through(int points, const double x[], const double y[])
{
    double mean_x = 0, mean_y = 0, above = 0, below = 0, farthest = 0;
    for (int i = 0; i < points; i++) {
        mean_x += x[i] / points;
        mean_y += y[i] / points;
    }
    for (int i = 0; i < points; i++) {
        above += (x[i] - mean_x) * (y[i] - mean_y);
        below += (x[i] - mean_x) * (x[i] - mean_x);
    }
    double slope = above / below, start = mean_y - slope * mean_x;
    for (int i = 0; i < points; i++) {
        double there = start + slope * x[i], off = 100 * fabs(y[i] - there) / there;
        farthest = off > farthest ? off : farthest;
    }
    return (struct line){slope, start, farthest};
}

void show_ratio(struct ratio ratio)
{
    printf("  |  %6.3f  %6.3f  %6.3f  %6.3f", ratio.medians, ratio.low, ratio.high, ratio.least);
}

void show_ratio_heading(const char *what)
{
    printf("  |  %6s  %6s  %6s  %6s", what, "low", "high", "least");
}
