/* One step of a unit by the watts that are asked of it, from 100 W to 100,000,000 W, the most that there is. The
** largest watt count that a store allows is found without walking every watt: the time must not grow with them.
**
** The unit is the same in all of a line, but for its store, which goes by the request: it covers ten times of it, or
** an eighth. Each answer is tested by the rule: what is moved is within the store, and that of one watt more is not.
*/
#include <inttypes.h>
#include <stdio.h>

#include "bench.h"

/* The steps that are timed together. */
#define CALLS 4000

#define SECONDS 3600
#define INVERTER 9700
#define CHARGE 9500
#define DISCHARGE 9600
#define IDLE_LOSS 2

/* What is asked, in watts. */
static const int32_t asked[MOST_CALLS] = {100, 10000, 1000000, YB_MOST_POWER};

/* What a line is of. */
struct kind_of_step {
    const char *what;
    int charging, covered, vars_first;
};

static struct kind_of_step kind;

struct outcome {
    uint32_t number;
    int32_t watts, vars;
    uint64_t stored, loss;
};

static uint64_t up(uint64_t a, uint64_t b)
{
    return (a + b - 1) / b;
}

/* The joules that giving so many watts removes, and that taking them adds. */
static uint64_t removed(uint64_t watts)
{
    return up((up(watts * 10000, INVERTER) + IDLE_LOSS) * SECONDS * 10000, DISCHARGE);
}

static uint64_t added(uint64_t watts)
{
    uint64_t dc = watts * INVERTER / 10000;
    return dc <= IDLE_LOSS ? 0 : (dc - IDLE_LOSS) * SECONDS * CHARGE / 10000;
}

/* What the store has to give, or room for. */
static uint64_t at_hand(int32_t watts)
{
    uint64_t all = kind.charging ? added((uint64_t)watts) : removed((uint64_t)watts);
    return kind.covered ? 10 * all : all / 8;
}

static struct outcome step(int32_t watts, uint64_t stored)
{
    struct outcome o;
    o.number = yb_step_as(2, SECONDS, YB_MOST_RATED, 0, stored, YB_MOST_POWER, YB_MOST_POWER, IDLE_LOSS,
        kind.vars_first ? YB_MOST_POWER / 100 * 98 : 0, 100, INVERTER, CHARGE, DISCHARGE, (uint8_t)kind.vars_first,
        YB_MOST_POWER, YB_MOST_POWER, kind.charging ? -watts : watts, &o.watts, &o.vars, &o.stored, &o.loss);
    return o;
}

static uint64_t stored_for(int32_t watts)
{
    return kind.charging ? YB_MOST_RATED - at_hand(watts) : at_hand(watts);
}

/* 1 if the step at a request is right: the largest watt count that there is, and the store that it leaves. */
static int is_right(int32_t watts)
{
    uint64_t stored = stored_for(watts), most = at_hand(watts);
    struct outcome o = step(watts, stored);
    uint64_t size = o.watts < 0 ? 0 - (uint64_t)o.watts : (uint64_t)o.watts;
    uint64_t moved = kind.charging ? o.stored - stored : stored - o.stored;
    uint64_t now_moved = kind.charging ? added(size) : removed(size);
    uint64_t more_moved = kind.charging ? added(size + 1) : removed(size + 1);
    uint64_t top = (uint64_t)watts;
    if (kind.vars_first && top > 19899748) /* the leg beside 98 parts in a hundred of S */
        top = 19899748;
    int right = o.number == 0 && (o.watts < 0) == kind.charging && moved == now_moved && moved <= most && size <= top &&
        (size == top || more_moved > most);
    if (!right)
        printf("WRONG: a step of %" PRId32 " W (%s): number %" PRIu32 ", %" PRId32 " W, %" PRIu64 " J moved of %" PRIu64
            "\n", watts, kind.what, o.number, o.watts, moved, most);
    return right;
}

/* The sums go here, so that no compiler leaves the calls out. */
static volatile uint64_t summed;

static double time_steps(int32_t watts)
{
    uint64_t stored = stored_for(watts), sum = 0;
    double start = now();
    for (int i = 0; i < CALLS; i++)
        sum += step(watts, stored).stored;
    double end = now();
    summed = sum;
    return end - start;
}

static double time_least(void)
{
    return time_steps(asked[0]);
}

static double time_second(void)
{
    return time_steps(asked[1]);
}

static double time_third(void)
{
    return time_steps(asked[2]);
}

static double time_most(void)
{
    return time_steps(asked[3]);
}

static int show_step(struct kind_of_step which)
{
    static double (*const calls[])(void) = {time_least, time_second, time_third, time_most};
    struct rounds rounds[MOST_CALLS];
    kind = which;
    for (int i = 0; i < MOST_CALLS; i++)
        if (!is_right(asked[i]))
            return 0;
    measure(MOST_CALLS, calls, rounds);
    printf("%-32s", kind.what);
    for (int i = 0; i < MOST_CALLS; i++)
        printf("  %11.1f", median_of(rounds[i]) / CALLS);
    show_ratio(ratio_of(rounds[3], rounds[0]));
    printf("\n");
    fflush(stdout);
    return 1;
}

int show_steps(void)
{
    static const struct kind_of_step kinds[] = {
        {"gives what is asked", 0, 1, 0},
        {"gives what the store has", 0, 0, 0},
        {"takes what is asked", 1, 1, 0},
        {"takes what there is room for", 1, 0, 0},
        {"gives, vars first", 0, 1, 1},
        {"gives what it has, vars first", 0, 0, 1},
    };
    int right = 1;
    printf("\nOne step by yb_step_as, for requests of so many watts: ns, medians of %d rounds of %d; the ratio is\n"
        "of the most watts to the least. Where vars come first, the circle cuts the most watts and no others: there a\n"
        "leg of the circle is sought.\n\n", ROUNDS, CALLS);
    printf("%-32s", "");
    for (int i = 0; i < MOST_CALLS; i++)
        printf("  %9" PRId32 " W", asked[i]);
    show_ratio_heading("ratio");
    printf("\n");
    for (size_t i = 0; i < sizeof kinds / sizeof kinds[0]; i++)
        right &= show_step(kinds[i]);
    return right;
}
