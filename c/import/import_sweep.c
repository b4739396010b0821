/* The targets that a season is tried at, where nobody names them.
**
** At one end the fleet has nothing to do: the target is at the largest measure, or where the mode charges at the
** smallest. A fleet that does nothing may draw all the same, so that the end is where that would not be outside. At
** the other end it would have to give all that its units are rated for, but no more than from one end of the
** measures to the other. By current nobody knows what its watts are in amperes, and the ends are those of the
** measures.
*/
#include "import_sweep.h"

/* There are at least so many steps from one end to the other, if a step can be that small; and then at most 30. */
enum { LEAST_STEPS = 12 };

int64_t sweep_lines(const struct sweep *sweep)
{
    return sweep->step == 0 ? 0 : (sweep->to - sweep->from) / sweep->step + 1;
}

int sweep_targets(int32_t *targets, const struct sweep *sweep, int32_t own)
{
    int count = 0, needs_own = sweep->has_own;
    for (int64_t i = 0; i < sweep_lines(sweep); i++) {
        int64_t target = sweep->from + i * sweep->step;
        if (needs_own && own < target)
            targets[count++] = own;
        needs_own &= own > target;
        targets[count++] = (int32_t)target;
    }
    if (needs_own)
        targets[count++] = own;
    return count;
}

static int64_t within(int64_t number)
{
    return number < -YB_MOST_POWER ? -YB_MOST_POWER : number > YB_MOST_POWER ? YB_MOST_POWER : number;
}

/* The largest of 1, 2, 5, 10, 20 and so on that goes often enough into a range. */
static int64_t round_step(int64_t range)
{
    int64_t step = 1;
    for (int64_t ten = 1; ten <= YB_MOST_POWER; ten *= 10)
        for (int i = 0; i < 3; i++) {
            int64_t next = ten * (i == 0 ? 1 : i == 1 ? 2 : 5);
            if (next * LEAST_STEPS <= range)
                step = next;
        }
    return step;
}

/* The multiple of a step at a number, or the next one below it. */
static int64_t multiple_below(int64_t number, int64_t step)
{
    int64_t over = number % step;
    return number - (over < 0 ? over + step : over);
}

static int ask_ratings(int64_t *all, const struct stick *stick)
{
    struct unit unit;
    int outcome = COMPLETE;
    *all = 0;
    for (unsigned i = 0; i < stick->units && outcome == COMPLETE; i++) {
        outcome = ask_unit(&unit, stick, i);
        if (outcome == COMPLETE)
            *all += unit.rating;
    }
    return outcome;
}

/* The ends of a stick by watts, as its measures have them: where the fleet has nothing to do, and where it has to
** do all it can.
*/
static int find_ends(int64_t *rest, int64_t *work, const struct season *season, const int64_t *figures)
{
    int64_t least = figures[YB_FIGURE_LEAST], most = figures[YB_FIGURE_MOST], all, idle[YB_FIGURES];
    int charges = is_charging(season->settings.mode);
    int64_t target = within(season->settings.mode == YB_SUPPORT ? -most : most);
    if (ask_ratings(&all, season->stick) != COMPLETE)
        return FAILED;
    *rest = charges ? least : most;
    *work = charges ? least + all : most - all;
    if (least < most && all > most - least)
        *work = charges ? most : least;
    if (charges)
        return COMPLETE;
    if (ask_figures(idle, season->stick, (int32_t)target) != COMPLETE)
        return FAILED;
    if (idle[YB_FIGURE_NET_MOST] > most)
        *rest = idle[YB_FIGURE_NET_MOST];
    return COMPLETE;
}

int choose_sweep(struct sweep *sweep, const struct season *season, const int64_t *figures)
{
    int64_t one = figures[YB_FIGURE_LEAST], other = figures[YB_FIGURE_MOST];
    *sweep = (struct sweep){.has_own = 1};
    if (!has_measure(figures))
        return COMPLETE;
    if (has_net(season, figures) && find_ends(&one, &other, season, figures) != COMPLETE)
        return FAILED;
    if (season->settings.mode == YB_SUPPORT)
        one = -one, other = -other;
    int64_t low = within(one < other ? one : other), high = within(one < other ? other : one);
    sweep->step = round_step(high - low);
    sweep->from = multiple_below(low, sweep->step);
    sweep->to = -multiple_below(-high, sweep->step);
    return COMPLETE;
}
