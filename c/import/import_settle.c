/* import settle: where a stick's fleet settles over a fixed load. */
#include <inttypes.h>
#include <string.h>

#include "import.h"
#include "yesbrulka.h"

/* What is shown of a study: what the library stores, what the stick says, and what follows from both: the sum of the
** requests, how far the reading that is left lies above the target, and how far the units above their reserves are
** below their ratings, all together.
*/
struct study {
    unsigned units;
    int32_t requests[YB_MOST_UNITS];
    uint8_t settled;
    uint32_t passes;
    uint32_t ratings[YB_MOST_UNITS];
    struct settings settings;
    int64_t sum, gap, room;
};

/* Reads a whole number, digits after a sign or none; one that is larger than any range is the largest there is.
** Gives 0 where the word is no whole number.
*/
static int whole_number(const char *word, int64_t *number)
{
    const char *digits = *word == '-' ? word + 1 : word;
    int64_t size = 0;
    if (*digits == '\0' || digits[strspn(digits, "0123456789")] != '\0')
        return 0;
    for (; *digits != '\0'; digits++)
        size = size < INT64_MAX / 10 ? 10 * size + (*digits - '0') : INT64_MAX;
    *number = *word == '-' ? -size : size;
    return 1;
}

static uint32_t make_study(struct study *study, const struct stick *stick, int64_t load, int64_t budget)
{
    /* A budget that 32 bits do not hold is as much outside its range as 0 is. */
    uint32_t passes = budget < 0 || budget > UINT32_MAX ? 0 : (uint32_t)budget;
    study->units = stick->units;
    return yb_study(stick->head, stick->head_len, load, passes, study->requests, study->units, &study->settled,
        &study->passes);
}

/* What the stick says beside it, the settings and each unit's rating; and what follows. A pass asks for no more than
** takes the reading to the target, and for nothing where it is there or below: so the reading that is left by a study
** that its budget stopped is not below the target, or the answer is a fault.
*/
static int take_fleet(struct study *study, const struct stick *stick, int64_t load)
{
    struct unit unit = {0};
    int outcome = ask_settings(&study->settings, stick);
    study->sum = study->room = 0;
    for (unsigned i = 0; i < study->units && outcome == COMPLETE; i++) {
        outcome = ask_unit(&unit, stick, i);
        study->ratings[i] = unit.rating;
        study->sum += study->requests[i];
        if (unit.stored > unit.reserve)
            study->room += (int64_t)unit.rating - study->requests[i];
    }
    if (outcome != COMPLETE)
        return outcome;
    study->gap = load - study->sum - study->settings.target;
    return study->settled || study->gap >= 0 ? COMPLETE : fault(stick->name);
}

/* The library refused the study; a complete stick leaves only the load and the budget to be wrong. */
static int refused_study(const char *name, uint32_t number, int64_t load, const char *load_word, int64_t budget,
    const char *budget_word)
{
    int bad_load = load < 0 || load > YB_MOST_POWER, bad_budget = budget < 1 || budget > YB_MOST_BUDGET;
    if (number != YB_OUT_OF_RANGE || (!bad_load && !bad_budget))
        return fault(name);
    if (bad_load)
        printf("LOAD %s: refused %" PRIu32 " (%s)\n    A load is 0 to 100,000,000 W.\n", load_word, number,
            yb_refusal_words(number));
    if (bad_budget)
        printf("BUDGET %s: refused %" PRIu32 " (%s)\n    A budget is 1 to 10,000 passes.\n", budget_word, number,
            yb_refusal_words(number));
    failed(name, "no study; ", bad_load ? "call again with another LOAD" : "call again with another BUDGET");
    return REFUSED;
}

/* A study has a mode of its own, and says so of a stick that has another. */
static void print_mode(unsigned mode)
{
    if (mode == YB_PEAK_SHAVE)
        return;
    printf("a study is in mode 1 (PeakShave) and by watts; the stick's mode is %u%s%s\n", mode, mode_name(mode),
        is_by_current(mode) ? ", and its target and band, which are in mA, are taken as W" : "");
}

/* How far a study that its budget stopped is from done. A further pass that changes a request raises one by a watt at
** least and lowers none; it takes the reading no further than the target, and no unit above its rating. So neither the
** gap nor the room has a watt for more passes than this.
*/
static void print_rest(const struct study *study)
{
    int64_t gap = study->gap, room = study->room, most = gap < room ? gap : room;
    printf("gap left %" PRId64 " W", gap);
    if (2 * gap <= study->settings.band)
        printf(", within half the band: no further pass changes a request\n");
    else if (most > 0)
        printf(": at most %" PRId64 " further %s a request (%" PRId64 " W to the target, %" PRId64
            " W left to the ratings of units above reserve)\n",
            most, most == 1 ? "pass changes" : "passes change", gap, room);
    else
        printf(": no further pass changes a request (every unit above reserve is at its rating)\n");
}

static const char *passes_word(int64_t passes)
{
    return passes == 1 ? "pass" : "passes";
}

static void print_study(const struct study *study, const char *name, int64_t load, int64_t budget)
{
    int64_t target = study->settings.target, band = study->settings.band;
    print_name(stdout, name);
    if (study->settled)
        printf(": settled after %" PRIu32 " changing %s\n", study->passes, passes_word(study->passes));
    else
        printf(": not settled within %" PRId64 " %s, %" PRIu32 " changed a request\n", budget, passes_word(budget),
            study->passes);
    print_mode(study->settings.mode);
    printf("units are counted from 0: unit 0 is the 1st unit\nunit\trequest W\trating W\n");
    for (unsigned i = 0; i < study->units; i++)
        printf("%u\t%" PRId32 "\t%" PRIu32 "\n", i, study->requests[i], study->ratings[i]);
    int64_t off = study->gap < 0 ? -study->gap : study->gap;
    printf("sum of requests %" PRId64 " W, reading left %" PRId64 " W: %s half the band (%" PRId64
        " W) of the target (%" PRId64 " W)\n",
        study->sum, load - study->sum, 2 * off <= band ? "within" : "not within", band, target);
    if (!study->settled)
        print_rest(study);
}

int settle_command(const char *file, const char *load_word, const char *budget_word)
{
    struct stick stick = {.name = file};
    struct study study;
    int64_t load, budget;
    if (!whole_number(load_word, &load))
        return failed(load_word, "LOAD is no whole number; ", "give it in watts, such as 150000");
    if (!whole_number(budget_word, &budget))
        return failed(budget_word, "BUDGET is no whole number; ", "give the most passes, such as 100");
    int outcome = ask_complete(&stick, NULL, "no study is made");
    if (outcome != COMPLETE)
        return outcome;
    uint32_t number = make_study(&study, &stick, load, budget);
    if (number != 0)
        return refused_study(file, number, load, load_word, budget, budget_word);
    outcome = take_fleet(&study, &stick, load);
    if (outcome != COMPLETE)
        return outcome;
    print_study(&study, file, load, budget);
    return COMPLETE;
}
