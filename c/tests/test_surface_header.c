/* The tests of the header's names: each is the document's number. */
#include <inttypes.h>
#include <stdio.h>
#include <string.h>

#include "test_surface.h"
#include "yesbrulka.h"

struct name {
    const char *name;
    uint64_t number, due;
};

static void check_names(const struct name *names)
{
    for (; names->name != NULL; names++)
        if (names->number != names->due) {
            wrong++;
            fprintf(stderr, "%s is %" PRIu64 ", expected %" PRIu64 "\n", names->name, names->number, names->due);
        }
}

static void check_words(uint32_t number, const char *due)
{
    const char *words = yb_refusal_words(number);
    if (strcmp(words, due) != 0) {
        wrong++;
        fprintf(stderr, "refusal %" PRIu32 " is called %s, expected %s\n", number, words, due);
    }
}

#define NAME(name, due) {#name, name, due}

static void test_refusals(void)
{
    check_names((const struct name[]){NAME(YB_CUT_SHORT, 1), NAME(YB_UNKNOWN_TAG, 2), NAME(YB_WRONG_LENGTH, 3),
        NAME(YB_OUT_OF_ORDER, 4), NAME(YB_OUT_OF_RANGE, 5), NAME(YB_NOT_USABLE, 6), NAME(YB_WRONG_COUNT, 7),
        NAME(YB_END_MISSING, 8), NAME(YB_AFTER_END, 9), NAME(YB_DOES_NOT_FIT, 10), NAME(YB_ROOM_TOO_SHORT, 11),
        NAME(YB_TOO_MANY, 12), {NULL, 0, 0}});
}

/* Every program says the same of a refusal: each number has words of its own, and any other the same. */
static void test_words(void)
{
    static const char *const due[] = {"unknown refusal", "field cut short", "unknown tag", "wrong length",
        "field out of order", "value out of range", "reading not usable", "wrong step count", "end field missing",
        "bytes after the end", "does not fit", "room too short", "too many bytes or steps", "unknown refusal"};
    for (uint32_t number = 0; number < sizeof due / sizeof due[0]; number++)
        check_words(number, due[number]);
    check_words(255, "unknown refusal");
    check_words(UINT32_MAX, "unknown refusal");
}

static void test_choices(void)
{
    check_names((const struct name[]){NAME(YB_PEAK_SHAVE, 1), NAME(YB_SUPPORT, 2), NAME(YB_PEAK_SHAVE_LOW, 3),
        NAME(YB_PHASE_SUM, 0), NAME(YB_PHASE_1, 1), NAME(YB_PHASE_2, 2), NAME(YB_PHASE_3, 3),
        NAME(YB_PHASE_LARGEST, 4), NAME(YB_PHASE_SMALLEST, 5), NAME(YB_WATTS_FIRST, 0), NAME(YB_VARS_FIRST, 1),
        NAME(YB_MADE_MISSING, 1), NAME(YB_ENDED_HERE, 2), NAME(YB_LEFT_OUT, 3), NAME(YB_RIGHT, 0),
        NAME(YB_WRONG, 1), NAME(YB_LACKING, 2), NAME(YB_I_PEAK_SHAVE, 4), NAME(YB_I_PEAK_SHAVE_LOW, 5),
        NAME(YB_BASE_KVA, 0), NAME(YB_BASE_LEFT, 1), NAME(YB_ONE_PHASE, 1), NAME(YB_THREE_PHASES, 3),
        {NULL, 0, 0}});
}

static void test_limits(void)
{
    check_names((const struct name[]){NAME(YB_MOST_UNITS, 64), NAME(YB_MOST_INVERTERS, 64),
        NAME(YB_LEAST_POINTS, 2), NAME(YB_MOST_POINTS, 16), NAME(YB_MOST_STEPS, 65535),
        NAME(YB_MOST_FILE_BYTES, 2097152), NAME(YB_MOST_SECONDS, 86400), NAME(YB_MOST_POWER, 100000000),
        NAME(YB_MOST_IDLE_LOSS, 10000000), NAME(YB_MOST_WEIGHT, 10000), NAME(YB_LEAST_EFFICIENCY, 1000),
        NAME(YB_MOST_EFFICIENCY, 10000), NAME(YB_MOST_BAND, 200000000), NAME(YB_MOST_FACTOR, 1000),
        NAME(YB_MOST_MEASURE, 300000000), NAME(YB_MOST_BUDGET, 10000), NAME(YB_CHANGE_BYTES, 17),
        NAME(YB_MOST_VOLTS, 40000), NAME(YB_MOST_EDITION, 3), NAME(YB_MOST_PARTS, 10000),
        NAME(YB_MOST_ARRAY_PARTS, 20000), NAME(YB_MOST_VOLTAGE, 20000), NAME(YB_MOST_THOUSANDTHS, 100000000),
        NAME(YB_MOST_RATED, UINT64_C(10000000000000)), {NULL, 0, 0}});
}

static void test_figures(void)
{
    check_names((const struct name[]){NAME(YB_FIGURE_STEPS, 0), NAME(YB_FIGURE_MISSING, 1), NAME(YB_FIGURE_LEAST, 2),
        NAME(YB_FIGURE_LEAST_STEP, 3), NAME(YB_FIGURE_MOST, 4), NAME(YB_FIGURE_MOST_STEP, 5),
        NAME(YB_FIGURE_OUTSIDE, 6), NAME(YB_FIGURE_NET_LEAST, 7), NAME(YB_FIGURE_NET_LEAST_STEP, 8),
        NAME(YB_FIGURE_NET_MOST, 9), NAME(YB_FIGURE_NET_MOST_STEP, 10), NAME(YB_FIGURE_NET_OUTSIDE, 11),
        NAME(YB_FIGURE_STORE, 12), NAME(YB_FIGURE_STORE_STEP, 13), NAME(YB_FIGURE_LOSS_MJ, 14),
        NAME(YB_FIGURE_LOSS_J, 15), NAME(YB_FIGURE_NOT_MET, 16), NAME(YB_FIGURES, 17), {NULL, 0, 0}});
}

const struct test header_tests[] = {
    {"the header's refusals", test_refusals},
    {"the header's words for refusals", test_words},
    {"the header's modes, phases, priorities, bases, changes and verdicts", test_choices},
    {"the header's limits", test_limits},
    {"the header's figures of a season", test_figures},
    {NULL, NULL},
};
