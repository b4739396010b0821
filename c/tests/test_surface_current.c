/* The tests of yb_pass_current: a pass by current over a fleet whose units have connections. */
#include <inttypes.h>
#include <stdio.h>
#include <string.h>

#include "test_surface.h"
#include "test_surface_fleet.h"
#include "yesbrulka.h"

/* A fleet and its connections, as they are lent: place 0 is a guard, and so are all places past the lengths. */
struct joined {
    struct lists lists;
    uint8_t phases[PLACES];
    uint16_t volts[PLACES];
    size_t phases_length, volts_length;
};

static const struct numbers by_current = {4, 0, 0, 1000, 1000, 0};

/* Units at rest, each with one phase of 230 V. */
static struct joined joined_of(size_t units)
{
    struct joined joined;
    memset(&joined, 0xA5, sizeof joined);
    joined.lists = fleet_of(units);
    for (size_t i = 1; i <= units; i++) {
        joined.phases[i] = 1;
        joined.volts[i] = 230;
    }
    joined.phases_length = joined.volts_length = units;
    return joined;
}

static uint32_t pass(const struct numbers *n, struct joined *j, int null, int64_t *need, uint8_t *changed)
{
    struct lists *l = &j->lists;
    return yb_pass_current(n->mode, n->target, n->band, n->factor, n->measure, LENT(l, rated, RATED, null),
        l->length[RATED], LENT(l, reserve, RESERVE, null), l->length[RESERVE], LENT(l, stored, STORED, null),
        l->length[STORED], LENT(l, rating, RATING, null), l->length[RATING], LENT(l, weight, WEIGHT, null),
        l->length[WEIGHT], null && j->phases_length == 0 ? NULL : j->phases + 1, j->phases_length,
        null && j->volts_length == 0 ? NULL : j->volts + 1, j->volts_length, LENT(l, requests, REQUESTS, null),
        l->length[REQUESTS], need, changed);
}

/* Whether all that was lent is as it must be after the call. */
static int as_expected(const struct joined *after, const struct joined *before, uint32_t number,
    const int32_t *requests)
{
    struct joined expected = *after;
    expected.lists = before->lists;
    return lists_as_expected(&after->lists, &before->lists, number, requests) &&
        memcmp(&expected, before, sizeof expected) == 0;
}

/* One pass, made twice over different memory: the number, what it stores, and everything else as it was. */
static void check_current(const struct numbers *n, const struct joined *before, uint32_t number, int64_t need,
    uint8_t changed, const int32_t *requests)
{
    for (int i = 0; i < 2; i++) {
        int64_t fill = i == 0 ? INT64_C(0x5A5A5A5A5A5A5A5A) : -1;
        int64_t needs[3] = {fill, fill, fill};
        uint8_t changes[3] = {(uint8_t)fill, (uint8_t)fill, (uint8_t)fill};
        struct joined joined;
        memcpy(&joined, before, sizeof joined);
        uint32_t got = pass(n, &joined, i, &needs[1], &changes[1]);
        int good = got == number && as_expected(&joined, before, number, requests) &&
            needs[1] == (number == 0 ? need : fill) && changes[1] == (number == 0 ? changed : (uint8_t)fill) &&
            needs[0] == fill && needs[2] == fill && changes[0] == (uint8_t)fill && changes[2] == (uint8_t)fill;
        if (!good) {
            wrong++;
            tell_lists("yb_pass_current", n, &before->lists);
            fprintf(stderr,
                "    number %" PRIu32 ", need %" PRId64 ", changed %d, first request %" PRId32 "; expected %" PRIu32
                ", %" PRId64 ", %d\n",
                got, needs[1], changes[1], joined.lists.requests[1], number, need, changed);
        }
    }
}

static void refused(const struct numbers *n, const struct joined *joined, uint32_t number)
{
    check_current(n, joined, number, 0, 0, NULL);
}

/* One phase and three of 230 V. An ampere is 230 W at the first and 690 W at the second. */
static struct joined two_kinds(void)
{
    struct joined two = joined_of(2);
    two.phases[2] = 3;
    return two;
}

static void test_shares(void)
{
    struct numbers n = by_current;
    struct joined two = two_kinds();
    n.band = 1000;
    n.measure = 999;
    check_current(&n, &two, 0, 999, 1, (int32_t[]){114, 344});
    n.measure = 500;
    check_current(&n, &two, 0, 500, 0, (int32_t[]){0, 0});
    n.measure = 501;
    check_current(&n, &two, 0, 501, 0, (int32_t[]){0, 0});
    n.measure = 502;
    check_current(&n, &two, 0, 502, 1, (int32_t[]){57, 173});
    n.mode = 5;
    n.target = 999;
    n.measure = 0;
    check_current(&n, &two, 0, -999, 1, (int32_t[]){-114, -344});
    n.factor = 500;
    check_current(&n, &two, 0, -999, 1, (int32_t[]){-57, -172});
    n.measure = 1998;
    check_current(&n, &two, 0, 999, 0, (int32_t[]){0, 0});
}

/* A fleet in the other state: F is added to each unit's watts, after they came from milliamperes. */
static void test_other_state(void)
{
    struct numbers n = by_current;
    struct joined two = two_kinds();
    two.lists.requests[1] = -100;
    two.lists.requests[2] = -200;
    /* Needs of -70 and 390 W: one unit calls, and one is within its band. */
    check_current(&n, &two, 0, 1000, 1, (int32_t[]){0, 0});
    n.band = 700;
    check_current(&n, &two, 0, 1000, 1, (int32_t[]){0, 0});
    /* Both are within theirs. */
    n.band = 1131;
    check_current(&n, &two, 0, 1000, 0, (int32_t[]){-100, -200});
    n.band = 1130;
    check_current(&n, &two, 0, 1000, 1, (int32_t[]){0, 0});
    /* None calls. */
    n.band = 0;
    two.phases[2] = 1;
    check_current(&n, &two, 0, 1000, 0, (int32_t[]){-100, -200});
    n.measure = 1304;
    check_current(&n, &two, 0, 1304, 0, (int32_t[]){-100, -200});
    n.measure = 1309;
    check_current(&n, &two, 0, 1309, 1, (int32_t[]){0, 0});
}

/* A milliampere of one volt is no watt, and neither is its band. */
static void test_cut_to_zero(void)
{
    struct numbers n = by_current;
    struct joined one = joined_of(1);
    one.volts[1] = 1;
    n.band = 999;
    n.measure = 999;
    check_current(&n, &one, 0, 999, 0, (int32_t[]){0});
    n.measure = 1000;
    check_current(&n, &one, 0, 1000, 1, (int32_t[]){1});
    n.band = 2000;
    check_current(&n, &one, 0, 1000, 0, (int32_t[]){0});
    n.band = 1999;
    check_current(&n, &one, 0, 1000, 1, (int32_t[]){1});
    n.mode = 5;
    n.target = 1999;
    n.measure = 0;
    n.band = 0;
    check_current(&n, &one, 0, -1999, 1, (int32_t[]){-1});
}

/* Everything as large as it can be. */
static void test_largest(void)
{
    struct joined fleet = joined_of(64);
    struct numbers n = {4, -100000000, 0, 1000, 300000000, 0};
    int32_t all[64], first[64] = {-89062500};
    for (int i = 0; i < 64; i++) {
        fleet.lists.rated[i + 1] = UINT64_C(10000000000000);
        fleet.lists.reserve[i + 1] = 0;
        fleet.lists.stored[i + 1] = UINT64_C(10000000000000) - 1;
        fleet.lists.rating[i + 1] = 100000000;
        fleet.lists.weight[i + 1] = 10000;
        fleet.phases[i + 1] = 3;
        fleet.volts[i + 1] = 40000;
        all[i] = 100000000;
    }
    check_current(&n, &fleet, 0, 400000000, 1, all);
    for (int i = 1; i <= 64; i++)
        fleet.lists.requests[i] = -100000000;
    check_current(&n, &fleet, 0, 400000000, 1, all);
    n.mode = 5;
    n.target = 100000000;
    n.measure = 0;
    n.band = 200000000;
    /* Needs of 6,400,000,000 less 12,000,000,000 W, bands of 24,000,000,000 W. */
    for (int i = 1; i <= 64; i++)
        fleet.lists.requests[i] = 100000000;
    check_current(&n, &fleet, 0, -100000000, 0, all);
    /* The first unit at rest, and bands of 0. */
    n.band = 0;
    fleet.lists.requests[1] = 0;
    check_current(&n, &fleet, 0, -100000000, 1, first);
}

static void test_refused_lengths(void)
{
    static const size_t lengths[] = {0, 1, 2, 4, 64, 65, 70};
    for (int k = 0; k < LISTS + 2; k++)
        for (size_t j = 0; j < sizeof lengths / sizeof lengths[0]; j++) {
            struct numbers n = by_current;
            struct joined three = joined_of(3);
            *(k < LISTS ? &three.lists.length[k] : k == LISTS ? &three.phases_length : &three.volts_length) =
                lengths[j];
            refused(&n, &three, 10);
            /* Wrong values come after the lengths. */
            n.mode = 1;
            three.phases[1] = 2;
            refused(&n, &three, 10);
        }
    struct joined many = joined_of(65), none = joined_of(0);
    refused(&by_current, &many, 10);
    refused(&by_current, &none, 10);
}

static void test_refused_values(void)
{
    static const int64_t measures[] = {INT64_MIN, -(INT64_C(1) << 32), -1, 300000001, INT64_C(1) << 32, INT64_MAX};
    static const uint16_t volts[] = {0, 40001, 1 << 15, UINT16_MAX};
    struct joined two = joined_of(2);
    struct numbers n = by_current;
    /* Wrong requests come after the values. */
    two.lists.requests[1] = INT32_MIN;
    for (int mode = 0; mode <= UINT8_MAX; mode++) {
        n.mode = (uint8_t)mode;
        refused(&n, &two, mode == 4 || mode == 5 ? 10 : 5);
    }
    for (size_t i = 0; i < sizeof measures / sizeof measures[0]; i++) {
        n = by_current;
        n.measure = measures[i];
        refused(&n, &two, 5);
    }
    for (int phases = 0; phases <= UINT8_MAX; phases++) {
        struct joined joined = two;
        joined.phases[2] = (uint8_t)phases;
        refused(&by_current, &joined, phases == 1 || phases == 3 ? 10 : 5);
    }
    for (size_t i = 0; i < sizeof volts / sizeof volts[0]; i++) {
        struct joined joined = two;
        joined.volts[1] = volts[i];
        refused(&by_current, &joined, volts[i] == 1 << 15 ? 10 : 5);
    }
    two.lists.weight[2] = 0;
    refused(&by_current, &two, 5);
    struct joined signs = joined_of(2);
    signs.lists.requests[1] = 1;
    signs.lists.requests[2] = -1;
    refused(&by_current, &signs, 10);
}

const struct test current_tests[] = {
    {"yb_pass_current: each unit's own need and band", test_shares},
    {"yb_pass_current: a fleet in the other state", test_other_state},
    {"yb_pass_current: what is cut to no watt", test_cut_to_zero},
    {"yb_pass_current: the largest fleet", test_largest},
    {"yb_pass_current: wrong lengths", test_refused_lengths},
    {"yb_pass_current: values outside their ranges", test_refused_values},
    {NULL, NULL},
};
