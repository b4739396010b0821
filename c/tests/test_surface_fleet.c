/* Fleets to lend, and the tests of what yb_pass and yb_settle refuse alike. */
#include <inttypes.h>
#include <stdio.h>
#include <string.h>

#include "test_surface.h"
#include "test_surface_fleet.h"
#include "yesbrulka.h"

const struct numbers plain = {1, 0, 0, 1000, 100, 10};

struct lists fleet_of(size_t units)
{
    struct lists lists;
    memset(&lists, 0xA5, sizeof lists);
    for (size_t i = 1; i <= units; i++) {
        lists.rated[i] = 1000;
        lists.reserve[i] = 100;
        lists.stored[i] = 500;
        lists.rating[i] = 1000;
        lists.weight[i] = 1;
        lists.requests[i] = 0;
    }
    for (int k = 0; k < LISTS; k++)
        lists.length[k] = units;
    return lists;
}

void tell_lists(const char *call, const struct numbers *n, const struct lists *lists)
{
    fprintf(stderr,
        "%s: mode %d, target %" PRId32 ", band %" PRIu32 ", factor %u, measure or load %" PRId64
        ", budget %" PRIu32 ", lengths",
        call, n->mode, n->target, n->band, (unsigned)n->factor, n->measure, n->budget);
    for (int k = 0; k < LISTS; k++)
        fprintf(stderr, " %zu", lists->length[k]);
    fprintf(stderr, "\n");
}

int lists_as_expected(const struct lists *after, const struct lists *before, uint32_t number,
    const int32_t *requests)
{
    struct lists expected;
    memcpy(&expected, before, sizeof expected);
    if (number == 0)
        memcpy(expected.requests + 1, requests, before->length[REQUESTS] * sizeof *requests);
    return memcmp(after, &expected, sizeof expected) == 0;
}

/* Both are refused with the number. */
static void refused_fleet(const struct numbers *n, const struct lists *lists, uint32_t number)
{
    check_pass(n, lists, number, 0, 0, NULL);
    check_settle(n, lists, number, 0, 0, NULL);
}

static void test_wrong_lengths(void)
{
    static const size_t lengths[] = {0, 1, 2, 4, 64, 65, 70};
    for (int k = 0; k < LISTS; k++)
        for (size_t j = 0; j < sizeof lengths / sizeof lengths[0]; j++) {
            struct numbers n = plain;
            struct lists fleet = fleet_of(3);
            fleet.length[k] = lengths[j];
            refused_fleet(&n, &fleet, 10);
            /* Wrong values and requests come after the lengths. */
            n.target = INT32_MIN;
            fleet.weight[1] = 0;
            fleet.requests[1] = INT32_MIN;
            refused_fleet(&n, &fleet, 10);

            fleet = fleet_of(lengths[j]);
            fleet.length[k] = 3;
            refused_fleet(&plain, &fleet, 10);
        }
    for (size_t units = 65; units <= 70; units++) {
        struct lists fleet = fleet_of(units);
        refused_fleet(&plain, &fleet, 10);
    }
    struct lists none = fleet_of(0);
    refused_fleet(&plain, &none, 10);
}

static void test_wrong_settings(void)
{
    static const int32_t targets[] = {INT32_MIN, -100000001, 100000001, INT32_MAX};
    static const uint32_t bands[] = {200000001, INT32_MAX, UINT32_C(1) << 31, UINT32_MAX};
    static const uint16_t factors[] = {0, 1001, 1 << 15, UINT16_MAX};
    static const int64_t measures[] = {INT64_MIN, -(INT64_C(1) << 32), -300000001, 300000001, INT64_C(1) << 32,
        (INT64_C(1) << 32) + 100, INT64_MAX};
    static const int64_t loads[] = {INT64_MIN, -1, 100000001, INT64_C(1) << 32, INT64_MAX};
    static const uint32_t budgets[] = {0, 10001, 1 << 16, UINT32_MAX};
    struct lists fleet = fleet_of(2);
    struct numbers n = plain;
    /* Wrong requests come after the values. */
    fleet.requests[1] = INT32_MIN;
    fleet.requests[2] = INT32_MAX;
    for (int mode = 0; mode <= UINT8_MAX; mode++) {
        n.mode = (uint8_t)mode;
        check_pass(&n, &fleet, mode >= 1 && mode <= 3 ? 10 : 5, 0, 0, NULL);
    }
    for (int i = 0; i < 4; i++) {
        n = plain;
        n.target = targets[i];
        refused_fleet(&n, &fleet, 5);
        n = plain;
        n.band = bands[i];
        refused_fleet(&n, &fleet, 5);
        n = plain;
        n.factor = factors[i];
        refused_fleet(&n, &fleet, 5);
        n = plain;
        n.budget = budgets[i];
        check_settle(&n, &fleet, 5, 0, 0, NULL);
    }
    n = plain;
    for (size_t i = 0; i < sizeof measures / sizeof measures[0]; i++) {
        n.measure = measures[i];
        check_pass(&n, &fleet, 5, 0, 0, NULL);
    }
    for (size_t i = 0; i < sizeof loads / sizeof loads[0]; i++) {
        n.measure = loads[i];
        check_settle(&n, &fleet, 5, 0, 0, NULL);
    }
}

static void test_wrong_units(void)
{
    static const uint64_t rateds[] = {0, UINT64_C(10000000000001), UINT64_C(1) << 63, UINT64_MAX};
    static const uint64_t energies[] = {1001, UINT64_C(1) << 32, UINT64_C(1) << 63, UINT64_MAX};
    static const uint32_t ratings[] = {0, 100000001, UINT32_C(1) << 31, UINT32_MAX};
    static const uint16_t weights[] = {0, 10001, 1 << 15, UINT16_MAX};
    for (size_t unit = 1; unit <= 64; unit += 21)
        for (int i = 0; i < 4; i++) {
            struct lists fleet = fleet_of(64);
            fleet.requests[unit] = -1;
            fleet.requests[1 + unit % 64] = 1;
            fleet.rated[unit] = rateds[i];
            if (i == 0)
                fleet.reserve[unit] = fleet.stored[unit] = 0;
            refused_fleet(&plain, &fleet, 5);
            fleet = fleet_of(64);
            fleet.reserve[unit] = energies[i];
            refused_fleet(&plain, &fleet, 5);
            fleet = fleet_of(64);
            fleet.stored[unit] = energies[i];
            refused_fleet(&plain, &fleet, 5);
            fleet = fleet_of(64);
            fleet.rating[unit] = ratings[i];
            refused_fleet(&plain, &fleet, 5);
            fleet = fleet_of(64);
            fleet.weight[unit] = weights[i];
            refused_fleet(&plain, &fleet, 5);
        }
}

/* A study does not look at the requests that it is lent. */
static void test_wrong_requests(void)
{
    static const int32_t beyond[] = {1001, -1001, INT32_MAX, INT32_MIN, -INT32_MAX};
    int32_t ones[64];
    struct numbers n = plain;
    n.measure = 64;
    for (int i = 0; i < 64; i++)
        ones[i] = 1;
    for (size_t unit = 1; unit <= 64; unit++) {
        struct lists fleet = fleet_of(64);
        for (size_t i = 0; i < sizeof beyond / sizeof beyond[0]; i++) {
            fleet.requests[unit] = beyond[i];
            check_pass(&n, &fleet, 10, 0, 0, NULL);
            check_settle(&n, &fleet, 0, 1, 1, ones);
        }
        fleet.requests[unit] = 1000;
        fleet.requests[1 + unit % 64] = -1;
        check_pass(&n, &fleet, 10, 0, 0, NULL);
        check_settle(&n, &fleet, 0, 1, 1, ones);
    }
}

static void expect_alike(const char *call, int alike)
{
    if (!alike) {
        wrong++;
        fprintf(stderr, "%s: another answer where one memory is lent as several lists\n", call);
    }
}

/* A pass and a study over these lists of energies, and over copies of them that lie apart: their answers are alike. */
static void check_energies(uint8_t mode, const uint64_t *rated, const uint64_t *reserve, const uint64_t *stored)
{
    struct lists apart = fleet_of(64), one = apart;
    int64_t need = 0, need_apart = 1, measure = mode == 3 ? -5000 : 5000;
    uint8_t changed = 2, changed_apart = 3;
    uint32_t passes = 2, passes_apart = 3;
    memcpy(apart.rated + 1, rated, 64 * sizeof *rated);
    memcpy(apart.reserve + 1, reserve, 64 * sizeof *reserve);
    memcpy(apart.stored + 1, stored, 64 * sizeof *stored);
    uint32_t number = yb_pass(mode, 10, 1, 999, measure, rated, 64, reserve, 64, stored, 64, one.rating + 1, 64,
        one.weight + 1, 64, one.requests + 1, 64, &need, &changed);
    uint32_t number_apart = yb_pass(mode, 10, 1, 999, measure, LENT_LISTS(&apart, 0), &need_apart, &changed_apart);
    expect_alike("yb_pass", number == 0 && number_apart == 0 && need == need_apart && changed == changed_apart &&
        memcmp(one.requests, apart.requests, sizeof one.requests) == 0);
    number = yb_settle(5000, 10, 1, 999, 100, rated, 64, reserve, 64, stored, 64, one.rating + 1, 64, one.weight + 1,
        64, one.requests + 1, 64, &changed, &passes);
    number_apart = yb_settle(5000, 10, 1, 999, 100, LENT_LISTS(&apart, 0), &changed_apart, &passes_apart);
    expect_alike("yb_settle", number == 0 && number_apart == 0 && changed == changed_apart &&
        passes == passes_apart && memcmp(one.requests, apart.requests, sizeof one.requests) == 0);
}

/* Lists that are only read may be one memory, or overlap. */
static void test_one_list(void)
{
    uint64_t rated[64], energy[66];
    for (size_t i = 0; i < 64; i++)
        rated[i] = 1000;
    for (size_t i = 0; i < 66; i++)
        energy[i] = 10 * i;
    for (uint8_t mode = 1; mode <= 3; mode++) {
        check_energies(mode, rated, rated, rated);
        check_energies(mode, rated, energy, rated);
        check_energies(mode, rated, rated, energy);
        check_energies(mode, rated, energy, energy);
        check_energies(mode, rated, energy, energy + 1);
        check_energies(mode, rated, energy + 2, energy);
        check_energies(mode, energy + 1, energy, energy + 1);
        check_energies(mode, energy + 1, energy + 1, energy);
    }
}

const struct test fleet_tests[] = {
    {"yb_pass, yb_settle: wrong lengths", test_wrong_lengths},
    {"yb_pass, yb_settle: settings outside their ranges", test_wrong_settings},
    {"yb_pass, yb_settle: units outside their ranges", test_wrong_units},
    {"yb_pass, yb_settle: wrong requests", test_wrong_requests},
    {"yb_pass, yb_settle: one list lent as several", test_one_list},
    {NULL, NULL},
};
