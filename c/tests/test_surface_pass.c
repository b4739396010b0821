/* The tests of yb_pass, and of the largest fleet in a pass and a study. */
#include <inttypes.h>
#include <stdio.h>
#include <string.h>

#include "test_surface.h"
#include "test_surface_fleet.h"
#include "yesbrulka.h"

void check_pass(const struct numbers *n, const struct lists *before, uint32_t number, int64_t need,
    uint8_t changed, const int32_t *requests)
{
    for (int i = 0; i < 2; i++) {
        int64_t fill = i == 0 ? INT64_C(0x5A5A5A5A5A5A5A5A) : -1;
        struct lists lists;
        int64_t needs[3] = {fill, fill, fill};
        uint8_t changes[3] = {(uint8_t)fill, (uint8_t)fill, (uint8_t)fill};
        memcpy(&lists, before, sizeof lists);
        uint32_t got = yb_pass(n->mode, n->target, n->band, n->factor, n->measure, LENT_LISTS(&lists, i),
            &needs[1], &changes[1]);
        int good = got == number && lists_as_expected(&lists, before, number, requests) &&
            needs[1] == (number == 0 ? need : fill) && changes[1] == (number == 0 ? changed : (uint8_t)fill) &&
            needs[0] == fill && needs[2] == fill && changes[0] == (uint8_t)fill && changes[2] == (uint8_t)fill;
        if (!good) {
            wrong++;
            tell_lists("yb_pass", n, before);
            fprintf(stderr,
                "    number %" PRIu32 ", need %" PRId64 ", changed %d, first request %" PRId32 "; expected %" PRIu32
                ", %" PRId64 ", %d\n",
                got, needs[1], changes[1], lists.requests[1], number, need, changed);
        }
    }
}

static void test_pass_figures(void)
{
    struct numbers n = plain;
    struct lists three = fleet_of(3), two = fleet_of(2), one = fleet_of(1);
    two.weight[1] = 2;
    check_pass(&n, &three, 0, 100, 1, (int32_t[]){33, 33, 33});
    check_pass(&n, &two, 0, 100, 1, (int32_t[]){66, 33});
    n.factor = 500;
    check_pass(&n, &three, 0, 100, 1, (int32_t[]){16, 16, 16});
    n.mode = 3;
    n.measure = -100;
    check_pass(&n, &three, 0, -100, 1, (int32_t[]){-16, -16, -16});
    n.factor = 1000;
    check_pass(&n, &three, 0, -100, 1, (int32_t[]){-33, -33, -33});

    n = plain;
    n.band = 20;
    n.measure = 10;
    check_pass(&n, &one, 0, 10, 0, (int32_t[]){0});
    n.measure = 11;
    check_pass(&n, &one, 0, 11, 1, (int32_t[]){11});

    one.requests[1] = -600;
    n.measure = 500;
    check_pass(&n, &one, 0, -100, 0, (int32_t[]){-600});
    n.measure = 700;
    check_pass(&n, &one, 0, 100, 1, (int32_t[]){0});
}

/* Seven units, of which the fifth is at its reserve or below it, full, or one joule beside. */
static void test_units_that_cannot_help(void)
{
    static const uint64_t fifth[] = {0, 99, 100, 101, 999, 1000};
    for (size_t j = 0; j < sizeof fifth / sizeof fifth[0]; j++) {
        struct numbers n = plain;
        struct lists seven = fleet_of(7);
        int32_t asked[7];
        seven.stored[5] = fifth[j];
        for (int i = 0; i < 7; i++) {
            seven.requests[i + 1] = 500;
            asked[i] = i == 4 && fifth[j] <= 100 ? 0 : 450;
        }
        n.measure = -350;
        check_pass(&n, &seven, 0, -350, 1, asked);
        n.mode = 3;
        n.measure = 350;
        for (int i = 0; i < 7; i++) {
            seven.requests[i + 1] = -500;
            asked[i] = i == 4 && fifth[j] == 1000 ? 0 : -450;
        }
        check_pass(&n, &seven, 0, 350, 1, asked);
    }
}

/* The whole fleet with everything as large as it can be. */
static void test_largest_fleet(void)
{
    struct lists fleet = fleet_of(64);
    int32_t all_rated[64], none[64], shares[64], last[64];
    struct numbers n = {3, 100000000, 200000000, 1000, -300000000, 10000};
    for (int i = 0; i < 64; i++) {
        fleet.rated[i + 1] = UINT64_C(10000000000000);
        fleet.reserve[i + 1] = UINT64_C(10000000000000) - 2;
        fleet.stored[i + 1] = UINT64_C(10000000000000);
        fleet.rating[i + 1] = 100000000;
        fleet.weight[i + 1] = 10000;
        fleet.requests[i + 1] = -100000000;
        all_rated[i] = -100000000;
        none[i] = 0;
        shares[i] = -6250000;
        last[i] = i == 63 ? 100000000 - 6250000 : 0;
    }
    /* Full to the last joule, and not. */
    check_pass(&n, &fleet, 0, -400000000, 1, none);
    for (int i = 1; i <= 64; i++)
        fleet.stored[i]--;
    check_pass(&n, &fleet, 0, -400000000, 0, all_rated);
    memset(&fleet.requests[1], 0, sizeof none);
    check_pass(&n, &fleet, 0, -400000000, 1, shares);

    /* A need that takes more than 32 bits, both ways. */
    memcpy(&fleet.requests[1], all_rated, sizeof all_rated);
    n.mode = 1;
    n.target = -100000000;
    n.measure = 300000000;
    check_pass(&n, &fleet, 0, INT64_C(-6000000000), 0, all_rated);
    n.mode = 2;
    n.measure = -300000000;
    check_pass(&n, &fleet, 0, INT64_C(-6800000000), 0, all_rated);
    for (int i = 0; i < 64; i++) {
        all_rated[i] = 100000000;
        shares[i] = 100000000 - 6250000;
    }
    memcpy(&fleet.requests[1], all_rated, sizeof all_rated);
    check_pass(&n, &fleet, 0, -400000000, 1, shares);
    /* Down to the last joule of the reserve, and one unit that has one more. */
    for (int i = 1; i <= 64; i++)
        fleet.reserve[i]++;
    check_pass(&n, &fleet, 0, -400000000, 1, none);
    fleet.reserve[64]--;
    check_pass(&n, &fleet, 0, -400000000, 1, last);
    for (int i = 1; i < 64; i++)
        fleet.reserve[i]--;
    n.mode = 3;
    n.target = -100000000;
    n.measure = 300000000;
    check_pass(&n, &fleet, 0, INT64_C(6800000000), 0, all_rated);

    /* The study takes all of it in one pass, whatever the requests held. */
    n.measure = 100000000;
    for (int i = 0; i < 64; i++)
        shares[i] = 3125000;
    check_settle(&n, &fleet, 0, 1, 1, shares);
}

const struct test pass_tests[] = {
    {"yb_pass: the document's figures B1 to B5", test_pass_figures},
    {"yb_pass: units that are empty or full", test_units_that_cannot_help},
    {"yb_pass, yb_settle: the largest fleet", test_largest_fleet},
    {NULL, NULL},
};
