/* The tests of yb_settle alone; those of its refusals are with the fleets. */
#include <inttypes.h>
#include <stdio.h>
#include <string.h>

#include "test_surface.h"
#include "test_surface_fleet.h"
#include "yesbrulka.h"

void check_settle(const struct numbers *n, const struct lists *before, uint32_t number, uint8_t settled,
    uint32_t passes, const int32_t *requests)
{
    for (int i = 0; i < 2; i++) {
        uint32_t fill = i == 0 ? 0x5A5A5A5A : UINT32_MAX;
        struct lists lists;
        uint32_t counts[3] = {fill, fill, fill};
        uint8_t settles[3] = {(uint8_t)fill, (uint8_t)fill, (uint8_t)fill};
        memcpy(&lists, before, sizeof lists);
        uint32_t got = yb_settle(n->measure, n->target, n->band, n->factor, n->budget, LENT_LISTS(&lists, i),
            &settles[1], &counts[1]);
        int good = got == number && lists_as_expected(&lists, before, number, requests) &&
            counts[1] == (number == 0 ? passes : fill) && settles[1] == (number == 0 ? settled : (uint8_t)fill) &&
            counts[0] == fill && counts[2] == fill && settles[0] == (uint8_t)fill && settles[2] == (uint8_t)fill;
        if (!good) {
            wrong++;
            tell_lists("yb_settle", n, before);
            fprintf(stderr,
                "    number %" PRIu32 ", settled %d, passes %" PRIu32 ", first request %" PRId32
                "; expected %" PRIu32 ", %d, %" PRIu32 "\n",
                got, settles[1], counts[1], lists.requests[1], number, settled, passes);
        }
    }
}

static void test_settle_figure(void)
{
    static const int32_t seconds[] = {150, 175, 187, 193, 193, 193};
    struct numbers n = {0, 700, 20, 1000, 1000, 0};
    struct lists two = fleet_of(2);
    two.rating[1] = 100;
    for (n.budget = 1; n.budget <= 6; n.budget++) {
        const int32_t requests[] = {100, seconds[n.budget - 1]};
        two.requests[1] = INT32_MIN;
        two.requests[2] = (int32_t)n.budget;
        check_settle(&n, &two, 0, n.budget > 4, n.budget < 4 ? n.budget : 4, requests);
    }
    n.budget = 10000;
    check_settle(&n, &two, 0, 1, 4, (int32_t[]){100, 193});
}

const struct test settle_tests[] = {
    {"yb_settle: the document's figure C1", test_settle_figure},
    {NULL, NULL},
};
