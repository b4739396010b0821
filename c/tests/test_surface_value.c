/* The tests of yb_value_start and yb_value_len. */
#include <inttypes.h>
#include <stdio.h>

#include "test_surface.h"
#include "yesbrulka.h"

static void check_part(const uint8_t *file, size_t len, uint64_t place, uint64_t start, uint64_t part)
{
    for (int at_end = 0; at_end < 2; at_end++) {
        const uint8_t *lent = lend(file, len, at_end);
        uint64_t got = yb_value_start(lent, len, place);
        uint64_t got_part = yb_value_len(lent, len, place);
        if (got != start || got_part != part) {
            wrong++;
            fprintf(stderr,
                "place %" PRIu64 " of a file of %zu bytes: %" PRIu64 " bytes from %" PRIu64 "; expected %" PRIu64
                " from %" PRIu64 "\n",
                place, len, got_part, got, part, start);
        }
    }
}

static void test_value(void)
{
    uint8_t long_field[300] = {2, 1, 0};
    check_part(complete, 143, 0, 3, 6);
    check_part(complete, 143, 9, 12, 49);
    check_part(complete, 143, 103, 106, 0);
    check_part(complete, 143, 136, 139, 4);
    /* Those bytes that are there, of whatever the place holds. */
    for (size_t len = 139; len <= 143; len++)
        check_part(complete, len, 136, 139, len - 139);
    check_part(complete, 143, 1, 4, 139);
    check_part(complete, 143, 140, 143, 0);
    for (size_t len = 3; len <= 300; len++)
        check_part(long_field, len, 0, 3, len - 3 < 256 ? len - 3 : 256);
    /* Not even the three bytes. */
    for (size_t len = 136; len < 139; len++)
        check_part(complete, len, 136, 136, 0);
    for (uint64_t place = 141; place <= 143; place++)
        check_part(complete, 143, place, place, 0);
    for (uint64_t place = 144; place != 0; place <<= 1)
        check_part(complete, 143, place, 143, 0);
    for (uint64_t place = UINT64_MAX; place > UINT64_MAX - 150; place--)
        check_part(complete, 143, place, 143, 0);
    for (uint64_t place = 0; place < 4; place++)
        check_part(NULL, 0, place, 0, 0);
    if (yb_value_start(NULL, 0, 1) != 0 || yb_value_len(NULL, 0, 1) != 0) {
        wrong++;
        fprintf(stderr, "no file at all: not an empty part at 0\n");
    }
}

const struct test value_tests[] = {
    {"yb_value: parts of a file", test_value},
    {NULL, NULL},
};
