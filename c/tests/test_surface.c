/* A plain C test of every function of the header: hostile values, results, and memory left alone. Each
** failed check is a line on standard error; the last line counts the tests. The parts beside this one, which are
** named after it, have the tests.
*/
#define _DEFAULT_SOURCE /* for mmap's anonymous memory */
#include <stdio.h>
#include <stdlib.h>
#include <string.h>
#include <sys/mman.h>

#include "test_surface.h"

unsigned long wrong;

const uint8_t complete[] = {
    /* fleet: edition, units, seconds */
    0x01, 0, 6, 1, 1, 0, 0, 0, 60,
    /* unit: rated, reserve and stored; R, S, idle loss and var request; weight and efficiencies; priority */
    0x02, 0, 49, 0, 0, 0, 0, 0, 0x0F, 0x42, 0x40, 0, 0, 0, 0, 0, 0x01, 0x86, 0xA0, 0, 0, 0, 0, 0, 0x09, 0x27, 0xC0,
    0, 0, 0x13, 0x88, 0, 0, 0x13, 0x88, 0, 0, 0, 10, 0, 0, 0, 0, 0, 1, 0x23, 0x28, 0x1F, 0x40, 0x1F, 0x40, 0,
    /* settings: mode, target, band, factor, phase */
    0x03, 0, 12, 1, 0, 0, 0x02, 0xBC, 0, 0, 0, 20, 0x03, 0xE8, 0,
    /* 1.5, -0.0625 and 100,000 kW, none, the same, none */
    0x04, 0, 24, 0x3F, 0xF8, 0, 0, 0, 0, 0, 0, 0xBF, 0xB0, 0, 0, 0, 0, 0, 0, 0x40, 0xF8, 0x6A, 0, 0, 0, 0, 0,
    0x05, 0, 0,
    0x04, 0, 24, 0x3F, 0xF8, 0, 0, 0, 0, 0, 0, 0xBF, 0xB0, 0, 0, 0, 0, 0, 0, 0x40, 0xF8, 0x6A, 0, 0, 0, 0, 0,
    0x05, 0, 0,
    /* end */
    0x7F, 0, 4, 0, 0, 0, 4,
};

_Noreturn void give_up(const char *why)
{
    perror(why);
    exit(2);
}

uint8_t *open_pages(void)
{
    uint8_t *all = mmap(NULL, ROOM + 2 * EDGE, PROT_NONE, MAP_PRIVATE | MAP_ANONYMOUS, -1, 0);
    if (all == MAP_FAILED)
        give_up("no memory to lend");
    return all + EDGE;
}

const uint8_t *lend(const uint8_t *file, size_t len, int at_end)
{
    static uint8_t *room;
    if (room == NULL)
        room = open_pages();
    size_t whole = (len + EDGE - 1) / EDGE * EDGE;
    uint8_t *at = at_end ? room + ROOM - len : room;
    uint8_t *pages = at_end ? room + ROOM - whole : room;
    if (mprotect(room, ROOM, PROT_NONE) != 0 || mprotect(pages, whole, PROT_READ | PROT_WRITE) != 0)
        give_up("memory to lend");
    if (len != 0)
        memcpy(at, file, len);
    if (mprotect(pages, whole, PROT_READ) != 0)
        give_up("memory to lend");
    return at;
}

uint8_t *open_bytes(struct pages *pages, size_t len, uint8_t fill, int at_end)
{
    if (pages->all == NULL)
        pages->all = open_pages();
    pages->len = len;
    pages->whole = (len + EDGE - 1) / EDGE * EDGE;
    pages->open = at_end ? pages->all + ROOM - pages->whole : pages->all;
    pages->lent = at_end ? pages->all + ROOM - len : pages->all;
    if (mprotect(pages->all, ROOM, PROT_NONE) != 0
        || mprotect(pages->open, pages->whole, PROT_READ | PROT_WRITE) != 0)
        give_up("memory to lend");
    memset(pages->open, fill, pages->whole);
    return pages->lent;
}

int spilled(const struct pages *pages, size_t used, uint8_t fill)
{
    for (const uint8_t *at = pages->open; at < pages->open + pages->whole; at++)
        if ((at < pages->lent || at >= pages->lent + used) && *at != fill)
            return 1;
    return 0;
}

static const struct test *const parts[] = {
    header_tests, check_tests, value_tests, told_tests, run_tests, feed_tests, rescue_tests, partner_tests, peaks_tests,
    watts_tests, pass_tests, current_tests, settle_tests, study_tests, fleet_tests, step_tests, roof_tests, solar_tests,
    curve_tests, voltage_tests,
};

int main(void)
{
    unsigned passed = 0, failed = 0;
    for (size_t i = 0; i < sizeof parts / sizeof parts[0]; i++)
        for (const struct test *test = parts[i]; test->name != NULL; test++) {
            wrong = 0;
            test->run();
            passed += wrong == 0;
            failed += wrong != 0;
            if (wrong != 0)
                fprintf(stderr, "FAILED %s: %lu wrong checks\n", test->name, wrong);
        }
    printf("%u passed, %u failed\n", passed, failed);
    return fflush(stdout) == 0 && failed == 0 ? 0 : 1;
}
