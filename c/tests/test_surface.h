/* What the parts of test_surface share: the tests' names, the count of what is wrong, a complete file, and memory to
** lend files from. Each part is about one call or a few that belong together.
*/
#ifndef TEST_SURFACE_H
#define TEST_SURFACE_H

#include <stddef.h>
#include <stdint.h>

struct test {
    const char *name;
    void (*run)(void);
};

/* The tests of the parts, each list up to one without a name. */
extern const struct test header_tests[], check_tests[], value_tests[], told_tests[], run_tests[], feed_tests[],
    rescue_tests[], partner_tests[], peaks_tests[], watts_tests[], pass_tests[], current_tests[], settle_tests[],
    study_tests[], fleet_tests[], step_tests[], roof_tests[], solar_tests[], curve_tests[], voltage_tests[];

/* Wrong checks of the test that is running. */
extern unsigned long wrong;

/* The test program itself cannot go on. */
_Noreturn void give_up(const char *why);

/* A complete file of one unit and four steps. Its fields are at 0, 9, 61, 76, 103, 106, 133 and 136. */
extern const uint8_t complete[143];

/* The check's number, place and steps, of a file at the start and at the end of its pages. */
void check_file(const uint8_t *file, size_t len, uint32_t number, uint64_t place, uint32_t steps);

/* Pages of which none can be read or written yet, between pages of which none ever can. EDGE is a multiple of every
** page size.
*/
enum { EDGE = 65536, ROOM = 72 * EDGE };
uint8_t *open_pages(void);

/* A file, copied to the start or the end of such pages, ready to be lent: it cannot be read before or after, and
** nothing in it can be written. A program that does either dies. It is there until the next one is lent.
*/
const uint8_t *lend(const uint8_t *file, size_t len, int at_end);

/* Pages to lend a room from, of which only those are open that its bytes lie in. */
struct pages {
    uint8_t *all, *open, *lent;
    size_t len, whole;
};

/* Open bytes at the start or the end of their pages, to be written; all bytes of these have the fill. */
uint8_t *open_bytes(struct pages *pages, size_t len, uint8_t fill, int at_end);

/* 1 if a byte of the open pages, but for the first so many that are lent, has lost its fill. */
int spilled(const struct pages *pages, size_t used, uint8_t fill);

#endif
