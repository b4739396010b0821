/* The tests of yb_partner. */
#define _DEFAULT_SOURCE /* for mprotect */
#include <inttypes.h>
#include <stdio.h>
#include <stdlib.h>
#include <string.h>
#include <sys/mman.h>

#include "test_surface.h"
#include "test_surface_file.h"
#include "test_surface_roof.h"
#include "test_surface_voltage.h"
#include "yesbrulka.h"

enum { UNIT = 40, INVERTER = 29, LAST = 7 };

/* A run file of four steps or none: its bytes, the fields that ask for the records of its steps, and last its end
** field, by their places and lengths; and what its run writes.
*/
struct season {
    const uint8_t *file;
    size_t len, inverters, steps;
    struct {
        size_t place, len;
    } asking[5];
    uint8_t ours[4 * (UNIT + INVERTER) + LAST];
    size_t ours_len;
};

/* A result, copied to the start or the end of pages of its own, which cannot be written. */
static const uint8_t *lend_result(const uint8_t *result, size_t len, int at_end)
{
    static struct pages pages;
    uint8_t *lent = open_bytes(&pages, len, 0, at_end);
    if (len != 0)
        memcpy(lent, result, len);
    if (mprotect(pages.open, pages.whole, PROT_READ) != 0)
        give_up("memory to lend");
    return lent;
}

/* The number, and what is stored if it is 0; if it is not, the three are as they were. */
static void check_verdict(const uint8_t *file, size_t len, const uint8_t *result, size_t result_len, uint32_t number,
    uint8_t verdict, uint64_t start, uint64_t shown)
{
    for (int at_end = 0; at_end < 2; at_end++) {
        uint8_t got_verdict = 0xA5;
        uint64_t got_start = UINT64_MAX - 1, got_shown = UINT64_MAX - 2;
        uint32_t got = yb_partner(lend(file, len, at_end), len, lend_result(result, result_len, at_end), result_len,
            &got_verdict, &got_start, &got_shown);
        int is_good = number == 0 ? got_verdict == verdict && got_start == start && got_shown == shown
            : got_verdict == 0xA5 && got_start == UINT64_MAX - 1 && got_shown == UINT64_MAX - 2;
        if (got != number || !is_good) {
            wrong++;
            fprintf(stderr, "yb_partner, a file of %zu bytes and a result of %zu: number %" PRIu32 ", verdict %u, start"
                " %" PRIu64 ", length %" PRIu64 "; expected %" PRIu32 ", %u, %" PRIu64 ", %" PRIu64 "\n", len,
                result_len, got, got_verdict, got_start, got_shown, number, verdict, start, shown);
        }
    }
}

static void run_season(struct season *season)
{
    season->ours_len = (UNIT + INVERTER * season->inverters) * season->steps + LAST;
    if (yb_run(season->file, season->len, season->ours, season->ours_len) != 0)
        wrong++;
}

/* One unit; the same with an inverter and weather; with a function; and no steps. */
static const struct season *seasons(void)
{
    static uint8_t roof[ROOF_LEN], led[LED_LEN], none[76 + LAST];
    static struct season all[] = {
        {complete, sizeof complete, 0, 4, {{76, 27}, {103, 3}, {106, 27}, {133, 3}, {136, LAST}}, {0}, 0},
        {roof, ROOF_LEN, 1, 4, {{381, 3}, {403, 27}, {449, 3}, {452, 3}, {455, LAST}}, {0}, 0},
        {led, LED_LEN, 0, 4, {{217, 3}, {244, 27}, {271, 3}, {279, 27}, {306, LAST}}, {0}, 0},
        {none, sizeof none, 0, 0, {{76, LAST}}, {0}, 0},
        {NULL, 0, 0, 0, {{0, 0}}, {0}, 0},
    };
    put_roof(roof);
    put_led(led);
    memcpy(none, complete, 76);
    memcpy(none + 76, "\x7F\0\4\0\0\0\0", LAST);
    for (struct season *season = all; season->file != NULL; season++)
        run_season(season);
    return all;
}

/* Where the field of a result begins that a byte is in, and the bytes that it has. */
static size_t field_from(const struct season *season, size_t place, size_t *len)
{
    size_t step = UNIT + INVERTER * season->inverters, of = place % step;
    int is_end = place >= step * season->steps;
    *len = is_end ? LAST : of < UNIT ? UNIT : INVERTER;
    return is_end ? step * season->steps : place - (of < UNIT ? of : of - UNIT);
}

/* A result that is wrong from a byte on, or ends there. */
static void check_wrong(const struct season *season, const uint8_t *result, size_t len, size_t place)
{
    size_t size, from = field_from(season, place, &size), step = from / (UNIT + INVERTER * season->inverters);
    if (from < len)
        check_verdict(season->file, season->len, result, len, 0, 1, from, len - from < size ? len - from : size);
    else
        check_verdict(season->file, season->len, result, len, 0, 2, season->asking[step].place,
            season->asking[step].len);
}

static void test_right(void)
{
    uint8_t limited[sizeof complete + MORE], ours[4 * UNIT + LAST];
    for (const struct season *season = seasons(); season->file != NULL; season++)
        check_verdict(season->file, season->len, season->ours, season->ours_len, 0, 0, 0, 0);
    for (uint8_t edition = 2; edition <= 3; edition++) {
        size_t len = put_limited(limited, edition, complete, sizeof complete, 7, 5000);
        wrong += yb_run(limited, len, ours, sizeof ours) != 0;
        check_verdict(limited, len, ours, sizeof ours, 0, 0, 0, 0);
        ours[23] ^= 1;
        check_verdict(limited, len, ours, sizeof ours, 0, 1, 0, UNIT);
    }
}

/* Every byte of a result changed, alone, and with bytes behind that the result lacks or has too many. */
static void test_changed(void)
{
    uint8_t result[sizeof ((struct season *)NULL)->ours + 9];
    for (const struct season *season = seasons(); season->file != NULL; season++)
        for (size_t place = 0; place < season->ours_len; place++)
            for (uint8_t change = 1; change != 0; change = (uint8_t)(change << 7)) {
                memset(result, 0, sizeof result);
                memcpy(result, season->ours, season->ours_len);
                result[place] ^= change;
                check_wrong(season, result, season->ours_len, place);
                check_wrong(season, result, season->ours_len + 9, place);
                check_wrong(season, result, place + 1, place);
            }
}

/* Every cut, and everything behind the end. */
static void test_cut(void)
{
    uint8_t result[sizeof ((struct season *)NULL)->ours + 5000];
    for (const struct season *season = seasons(); season->file != NULL; season++) {
        for (size_t len = 0; len < season->ours_len; len++)
            check_wrong(season, season->ours, len, len);
        memcpy(result, season->ours, season->ours_len);
        memset(result + season->ours_len, 0x1F, sizeof result - season->ours_len);
        for (size_t more = 1; more <= 5000 && season->ours_len + more <= sizeof result; more += more < 90 ? 1 : 701)
            check_verdict(season->file, season->len, result, season->ours_len + more, 0, 1, season->ours_len, more);
    }
}

/* Every cut of a run file, whatever the result is; and the two files exchanged. */
static void test_refused(void)
{
    for (const struct season *season = seasons(); season->file != NULL; season++) {
        for (size_t len = 0; len < season->len; len++) {
            uint32_t number = yb_check(season->file, len);
            wrong += number == 0;
            check_verdict(season->file, len, season->ours, season->ours_len, number, 0, 0, 0);
            check_verdict(season->file, len, NULL, 0, number, 0, 0, 0);
        }
        check_verdict(season->ours, season->ours_len, season->file, season->len, 2, 0, 0, 0);
    }
}

static void test_size(void)
{
    uint8_t *file = calloc(1, YB_MOST_FILE_BYTES + 1);
    if (file == NULL)
        give_up("no memory for a large file");
    memcpy(file, complete, sizeof complete);
    check_verdict(file, YB_MOST_FILE_BYTES + 1, complete, sizeof complete, 12, 0, 0, 0);
    check_verdict(file, YB_MOST_FILE_BYTES, complete, sizeof complete, 9, 0, 0, 0);
    free(file);
}

static void test_no_address(void)
{
    uint8_t verdict = 0xA5;
    uint64_t start = 1, len = 2;
    wrong += yb_partner(NULL, 0, NULL, 0, &verdict, &start, &len) != 8;
    wrong += verdict != 0xA5 || start != 1 || len != 2;
    wrong += yb_partner(complete, sizeof complete, NULL, 0, &verdict, &start, &len) != 0;
    wrong += verdict != YB_LACKING || start != 76 || len != 27;
    /* One list may be lent twice. */
    wrong += yb_partner(complete, sizeof complete, complete, sizeof complete, &verdict, &start, &len) != 0;
    wrong += verdict != YB_WRONG || start != 0 || len != UNIT;
    wrong += yb_partner(complete, 76, complete, 76, &verdict, &start, &len) != 8;
    wrong += verdict != YB_WRONG || start != 0 || len != UNIT;
}

/* Results of other files; and bytes of no result. */
static void test_others(void)
{
    static const uint8_t none[300] = {0};
    const struct season *all = seasons();
    for (size_t i = 0; i < 4; i++) {
        for (size_t k = 0; k < 4; k++) {
            size_t place = 0, least = all[k].ours_len < all[i].ours_len ? all[k].ours_len : all[i].ours_len;
            while (place < least && all[i].ours[place] == all[k].ours[place])
                place++;
            if (i != k && place < all[i].ours_len)
                check_wrong(&all[i], all[k].ours, all[k].ours_len, place);
        }
        for (size_t len = 0; len <= sizeof none; len++)
            check_wrong(&all[i], none, len, 0);
    }
}

/* Fleets and roofs of any size, of two steps: a byte of every record. */
static void test_fleets(void)
{
    static struct file file;
    static uint8_t ours[2 * (UNIT + INVERTER) * MOST_UNITS + LAST];
    for (size_t units = 1; units <= MOST_UNITS; units += 9) {
        draw_file(&file, units);
        file.inverters = units == 1 ? 0 : units;
        write_file(&file);
        size_t roof = UNIT * units, step = roof + INVERTER * file.inverters, len = 2 * step + LAST;
        wrong += yb_run(file.bytes, file.len, ours, len) != 0;
        check_verdict(file.bytes, file.len, ours, len, 0, 0, 0, 0);
        for (size_t from = 0, size; from < len; from += size) {
            size_t byte = from + draw(size = from >= 2 * step ? LAST : from % step < roof ? UNIT : INVERTER);
            ours[byte] ^= 0x10;
            check_verdict(file.bytes, file.len, ours, len, 0, 1, from, size);
            check_verdict(file.bytes, file.len, ours, byte + 1, 0, 1, from, byte + 1 - from);
            ours[byte] ^= 0x10;
        }
        check_verdict(file.bytes, file.len, ours, 2 * step, 0, 2, file.len - LAST, LAST);
    }
}

/* As many steps as there can be. */
static void test_most_steps(void)
{
    enum { FILE_LEN = 76 + 3 * YB_MOST_STEPS + LAST, OURS = UNIT * YB_MOST_STEPS + LAST };
    uint8_t *file = malloc(FILE_LEN), *ours = malloc(OURS + 1);
    if (file == NULL || ours == NULL)
        give_up("no memory for a large file");
    memcpy(file, complete, 76);
    for (size_t step = 0; step < YB_MOST_STEPS; step++)
        memcpy(file + 76 + 3 * step, "\5\0", 3);
    memcpy(file + FILE_LEN - LAST, "\x7F\0\4\0\0\xFF\xFF", LAST);
    wrong += yb_run(file, FILE_LEN, ours, OURS) != 0;
    ours[OURS] = 0;
    check_verdict(file, FILE_LEN, ours, OURS, 0, 0, 0, 0);
    check_verdict(file, FILE_LEN, ours, OURS + 1, 0, 1, OURS, 1);
    check_verdict(file, FILE_LEN, ours, OURS - LAST, 0, 2, FILE_LEN - LAST, LAST);
    check_verdict(file, FILE_LEN, ours, OURS - LAST - UNIT, 0, 2, FILE_LEN - LAST - 3, 3);
    ours[OURS - LAST - 1] ^= 1;
    check_verdict(file, FILE_LEN, ours, OURS, 0, 1, OURS - LAST - UNIT, UNIT);
    free(file);
    free(ours);
}

const struct test partner_tests[] = {
    {"yb_partner: right results", test_right},
    {"yb_partner: every byte changed", test_changed},
    {"yb_partner: every cut, and bytes behind the end", test_cut},
    {"yb_partner: run files that are refused", test_refused},
    {"yb_partner: the size of the run file", test_size},
    {"yb_partner: lists of none, and one list lent twice", test_no_address},
    {"yb_partner: results of other files, and bytes of none", test_others},
    {"yb_partner: fleets and roofs of any size", test_fleets},
    {"yb_partner: as many steps as there can be", test_most_steps},
    {NULL, NULL},
};
