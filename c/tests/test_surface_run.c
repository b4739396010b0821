/* The tests of yb_run_room and yb_run. */
#include <inttypes.h>
#include <stdio.h>
#include <stdlib.h>
#include <string.h>
#include <sys/mman.h>

#include "test_surface.h"
#include "test_surface_file.h"
#include "test_surface_roof.h"
#include "yesbrulka.h"

/* The whole case of document 01: one unit that draws 1,000 W, one missing reading; and its result. */
static const uint8_t whole_case[] = {
    0x01, 0, 6, 1, 1, 0, 0, 0, 60,
    0x02, 0, 49, 0, 0, 0, 0, 0, 0x36, 0xEE, 0x80, 0, 0, 0, 0, 0, 0, 0, 0, 0, 0, 0, 0, 0, 0x36, 0xEE, 0x80, 0x05, 0xF5,
    0xE1, 0, 0x05, 0xF5, 0xE1, 0, 0, 0, 0x03, 0xE8, 0, 0, 0, 0, 0, 1, 0x27, 0x10, 0x27, 0x10, 0x27, 0x10, 0,
    0x03, 0, 12, 1, 0, 0, 0, 0, 0, 0, 0, 0, 0x03, 0xE8, 0,
    0x05, 0, 0,
    0x7F, 0, 4, 0, 0, 0, 1,
};
static const uint8_t whole_result[] = {
    0x11, 0, 0x25, 0, 0, 0, 0, 0, 0, 0, 0, 0, 0xBF, 0xF0, 0, 0, 0, 0, 0, 0, 0, 0, 0, 0,
    0, 0, 0, 0, 0, 0x36, 0xEE, 0x80, 0, 0, 0, 0, 0, 0, 0xEA, 0x60,
    0x1F, 0, 4, 0, 0, 0, 1,
};

/* The unit of the figures, with a store of 251,499 J: it is asked 900 W and gives 900 (figure D1), 899 (D2) and
** nothing, which draws 12 W.
*/
static const uint8_t giving_result[] = {
    0x11, 0, 0x25, 0, 0, 0, 0, 0, 0, 0, 0x03, 0x84, 0x3F, 0xEC, 0xCC, 0xCC, 0xCC, 0xCC, 0xCC, 0xCD, 0, 0, 0, 0,
    0, 0, 0, 0, 0, 0x02, 0xAE, 0x85, 0, 0, 0, 0, 0, 0, 0x54, 0xF6,
    0x11, 0, 0x25, 0, 0, 0, 1, 0, 0, 0, 0x03, 0x84, 0x3F, 0xEC, 0xC4, 0x9B, 0xA5, 0xE3, 0x53, 0xF8, 0, 0, 0, 0,
    0, 0, 0, 0, 0, 0x01, 0x86, 0xEA, 0, 0, 0, 0, 0, 0, 0x54, 0xE7,
    0x11, 0, 0x25, 0, 0, 0, 2, 0, 0, 0, 0x03, 0x84, 0xBF, 0x88, 0x93, 0x74, 0xBC, 0x6A, 0x7E, 0xFA, 0, 0, 0, 0,
    0, 0, 0, 0, 0, 0x01, 0x86, 0xEA, 0, 0, 0, 0, 0, 0, 0x02, 0xD0,
    0x1F, 0, 4, 0, 0, 0, 3,
};

static const uint8_t no_steps[] = {0x1F, 0, 4, 0, 0, 0, 0};

/* One run into a room of a given length at the start or the end of its pages: the number, the result at the room's
** start, and every other byte as it was.
*/
static void check_room(const uint8_t *file, size_t len, size_t room_len, int at_end, uint32_t number,
    const uint8_t *result, size_t result_len)
{
    static uint8_t *results;
    size_t whole = (room_len + EDGE - 1) / EDGE * EDGE, written = number == 0 ? result_len : 0, bad = 0;
    if (results == NULL)
        results = open_pages();
    uint8_t *pages = at_end ? results + ROOM - whole : results;
    uint8_t *lent = at_end ? results + ROOM - room_len : results;
    uint8_t fill = at_end ? 0x5A : 0xFF;
    if (mprotect(results, ROOM, PROT_NONE) != 0 || mprotect(pages, whole, PROT_READ | PROT_WRITE) != 0)
        give_up("room to lend");
    memset(pages, fill, whole);
    uint32_t got = yb_run(lend(file, len, at_end), len, lent, room_len);
    if (written != 0 && memcmp(lent, result, written) != 0)
        bad++;
    for (uint8_t *at = pages; at < pages + whole; at++)
        bad += (at < lent || at >= lent + written) && *at != fill;
    if (got != number || bad != 0) {
        wrong++;
        fprintf(stderr, "yb_run, a file of %zu bytes, room of %zu: number %" PRIu32 "; expected %" PRIu32 "%s\n", len,
            room_len, got, number, bad == 0 ? "" : "; the room is not as expected");
    }
}

static void check_run_room(const uint8_t *file, size_t len, uint64_t due)
{
    for (int at_end = 0; at_end < 2; at_end++) {
        uint64_t got = yb_run_room(lend(file, len, at_end), len);
        if (got != due) {
            wrong++;
            fprintf(stderr, "yb_run_room, a file of %zu bytes: %" PRIu64 ", expected %" PRIu64 "\n", len, got, due);
        }
    }
}

/* A complete file: rooms that fit, are longer, or are too short by any number of bytes. */
static void check_run(const uint8_t *file, size_t len, const uint8_t *result, size_t due)
{
    check_run_room(file, len, due);
    for (int at_end = 0; at_end < 2; at_end++) {
        for (size_t more = 0; more < 90; more++)
            check_room(file, len, due + more, at_end, 0, result, due);
        check_room(file, len, ROOM, at_end, 0, result, due);
        for (size_t room_len = 0; room_len < due; room_len++)
            check_room(file, len, room_len, at_end, 11, NULL, 0);
    }
}

/* A file that is not complete, with rooms of any length. */
static void refused_run(const uint8_t *file, size_t len, uint32_t number)
{
    check_run_room(file, len, 0);
    for (int at_end = 0; at_end < 2; at_end++)
        for (size_t room_len = 0; room_len < 400; room_len += 47)
            check_room(file, len, room_len, at_end, number, NULL, 0);
}

/* The fields of a file of one unit and of several steps that ask it nothing anew. */
static size_t giving_file(uint8_t *file)
{
    memcpy(file, complete, 76);
    memcpy(file + 28, "\0\0\0\0\0\x03\xD6\x6B", 8);
    memset(file + 65, 0, 8);
    memcpy(file + 76, "\x04\0\x18\x3F\xEC\xCC\xCC\xCC\xCC\xCC\xCD", 11);
    memset(file + 87, 0, 16);
    memcpy(file + 103, "\x05\0\0\x05\0\0\x7F\0\4\0\0\0\3", 13);
    return 116;
}

static void test_run_figures(void)
{
    uint8_t file[sizeof complete];
    check_run(whole_case, sizeof whole_case, whole_result, sizeof whole_result);
    check_run(file, giving_file(file), giving_result, sizeof giving_result);
}

/* Where both limits are S an edition 2 file gives the result of edition 1; the units of the figures are asked no vars,
** and give that result with any limits. In edition 3 the idle unit of the whole case, whose inverter has no losses,
** draws the same.
*/
static void test_run_wide_limits(void)
{
    uint8_t file[sizeof complete], limited[sizeof complete + MORE];
    size_t len = giving_file(file);
    for (uint8_t edition = 2; edition <= 3; edition++)
        check_run(limited, put_limited(limited, edition, whole_case, sizeof whole_case, 100000000, 100000000),
            whole_result, sizeof whole_result);
    check_run(limited, put_limited(limited, 2, file, len, 5000, 5000), giving_result, sizeof giving_result);
    check_run(limited, put_limited(limited, 2, file, len, 0, 0), giving_result, sizeof giving_result);
}

/* A record of a fleet's only unit. */
static void put_record(uint8_t *at, uint32_t step, int32_t request, const char *kw, int32_t vars, uint64_t stored,
    uint64_t loss)
{
    put(at, 0x110025, 3);
    put(at + 3, step, 4);
    put(at + 7, 0, 1);
    put(at + 8, (uint32_t)request, 4);
    memcpy(at + 12, kw, 8);
    put(at + 20, (uint32_t)vars, 4);
    put(at + 24, stored, 8);
    put(at + 32, loss, 8);
}

/* Figure D4 in a file of one unit, whose R and S are 1,000, and which is asked 1,000 W and 700 var or minus 700: vars
** first and watts first with its limits, in editions 2 and 3, and vars first in edition 1; and what it gives in each of
** two steps. It has no idle loss, so that it does not matter where that sits.
*/
static const struct limited_run {
    uint8_t edition;
    int32_t var_request;
    uint8_t priority;
    uint32_t watts;
    int32_t vars;
    const char *kw;
} limited_runs[] = {
    {2, 700, 1, 800, 600, "\x3F\xE9\x99\x99\x99\x99\x99\x9A"},
    {2, -700, 1, 953, -300, "\x3F\xEE\x7E\xF9\xDB\x22\xD0\xE5"},
    {2, 700, 0, 1000, 0, "\x3F\xF0\0\0\0\0\0"},
    {3, 700, 1, 800, 600, "\x3F\xE9\x99\x99\x99\x99\x99\x9A"},
    {3, -700, 1, 953, -300, "\x3F\xEE\x7E\xF9\xDB\x22\xD0\xE5"},
    {3, 700, 0, 1000, 0, "\x3F\xF0\0\0\0\0\0"},
    {1, 700, 1, 714, 700, "\x3F\xE6\xD9\x16\x87\x2B\x02\x0C"},
    {1, -700, 1, 714, -700, "\x3F\xE6\xD9\x16\x87\x2B\x02\x0C"},
};

/* A reading of 1 kW and a missing one. */
static size_t limited_case(uint8_t *to, const struct limited_run *run)
{
    uint8_t file[sizeof complete];
    memcpy(file, whole_case, 76);
    put(file + 36, 1000, 4);
    put(file + 40, 1000, 4);
    put(file + 44, 0, 4);
    put(file + 48, (uint32_t)run->var_request, 4);
    file[60] = run->priority;
    memcpy(file + 76, "\x04\0\x18\x3F\xF0\0\0\0\0\0\0", 11);
    memset(file + 87, 0, 16);
    memcpy(file + 103, "\x05\0\0\x7F\0\4\0\0\0\2", 10);
    if (run->edition != 1)
        return put_limited(to, run->edition, file, 113, 600, 300);
    memcpy(to, file, 113);
    return 113;
}

/* Two steps of a minute, from 3,600,000 J and without losses. */
static size_t limited_result(uint8_t *result, const struct limited_run *run)
{
    for (uint32_t step = 0; step < 2; step++)
        put_record(result + 40 * step, step, 1000, run->kw, run->vars, 3600000 - 60 * (step + 1) * run->watts, 0);
    memcpy(result + 80, "\x1F\0\4\0\0\0\2", 7);
    return 87;
}

static void test_run_limits(void)
{
    uint8_t file[sizeof complete + MORE], result[87];
    for (size_t i = 0; i < sizeof limited_runs / sizeof limited_runs[0]; i++) {
        size_t len = limited_case(file, &limited_runs[i]);
        check_run(file, len, result, limited_result(result, &limited_runs[i]));
        for (size_t cut = 0; cut < len; cut++)
            refused_run(file, cut, yb_check(file, cut));
    }
    /* Limits beyond S. */
    size_t len = limited_case(file, &limited_runs[0]);
    file[63] = 0x04;
    refused_run(file, len, 5);
    file[63] = 0;
    file[67] = 0x04;
    refused_run(file, len, 5);
}

/* The unit of the figures in edition 3, through a reading and two missing ones: it gives the 900 W of figure D5, then 3
** W, which is less than its idle loss, and then nothing; or it takes the 1,000 W of the figure, then 2 W, and then
** nothing. A step has the power at the grid, the store after it and the loss.
*/
static const struct older_run {
    uint8_t mode;
    int32_t request;
    const char *reading;
    uint64_t stored;
    struct {
        const char *kw;
        uint64_t stored, loss;
    } steps[3];
} older_runs[] = {
    {1, 900, "\x3F\xEC\xCC\xCC\xCC\xCC\xCC\xCD", 175374,
        {{"\x3F\xEC\x7A\xE1\x47\xAE\x14\x7B", 100374, 21600}, {"\xBF\x7C\xAC\x08\x31\x26\xE9\x79", 100074, 720},
            {"\xBF\x84\x7A\xE1\x47\xAE\x14\x7B", 100074, 600}}},
    {3, -1000, "\xBF\xF0\0\0\0\0\0", 956752,
        {{"\xBF\xF0\x28\xF5\xC2\x8F\x5C\x29", 999952, 17400}, {"\xBF\x88\x93\x74\xBC\x6A\x7E\xFA", 1000000, 672},
            {"\xBF\x84\x7A\xE1\x47\xAE\x14\x7B", 1000000, 600}}},
};

static void test_run_older(void)
{
    uint8_t file[sizeof complete], older[sizeof complete + MORE], result[127];
    for (size_t i = 0; i < sizeof older_runs / sizeof older_runs[0]; i++) {
        const struct older_run *run = &older_runs[i];
        size_t len = giving_file(file);
        put(file + 28, run->stored, 8);
        put(file + 64, run->mode, 1);
        memcpy(file + 79, run->reading, 8);
        for (uint32_t step = 0; step < 3; step++)
            put_record(result + 40 * step, step, run->request, run->steps[step].kw, 0, run->steps[step].stored,
                run->steps[step].loss);
        memcpy(result + 120, "\x1F\0\4\0\0\0\3", 7);
        len = put_limited(older, 3, file, len, 5000, 5000);
        check_run(older, len, result, sizeof result);
        for (size_t cut = 0; cut < len; cut++)
            refused_run(older, cut, yb_check(older, cut));
    }
}

/* A unit that draws 1,000 W and an inverter of 8,000 VA, through four steps: 60 W of DC power, which is between cut-out
** and cut-in; 10,000 W, of which the limit leaves 5,000; 60 W again; and no weather.
*/
static size_t roof_case(uint8_t *file)
{
    put_roof(file);
    memcpy(file, whole_case, 76);
    memcpy(file + 403, "\x05\0\0", 3);
    memmove(file + 406, file + 430, ROOF_LEN - 430);
    return ROOF_LEN - 24;
}

static const uint8_t roof_records[] = {
    0x12, 0, 0x1A, 0, 0, 0, 0, 0, 0, 0, 0, 0, 0, 0, 0, 0, 0, 0, 0, 0, 0, 0, 0, 0, 0, 0, 0, 0, 60,
    0x12, 0, 0x1A, 0, 0, 0, 1, 0, 1, 0x40, 0x14, 0, 0, 0, 0, 0, 0, 0xFF, 0xFF, 0xF4, 0x48, 0, 0, 0, 0, 0, 0, 0x27, 0x10,
    /* 57 W are 0.057 kW */
    0x12, 0, 0x1A, 0, 0, 0, 2, 0, 1, 0x3F, 0xAD, 0x2F, 0x1A, 0x9F, 0xBE, 0x76, 0xC9, 0xFF, 0xFF, 0xF4, 0x48, 0, 0, 0, 0,
    0, 0, 0, 60,
    0x12, 0, 0x1A, 0, 0, 0, 3, 0, 0, 0, 0, 0, 0, 0, 0, 0, 0, 0, 0, 0, 0, 0, 0, 0, 0, 0, 0, 0, 0,
};

/* The records of the units of a step, and those of its inverters, each as many times as there are. */
static size_t roof_result(uint8_t *result, int units, int inverters)
{
    uint8_t *at = result;
    for (int step = 0; step < 4; step++) {
        for (int unit = 0; unit < units; unit++, at += 40) {
            memcpy(at, whole_result, 40);
            at[6] = (uint8_t)step;
            at[7] = (uint8_t)unit;
        }
        for (int inverter = 0; inverter < inverters; inverter++, at += 29) {
            memcpy(at, roof_records + 29 * step, 29);
            at[7] = (uint8_t)inverter;
        }
    }
    memcpy(at, "\x1F\0\4\0\0\0\4", 7);
    return (size_t)(at + 7 - result);
}

static void test_run_roof(void)
{
    uint8_t file[ROOF_LEN], result[400];
    size_t len = roof_case(file);
    check_run(file, len, result, roof_result(result, 1, 1));
    for (size_t cut = 0; cut < len; cut++)
        refused_run(file, cut, yb_check(file, cut));
    /* Weather without an inverter is nothing to the units. */
    memmove(file + 76, file + 362, len - 362);
    check_run(file, len - 286, result, roof_result(result, 1, 0));
}

/* As many units and inverters as there can be. */
static void test_run_most_inverters(void)
{
    enum { MANY = 64, INVERTER = 286, HEAD = 9 + 52 * MANY + 15, DUE = (40 + 29) * MANY * 4 + 7 };
    uint8_t one[ROOF_LEN], *file = calloc(1, HEAD + INVERTER * MANY + ROOF_LEN), *result = calloc(1, DUE);
    if (file == NULL || result == NULL)
        give_up("no memory for a large file");
    size_t len = roof_case(one), steps = len - 362;
    memcpy(file, one, 9);
    file[4] = MANY;
    for (int i = 0; i < MANY; i++)
        memcpy(file + 9 + 52 * i, one + 9, 52);
    memcpy(file + HEAD - 15, one + 61, 15);
    for (int i = 0; i < MANY; i++)
        memcpy(file + HEAD + INVERTER * i, one + 76, INVERTER);
    len = HEAD + INVERTER * MANY + steps;
    memcpy(file + len - steps, one + 362, steps);
    if (roof_result(result, MANY, MANY) != DUE)
        give_up("the result's length");
    check_run_room(file, len, DUE);
    for (int at_end = 0; at_end < 2; at_end++) {
        check_room(file, len, DUE, at_end, 0, result, DUE);
        check_room(file, len, DUE + 1, at_end, 0, result, DUE);
        check_room(file, len, DUE - 1, at_end, 11, NULL, 0);
        check_room(file, len, 40 * MANY * 4 + 7, at_end, 11, NULL, 0);
        check_room(file, len - 1, DUE, at_end, 1, NULL, 0);
    }
    free(file);
    free(result);
}

static void test_run_no_steps(void)
{
    uint8_t file[sizeof complete];
    memcpy(file, complete, 76);
    memcpy(file + 76, "\x7F\0\4\0\0\0\0", 7);
    check_run(file, 83, no_steps, sizeof no_steps);
}

static void test_run_refused(void)
{
    uint8_t file[sizeof complete + 1];
    for (size_t len = 0; len < sizeof complete; len++)
        refused_run(complete, len, yb_check(complete, len));
    memcpy(file, complete, sizeof complete);
    file[sizeof complete] = 0;
    refused_run(file, sizeof file, 9);
    /* One byte of each field: tag, length, order, edition, unit, settings, reading, count. */
    static const struct {
        size_t at;
        uint8_t byte;
        uint32_t number;
    } changes[] = {{0, 0x7E, 2}, {2, 5, 3}, {4, 2, 4}, {3, 2, 3}, {3, 3, 3}, {3, 4, 5}, {4, 65, 5}, {53, 0, 5},
        {64, 4, 4}, {64, 6, 5}, {79, 0x7F, 6}, {142, 3, 7}};
    for (size_t i = 0; i < sizeof changes / sizeof changes[0]; i++) {
        memcpy(file, complete, sizeof complete);
        file[changes[i].at] = changes[i].byte;
        refused_run(file, sizeof complete, changes[i].number);
    }
    /* Nothing at all, lent by no address. */
    if (yb_run_room(NULL, 0) != 0 || yb_run(NULL, 0, NULL, 0) != 8) {
        wrong++;
        fprintf(stderr, "no file at all: not 8, or not a room of 0\n");
    }
    if (yb_run(lend(whole_case, sizeof whole_case, 0), sizeof whole_case, NULL, 0) != 11) {
        wrong++;
        fprintf(stderr, "no room at all: not 11\n");
    }
}

/* As many units and steps as fit the room, of which nothing is asked: every record is the unit's draw. */
static void test_run_large(void)
{
    enum { UNITS = 64, STEPS = 1800, HEAD = 9 + 52 * UNITS + 15, LEN = HEAD + 3 * STEPS + 7,
        DUE = 40 * UNITS * STEPS + 7 };
    uint8_t *file = calloc(1, LEN), *result = calloc(1, DUE);
    if (file == NULL || result == NULL)
        give_up("no memory for a large file");
    memcpy(file, whole_case, 9);
    file[4] = UNITS;
    for (int i = 0; i < UNITS; i++)
        memcpy(file + 9 + 52 * i, whole_case + 9, 52);
    memcpy(file + HEAD - 15, whole_case + 61, 15);
    for (int step = 0; step < STEPS; step++)
        file[HEAD + 3 * step] = 0x05;
    memcpy(file + LEN - 7, "\x7F\0\4\0\0\x07\x08", 7);
    for (int i = 0; i < UNITS * STEPS; i++) {
        memcpy(result + 40 * i, whole_result, 40);
        result[40 * i + 5] = (uint8_t)(i / UNITS >> 8);
        result[40 * i + 6] = (uint8_t)(i / UNITS);
        result[40 * i + 7] = (uint8_t)(i % UNITS);
    }
    memcpy(result + DUE - 7, "\x1F\0\4\0\0\x07\x08", 7);
    check_run_room(file, LEN, DUE);
    for (int at_end = 0; at_end < 2; at_end++) {
        check_room(file, LEN, DUE, at_end, 0, result, DUE);
        check_room(file, LEN, DUE + 1, at_end, 0, result, DUE);
        check_room(file, LEN, DUE - 1, at_end, 11, NULL, 0);
        check_room(file, LEN, DUE - 7, at_end, 11, NULL, 0);
        check_room(file, LEN - 1, DUE, at_end, 1, NULL, 0);
    }
    free(file);
    free(result);
}

const struct test run_tests[] = {
    {"yb_run: the document's whole case, and figures D1 and D2 in a row", test_run_figures},
    {"yb_run: editions 2 and 3, where they change nothing", test_run_wide_limits},
    {"yb_run: editions 2 and 3, figure D4, and edition 1 beside it", test_run_limits},
    {"yb_run: edition 3, figure D5 in a row", test_run_older},
    {"yb_run: an inverter in four weathers", test_run_roof},
    {"yb_run: 64 units and 64 inverters", test_run_most_inverters},
    {"yb_run: no steps", test_run_no_steps},
    {"yb_run: refused files", test_run_refused},
    {"yb_run: 64 units", test_run_large},
    {NULL, NULL},
};
