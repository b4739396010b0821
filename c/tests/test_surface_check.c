/* The tests of yb_check and its companions. */
#include <inttypes.h>
#include <stdio.h>
#include <stdlib.h>
#include <string.h>

#include "test_surface.h"
#include "test_surface_file.h"
#include "yesbrulka.h"

/* The answer of a check. */
struct answer {
    uint32_t number;
    uint64_t place;
    uint32_t steps;
};

/* One that is not as expected is told, with what was called. */
static void expect_answer(const char *call, size_t len, struct answer got, struct answer due)
{
    if (got.number == due.number && got.place == due.place && got.steps == due.steps)
        return;
    wrong++;
    fprintf(stderr,
        "%s, a file of %zu bytes: %" PRIu32 " at %" PRIu64 " after %" PRIu32 "; expected %" PRIu32 " at %" PRIu64
        " after %" PRIu32 "\n",
        call, len, got.number, got.place, got.steps, due.number, due.place, due.steps);
}

/* yb_checked: its two numbers are written for every answer, whatever they were, and nothing beside them is. */
static void check_at_once(const uint8_t *lent, size_t len, struct answer due)
{
    struct {
        uint64_t before, place, between;
        uint32_t steps, after;
    } out, clean;
    for (int fill = 0; fill < 2; fill++) {
        memset(&clean, fill == 0 ? 0x5A : 0xFF, sizeof clean);
        out = clean;
        uint32_t number = yb_checked(lent, len, &out.place, &out.steps);
        expect_answer("yb_checked", len, (struct answer){number, out.place, out.steps}, due);
        if (out.before != clean.before || out.between != clean.between || out.after != clean.after) {
            wrong++;
            fprintf(stderr, "yb_checked, a file of %zu bytes: something beside place and steps was written\n", len);
        }
    }
}

void check_file(const uint8_t *file, size_t len, uint32_t number, uint64_t place, uint32_t steps)
{
    struct answer due = {number, place, steps};
    for (int at_end = 0; at_end < 2; at_end++) {
        const uint8_t *lent = lend(file, len, at_end);
        struct answer got = {yb_check(lent, len), yb_check_place(lent, len), yb_check_steps(lent, len)};
        expect_answer("the three calls", len, got, due);
        check_at_once(lent, len, due);
    }
}

static void test_check_complete(void)
{
    uint8_t file[sizeof complete], limited[sizeof complete + MORE];
    check_file(complete, sizeof complete, 0, 143, 4);
    /* No steps at all. */
    memcpy(file, complete, 76);
    memcpy(file + 76, "\x7F\0\4\0\0\0\0", 7);
    check_file(file, 83, 0, 83, 0);
    for (uint8_t edition = 2; edition <= 3; edition++)
        check_file(limited, put_limited(limited, edition, file, 83, 5000, 0), 0, 91, 0);
}

/* The fields of the complete file by their places, and its end; and those of the same in editions 2 and 3. */
enum { FIELDS = 8 };
static const size_t fields[] = {0, 9, 61, 76, 103, 106, 133, 136, 143};
static const size_t limited_fields[] = {0, 9, 69, 84, 111, 114, 141, 144, 151};

/* The same with limits, which may be 0 to 5,000, the S of its unit. */
static size_t put_complete(uint8_t *file, uint8_t edition, uint32_t provide, uint32_t absorb)
{
    return put_limited(file, edition, complete, sizeof complete, provide, absorb);
}

static void check_cut(const uint8_t *file, const size_t *places)
{
    uint32_t steps = 0;
    for (int field = 0; field < FIELDS; field++) {
        check_file(file, places[field], 8, places[field], steps);
        for (size_t len = places[field] + 1; len < places[field + 1]; len++)
            check_file(file, len, 1, places[field], steps);
        steps += field >= 3;
    }
}

/* Bytes that run out are no end. */
static void test_check_cut(void)
{
    uint8_t limited[sizeof complete + MORE];
    check_cut(complete, fields);
    for (uint8_t edition = 2; edition <= 3; edition++) {
        put_complete(limited, edition, 5000, 0);
        check_cut(limited, limited_fields);
    }
    struct answer none = {yb_check(NULL, 0), yb_check_place(NULL, 0), yb_check_steps(NULL, 0)};
    expect_answer("the three calls", 0, none, (struct answer){8, 0, 0});
    check_at_once(NULL, 0, (struct answer){8, 0, 0});
}

static void test_check_after(void)
{
    uint8_t file[2 * sizeof complete];
    memcpy(file, complete, sizeof complete);
    memcpy(file + sizeof complete, complete, sizeof complete);
    for (size_t len = sizeof complete + 1; len <= sizeof file; len++)
        check_file(file, len, 9, 143, 4);
    for (int byte = 0; byte < 256; byte++) {
        file[sizeof complete] = (uint8_t)byte;
        check_file(file, sizeof complete + 1, 9, 143, 4);
    }
}

/* The file with one byte changed. */
static void test_check_changed(void)
{
    static const struct change changes[] = {
        {0, 0x00, 2, 0, 0}, {0, 0xFF, 2, 0, 0}, {0, 0x02, 3, 0, 0}, {1, 1, 3, 0, 0}, {2, 5, 3, 0, 0},
        /* edition, unit count, seconds */
        {3, 0, 5, 0, 0}, {3, 2, 3, 9, 0}, {3, 3, 3, 9, 0}, {3, 4, 5, 0, 0}, {3, 255, 5, 0, 0}, {4, 0, 5, 0, 0},
        {4, 65, 5, 0, 0}, {4, 255, 5, 0, 0}, {4, 2, 4, 61, 0}, {4, 64, 4, 61, 0}, {8, 0, 5, 0, 0}, {6, 2, 5, 0, 0},
        {5, 0x80, 5, 0, 0}, {6, 1, 0, 143, 4},
        /* the unit */
        {9, 0x7E, 2, 9, 0}, {9, 0x01, 3, 9, 0}, {11, 48, 3, 9, 0}, {11, 57, 3, 9, 0}, {12, 1, 5, 9, 0},
        {20, 1, 5, 9, 0}, {25, 0x0F, 5, 9, 0}, {28, 0x80, 5, 9, 0}, {33, 0x10, 5, 9, 0}, {36, 0xFF, 5, 9, 0},
        {40, 0xFF, 5, 9, 0}, {44, 1, 5, 9, 0}, {46, 0x20, 5, 9, 0}, {46, 0x11, 0, 143, 4}, {48, 0x80, 5, 9, 0},
        {48, 0x7F, 5, 9, 0}, {48, 0xFF, 0, 143, 4}, {52, 0x40, 5, 9, 0}, {53, 0, 5, 9, 0}, {54, 0, 5, 9, 0},
        {54, 0x28, 5, 9, 0}, {56, 0, 5, 9, 0}, {58, 0, 5, 9, 0}, {60, 1, 0, 143, 4}, {60, 2, 5, 9, 0},
        {60, 255, 5, 9, 0},
        /* the settings */
        {61, 0x02, 3, 61, 0}, {64, 0, 5, 61, 0}, {64, 3, 0, 143, 4}, {64, 4, 4, 76, 0}, {64, 5, 4, 76, 0},
        {64, 6, 5, 61, 0}, {65, 0x80, 5, 61, 0}, {65, 0xFF, 0, 143, 4}, {69, 0xFF, 5, 61, 0},
        {73, 4, 5, 61, 0}, {75, 5, 0, 143, 4}, {75, 6, 5, 61, 0},
        /* the readings */
        {76, 0x0D, 2, 76, 0}, {76, 0x06, 3, 76, 0}, {76, 0x07, 3, 76, 0}, {76, 0x08, 3, 76, 0}, {78, 25, 3, 76, 0},
        {79, 0x7F, 6, 76, 0}, {79, 0xBF, 0, 143, 4}, {87, 0xFF, 6, 76, 0},
        {95, 0x41, 6, 76, 0}, {102, 1, 0, 143, 4}, {103, 0x7F, 3, 103, 1}, {103, 0x0D, 2, 103, 1},
        {105, 1, 3, 103, 1}, {109, 0x7F, 6, 106, 2}, {117, 0x7F, 6, 106, 2}, {125, 0x7F, 6, 106, 2},
        {133, 0x80, 2, 133, 3},
        /* the end */
        {136, 0x05, 3, 136, 4}, {138, 0, 3, 136, 4}, {142, 3, 7, 136, 4}, {142, 5, 7, 136, 4}, {139, 1, 7, 136, 4},
        {140, 1, 7, 136, 4},
    };
    check_changes(complete, sizeof complete, changes, sizeof changes / sizeof changes[0]);
}

/* Limits of any size, of a unit whose S is 5,000. */
static void check_limits(uint8_t edition)
{
    static const uint32_t within[] = {0, 1, 4999, 5000}, beyond[] = {5001, 100000000, UINT32_C(1) << 31, UINT32_MAX};
    uint8_t file[sizeof complete + MORE];
    for (int i = 0; i < 4; i++)
        for (int j = 0; j < 4; j++) {
            check_file(file, put_complete(file, edition, within[i], within[j]), 0, 151, 4);
            check_file(file, put_complete(file, edition, within[i], beyond[j]), 5, 9, 0);
            check_file(file, put_complete(file, edition, beyond[i], within[j]), 5, 9, 0);
            check_file(file, put_complete(file, edition, beyond[i], beyond[j]), 5, 9, 0);
        }
    /* The limits that an S of 4,999 does not hold, and those of a second unit. */
    static const struct change changes[] = {{43, 0x87, 5, 9, 0}, {43, 0x88, 0, 151, 4}};
    put_complete(file, edition, 5000, 0);
    check_changes(file, sizeof file, changes, 2);
    put_complete(file, edition, 0, 5000);
    check_changes(file, sizeof file, changes, 2);
    uint8_t two[sizeof file + 60];
    memcpy(two, file, 69);
    two[4] = 2;
    memcpy(two + 69, file + 9, sizeof file - 9);
    check_file(two, sizeof two, 0, 211, 4);
    two[69 + 59]++;
    check_file(two, sizeof two, 5, 69, 0);
}

static void test_check_limits(void)
{
    check_limits(2);
    check_limits(3);
}

/* An idle loss of a unit whose S is 5,000 is taken, or refused. */
static void check_loss(const uint8_t *file, size_t len, int is_taken)
{
    check_file(file, len, is_taken ? 0 : 5, is_taken ? len : 9, is_taken ? 4 : 0);
}

/* In editions 1 and 2 the idle draw, which is 10 parts in 9 of the idle loss, is held against S. */
static void test_check_idle_loss(void)
{
    static const uint32_t losses[] = {0, 4500, 4501, 10000000, 10000001, UINT32_C(1) << 31, UINT32_MAX};
    enum { LOSS = 44, MOST_DRAWN = 4500, MOST_LOSS = 10000000 };
    uint8_t file[sizeof complete], limited[sizeof complete + MORE];
    memcpy(file, complete, sizeof complete);
    for (size_t i = 0; i < sizeof losses / sizeof losses[0]; i++) {
        put(file + LOSS, losses[i], 4);
        check_loss(file, sizeof file, losses[i] <= MOST_DRAWN);
        for (uint8_t edition = 2; edition <= 3; edition++)
            check_loss(limited, put_limited(limited, edition, file, sizeof file, 5000, 0),
                losses[i] <= (edition == 2 ? MOST_DRAWN : MOST_LOSS));
    }
}

/* The file in editions 2 and 3 with one byte changed: its length is tested before its values. */
static void test_check_limited(void)
{
    static const struct change changes[] = {
        {3, 0, 5, 0, 0}, {3, 1, 3, 9, 0}, {3, 2, 0, 151, 4}, {3, 3, 0, 151, 4}, {3, 4, 5, 0, 0}, {3, 255, 5, 0, 0},
        {4, 2, 4, 69, 0}, {10, 1, 3, 9, 0}, {11, 49, 3, 9, 0}, {11, 56, 3, 9, 0}, {11, 58, 3, 9, 0},
        {60, 1, 0, 151, 4}, {60, 2, 5, 9, 0}, {61, 1, 5, 9, 0}, {64, 0xFF, 0, 151, 4}, {65, 1, 5, 9, 0},
        {68, 0xFF, 0, 151, 4}, {69, 0x02, 3, 69, 0}, {72, 4, 4, 84, 0}, {72, 6, 5, 69, 0}, {87, 0x7F, 6, 84, 0},
        {150, 3, 7, 144, 4},
    };
    uint8_t file[sizeof complete + MORE];
    for (uint8_t edition = 2; edition <= 3; edition++) {
        put_complete(file, edition, 0, 0);
        check_changes(file, sizeof file, changes, sizeof changes / sizeof changes[0]);
        file[11] = 49;
        file[12] = 1;
        check_file(file, sizeof file, 3, 9, 0);
    }
}

/* A unit where none may be has the length of its edition, and before any fleet that of edition 1, to be out of order.
*/
static void check_lone_unit(uint8_t edition)
{
    uint8_t file[2 * sizeof complete], limited[sizeof complete + MORE];
    size_t len = put_complete(limited, edition, 0, 0);
    check_file(complete + 9, 52, 4, 0, 0);
    check_file(complete + 9, 51, 1, 0, 0);
    for (size_t cut = 3; cut <= 60; cut++)
        check_file(limited + 9, cut, 3, 0, 0);
    /* Behind the fleet's units, and behind the settings. */
    for (int field = 2; field <= 3; field++) {
        size_t place = fields[field], further = limited_fields[field];
        memcpy(file, complete, place);
        memcpy(file + place, complete + 9, 52);
        check_file(file, place + 52, 4, place, 0);
        memcpy(file + place, limited + 9, 60);
        check_file(file, place + 60, 3, place, 0);
        memcpy(file, limited, further);
        memcpy(file + further, limited + 9, 60);
        check_file(file, further + 60, 4, further, 0);
        memcpy(file + further, complete + 9, 52);
        check_file(file, further + 52, 3, further, 0);
    }
    /* Bytes behind the end are not looked at. */
    memcpy(file, limited, len);
    memcpy(file + len, complete + 9, 52);
    check_file(file, len + 52, 9, len, 4);
}

static void test_check_lone_unit(void)
{
    check_lone_unit(2);
    check_lone_unit(3);
}

/* Fields of the file in another order, by their numbers from 0. */
static void test_check_order(void)
{
    static const struct {
        const char *order;
        uint32_t number;
        uint64_t place;
        uint32_t steps;
    } orders[] = {
        {"1", 4, 0, 0}, {"7", 4, 0, 0}, {"00", 4, 9, 0}, {"02", 4, 9, 0}, {"011", 4, 61, 0}, {"013", 4, 61, 0},
        {"014", 4, 61, 0}, {"017", 4, 61, 0}, {"0122", 4, 76, 0}, {"01241", 4, 79, 1}, {"012440", 4, 82, 2},
        {"012", 8, 76, 0}, {"01244447", 0, 95, 4}, {"012444457", 7, 115, 5}, {"01233447", 0, 143, 4},
    };
    for (size_t i = 0; i < sizeof orders / sizeof orders[0]; i++) {
        uint8_t file[2 * sizeof complete];
        size_t len = 0;
        for (const char *c = orders[i].order; *c != '\0'; c++) {
            size_t field = (size_t)(*c - '0'), bytes = fields[field + 1] - fields[field];
            memcpy(file + len, complete + fields[field], bytes);
            len += bytes;
        }
        check_file(file, len, orders[i].number, orders[i].place, orders[i].steps);
    }
}

static void test_check_large(void)
{
    enum { HEAD = 76, MOST = 2097152, LAST = HEAD + 3 * 65535 };
    uint8_t *file = calloc(1, 2 * MOST);
    if (file == NULL)
        give_up("no memory for a large file");
    memcpy(file, complete, sizeof complete);
    check_file(file, MOST, 9, 143, 4);
    check_file(file, MOST + 1, 12, 0, 0);
    check_file(file, 2 * MOST, 12, 0, 0);
    memset(file, 0xFF, 2 * MOST);
    check_file(file, MOST, 2, 0, 0);
    check_file(file, MOST + 1, 12, 0, 0);

    memset(file, 0, 2 * MOST);
    memcpy(file, complete, HEAD);
    for (int step = 0; step < 65536; step++)
        file[HEAD + 3 * step] = 0x05;
    check_file(file, LAST + 1, 1, LAST, 65535);
    check_file(file, LAST + 3, 12, LAST, 65535);
    check_file(file, MOST, 12, LAST, 65535);
    memcpy(file + LAST, "\x04\0\x18\xFF\xFF\xFF", 6);
    check_file(file, LAST + 27, 12, LAST, 65535);
    check_file(file, LAST + 26, 1, LAST, 65535);
    memcpy(file + LAST, "\x7F\0\4\0\0\xFF\xFF", 7);
    check_file(file, LAST + 7, 0, LAST + 7, 65535);
    check_file(file, LAST, 8, LAST, 65535);
    file[LAST + 6]--;
    check_file(file, LAST + 7, 7, LAST, 65535);
    free(file);
}

const struct test check_tests[] = {
    {"yb_check: complete files", test_check_complete},
    {"yb_check: files cut at every byte", test_check_cut},
    {"yb_check: bytes after the end", test_check_after},
    {"yb_check: single bytes changed", test_check_changed},
    {"yb_check: var limits of any size", test_check_limits},
    {"yb_check: idle losses in every edition", test_check_idle_loss},
    {"yb_check: editions 2 and 3, single bytes changed", test_check_limited},
    {"yb_check: units of either length where none may be", test_check_lone_unit},
    {"yb_check: fields in another order", test_check_order},
    {"yb_check: as many steps and bytes as there can be", test_check_large},
    {NULL, NULL},
};
