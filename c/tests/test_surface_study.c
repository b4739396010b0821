/* The tests of yb_study: it is yb_settle over a file's fleet and settings. */
#include <inttypes.h>
#include <stdio.h>
#include <stdlib.h>
#include <string.h>

#include "test_surface.h"
#include "test_surface_file.h"
#include "yesbrulka.h"

/* What a study writes, with a place before each and more after it; there is room for a list that is too long. */
struct study {
    int32_t requests[72];
    uint8_t settled[3];
    uint32_t passes[3];
};

/* One study, made twice over different memory: the number, what it stores, and everything else as it was. A list of
** none is lent by no address the second time.
*/
static void check_study(const uint8_t *file, size_t len, int64_t load, uint32_t budget, size_t requests_len,
    uint32_t number, const struct study *right)
{
    for (int at_end = 0; at_end < 2; at_end++) {
        struct study study, due;
        memset(&study, at_end ? 0x5A : 0xFF, sizeof study);
        memcpy(&due, &study, sizeof due);
        if (number == 0) {
            memcpy(due.requests + 1, right->requests + 1, requests_len * sizeof *due.requests);
            due.settled[1] = right->settled[1];
            due.passes[1] = right->passes[1];
        }
        int32_t *requests = at_end && requests_len == 0 ? NULL : study.requests + 1;
        uint32_t got = yb_study(lend(file, len, at_end), len, load, budget, requests, requests_len, &study.settled[1],
            &study.passes[1]);
        if (got != number || memcmp(&study, &due, sizeof due) != 0) {
            wrong++;
            fprintf(stderr,
                "yb_study, a file of %zu bytes, load %" PRId64 ", budget %" PRIu32 ", %zu requests: %" PRIu32
                ", settled %u, passes %" PRIu32 ", first request %" PRId32 "; expected %" PRIu32 ", %u, %" PRIu32
                ", %" PRId32 "\n",
                len, load, budget, requests_len, got, study.settled[1], study.passes[1], study.requests[1], number,
                due.settled[1], due.passes[1], due.requests[1]);
        }
    }
}

/* What yb_settle gives for the file's fleet and settings; they are all in range. */
static void settle(struct study *right, const struct file *file, int64_t load, uint32_t budget)
{
    uint64_t rated[MOST_UNITS], reserve[MOST_UNITS], stored[MOST_UNITS];
    uint32_t rating[MOST_UNITS];
    uint16_t weight[MOST_UNITS];
    size_t n = file->units;
    for (size_t i = 0; i < n; i++) {
        rated[i] = file->unit[i].rated;
        reserve[i] = file->unit[i].reserve;
        stored[i] = file->unit[i].stored;
        rating[i] = file->unit[i].rating;
        weight[i] = file->unit[i].weight;
    }
    uint32_t number = yb_settle(load, file->settings.target, file->settings.band, file->settings.factor, budget, rated,
        n, reserve, n, stored, n, rating, n, weight, n, right->requests + 1, n, &right->settled[1],
        &right->passes[1]);
    if (number != 0) {
        wrong++;
        fprintf(stderr, "yb_settle over a file's fleet, load %" PRId64 ", budget %" PRIu32 ": %" PRIu32 "\n", load,
            budget, number);
    }
}

/* The same, in every mode, with every phase choice and in every edition. */
static void check_same(struct file *file, int64_t load, uint32_t budget)
{
    struct study right;
    settle(&right, file, load, budget);
    for (uint8_t mode = 1; mode <= 3; mode++) {
        file->settings.mode = mode;
        file->settings.phase = (uint8_t)draw(6);
        set_edition(file, (uint8_t)(1 + draw(3)));
        check_study(file->bytes, file->len, load, budget, file->units, 0, &right);
    }
}

/* The fleet of figure C1. */
static void figure_file(struct file *file)
{
    static const struct unit unit = {1000, 100, 500, 100, 1000, 0, 0, 1, 10000, 10000, 10000, 0};
    *file = (struct file){.edition = 1, .units = 2, .seconds = 60, .unit = {unit, unit},
        .settings = {1, 700, 20, 1000, 0}};
    file->unit[1].rating = 1000;
    write_file(file);
}

static void test_study_figure(void)
{
    static const int32_t seconds[] = {150, 175, 187, 193, 193, 193};
    struct file file;
    figure_file(&file);
    for (uint8_t mode = 1; mode <= 3; mode++)
        for (uint8_t phase = 0; phase <= 5; phase++)
            for (uint32_t budget = 1; budget <= 6; budget++) {
                struct study right = {.requests = {0, 100, seconds[budget - 1]}, .settled = {0, budget > 4},
                    .passes = {0, budget < 4 ? budget : 4}};
                file.settings.mode = mode;
                file.settings.phase = phase;
                write_file(&file);
                check_study(file.bytes, file.len, 1000, budget, 2, 0, &right);
            }
}

/* Fleets of every size: as they are drawn, and with a target that the load is above and a narrow band. */
static void test_study_same(void)
{
    struct file file;
    for (size_t units = 1; units <= 64; units++)
        for (int times = 0; times < 4; times++) {
            draw_file(&file, units);
            int64_t load = times == 0 ? (int64_t)draw(100000001) : (int64_t)draw(units * 40000);
            if (times != 0) {
                file.settings.target = (int32_t)(load / (int64_t)(2 + draw(8)));
                file.settings.band = (uint32_t)draw(100);
            }
            check_same(&file, load, (uint32_t)(1 + draw(times < 3 ? 40 : 1000)));
        }
}

/* The numbers at their ends. */
static void test_study_limits(void)
{
    struct file file;
    for (size_t units = 1; units <= 64; units += 21) {
        draw_file(&file, units);
        file.settings.target = 1;
        file.settings.band = 0;
        file.settings.factor = 1;
        check_same(&file, 0, 1);
        check_same(&file, 0, 10000);
        check_same(&file, 100000000, 1);
        check_same(&file, 100000000, 10000);
    }
}

/* Lists that have not the fleet's length, whatever the load and the budget. */
static void test_study_lengths(void)
{
    static const size_t fleets[] = {1, 2, 3, 63, 64};
    struct file file;
    for (size_t i = 0; i < sizeof fleets / sizeof fleets[0]; i++) {
        size_t n = fleets[i], lengths[] = {0, n - 1, n + 1, 65, 70, n < 33 ? 2 * n : n / 2};
        draw_file(&file, n);
        for (size_t k = 0; k < sizeof lengths / sizeof lengths[0]; k++) {
            check_study(file.bytes, file.len, 1000, 10, lengths[k], 10, NULL);
            check_study(file.bytes, file.len, -1, 10, lengths[k], 10, NULL);
            check_study(file.bytes, file.len, 1000, 0, lengths[k], 10, NULL);
        }
    }
}

static void test_study_values(void)
{
    static const int64_t loads[] = {INT64_MIN, -(INT64_C(1) << 32), -100000000, -1, 100000001, INT64_C(1) << 32,
        (INT64_C(1) << 32) + 1000, INT64_MAX};
    static const uint32_t budgets[] = {0, 10001, 1 << 16, (1 << 16) + 10, UINT32_C(1) << 31, UINT32_MAX};
    struct file file;
    figure_file(&file);
    for (size_t i = 0; i < sizeof loads / sizeof loads[0]; i++) {
        check_study(file.bytes, file.len, loads[i], 10, 2, 5, NULL);
        check_study(file.bytes, file.len, loads[i], 0, 2, 5, NULL);
    }
    for (size_t i = 0; i < sizeof budgets / sizeof budgets[0]; i++) {
        check_study(file.bytes, file.len, 1000, budgets[i], 2, 5, NULL);
        check_study(file.bytes, file.len, 100000000, budgets[i], 2, 5, NULL);
    }
}

/* The number of a refused file comes first. */
static void refused_study(const uint8_t *file, size_t len, uint32_t number)
{
    for (size_t requests_len = 0; requests_len < 4; requests_len++)
        check_study(file, len, 1000, 10, requests_len, number, NULL);
    check_study(file, len, 1000, 10, 65, number, NULL);
    check_study(file, len, -1, 10, 2, number, NULL);
    check_study(file, len, 1000, 0, 2, number, NULL);
}

static void test_study_refused(void)
{
    static const struct {
        size_t at;
        uint8_t byte;
        uint32_t number;
    } changes[] = {{0, 0x7E, 2}, {2, 5, 3}, {4, 3, 4}, {3, 2, 3}, {3, 3, 3}, {3, 4, 5}, {4, 0, 5}, {4, 65, 5},
        {53, 0, 5}, {116, 4, 4}, {116, 6, 5}, {127, 6, 5}, {131, 0x7F, 6}, {164, 3, 7}};
    enum { TOO_LONG = 2097153 };
    struct file file;
    uint8_t *bytes = calloc(1, TOO_LONG);
    if (bytes == NULL)
        give_up("no memory for a large file");
    figure_file(&file);
    for (size_t len = 0; len < file.len; len++)
        refused_study(file.bytes, len, yb_check(file.bytes, len));
    for (size_t i = 0; i < sizeof changes / sizeof changes[0]; i++) {
        memcpy(bytes, file.bytes, file.len);
        bytes[changes[i].at] = changes[i].byte;
        refused_study(bytes, file.len, changes[i].number);
    }
    memcpy(bytes, file.bytes, file.len);
    refused_study(bytes, file.len + 1, 9);
    refused_study(bytes, TOO_LONG, 12);
    free(bytes);
}

const struct test study_tests[] = {
    {"yb_study: the document's figure C1, in every mode", test_study_figure},
    {"yb_study: the same as yb_settle", test_study_same},
    {"yb_study: the ends of load and budget", test_study_limits},
    {"yb_study: wrong lengths", test_study_lengths},
    {"yb_study: loads and budgets outside their ranges", test_study_values},
    {"yb_study: refused files", test_study_refused},
    {NULL, NULL},
};
