/* The tests of yb_units, yb_inverters, yb_seconds, yb_settings, yb_unit, yb_var_limits and yb_connection: what a
** complete file says.
*/
#include <inttypes.h>
#include <stdio.h>
#include <stdlib.h>
#include <string.h>

#include "test_surface.h"
#include "test_surface_file.h"
#include "yesbrulka.h"

/* What yb_settings, yb_unit, yb_var_limits and yb_connection write, each number between two of its kind. */
struct told_settings {
    uint8_t mode[3];
    int32_t target[3];
    uint32_t band[3];
    uint16_t factor[3];
    uint8_t phase[3];
};

struct told_unit {
    uint64_t rated[3], reserve[3], stored[3];
    uint32_t rating[3], kva[3], idle_loss[3];
    int32_t var_request[3];
    uint16_t weight[3], inverter[3], charge[3], discharge[3];
    uint8_t priority[3];
};

struct told_limits {
    uint32_t provide[3], absorb[3];
};

struct told_connection {
    uint8_t phases[3];
    uint16_t volts[3];
};

/* The memory of a call, and the same as it is due where nothing is written; another at the end of the pages. */
static void paint(void *told, void *due, size_t len, int at_end)
{
    memset(told, at_end ? 0x5A : 0xFF, len);
    memcpy(due, told, len);
}

/* The numbers of units and inverters and the seconds, of a file at the start and at the end of its pages; all three are
** 0 for a refused file.
*/
static void check_site(const uint8_t *file, size_t len, uint32_t units, uint32_t inverters, uint32_t seconds)
{
    for (int at_end = 0; at_end < 2; at_end++) {
        const uint8_t *lent = lend(file, len, at_end);
        uint32_t got = yb_units(lent, len), got_inverters = yb_inverters(lent, len);
        uint32_t got_seconds = yb_seconds(lent, len);
        if (got != units || got_inverters != inverters || got_seconds != seconds) {
            wrong++;
            fprintf(stderr,
                "a file of %zu bytes: %" PRIu32 " units, %" PRIu32 " inverters, %" PRIu32 " s; expected %" PRIu32
                ", %" PRIu32 ", %" PRIu32 "\n",
                len, got, got_inverters, got_seconds, units, inverters, seconds);
        }
    }
}

/* The number, the settings or nothing written, and the memory beside them; twice over different memory. */
static void check_settings(const uint8_t *file, size_t len, uint32_t number, const struct settings *settings)
{
    for (int at_end = 0; at_end < 2; at_end++) {
        struct told_settings told, due;
        paint(&told, &due, sizeof due, at_end);
        if (number == 0) {
            due.mode[1] = settings->mode;
            due.target[1] = settings->target;
            due.band[1] = settings->band;
            due.factor[1] = settings->factor;
            due.phase[1] = settings->phase;
        }
        uint32_t got = yb_settings(lend(file, len, at_end), len, &told.mode[1], &told.target[1], &told.band[1],
            &told.factor[1], &told.phase[1]);
        if (got != number || memcmp(&told, &due, sizeof due) != 0) {
            wrong++;
            fprintf(stderr, "yb_settings, a file of %zu bytes: %" PRIu32 ", mode %u, target %" PRId32 ", band %" PRIu32
                ", factor %u, phase %u; expected %" PRIu32 "%s\n",
                len, got, told.mode[1], told.target[1], told.band[1], told.factor[1], told.phase[1], number,
                got == number ? ", and other memory" : "");
        }
    }
}

/* The memory of yb_unit as it is due: the unit's values in it. */
static void put_unit(struct told_unit *due, const struct unit *unit)
{
    due->rated[1] = unit->rated;
    due->reserve[1] = unit->reserve;
    due->stored[1] = unit->stored;
    due->rating[1] = unit->rating;
    due->kva[1] = unit->kva;
    due->idle_loss[1] = unit->idle_loss;
    due->var_request[1] = unit->var_request;
    due->weight[1] = unit->weight;
    due->inverter[1] = unit->inverter;
    due->charge[1] = unit->charge;
    due->discharge[1] = unit->discharge;
    due->priority[1] = unit->priority;
}

/* The same for a unit, which is NULL where the number is another than 0. */
static void check_unit(const uint8_t *file, size_t len, uint32_t which, uint32_t number, const struct unit *unit)
{
    for (int at_end = 0; at_end < 2; at_end++) {
        struct told_unit told, due;
        paint(&told, &due, sizeof due, at_end);
        if (number == 0)
            put_unit(&due, unit);
        uint32_t got = yb_unit(lend(file, len, at_end), len, which, &told.rated[1], &told.reserve[1], &told.stored[1],
            &told.rating[1], &told.kva[1], &told.idle_loss[1], &told.var_request[1], &told.weight[1],
            &told.inverter[1], &told.charge[1], &told.discharge[1], &told.priority[1]);
        if (got != number || memcmp(&told, &due, sizeof due) != 0) {
            wrong++;
            fprintf(stderr, "yb_unit, unit %" PRIu32 " of a file of %zu bytes: %" PRIu32 ", expected %" PRIu32 "%s\n",
                which, len, got, number, got == number ? ", and other memory" : "");
        }
    }
}

/* The same for its var limits. */
static void check_limits(const uint8_t *file, size_t len, uint32_t which, uint32_t number, const struct limits *limits)
{
    for (int at_end = 0; at_end < 2; at_end++) {
        struct told_limits told, due;
        paint(&told, &due, sizeof due, at_end);
        if (number == 0) {
            due.provide[1] = limits->provide;
            due.absorb[1] = limits->absorb;
        }
        uint32_t got = yb_var_limits(lend(file, len, at_end), len, which, &told.provide[1], &told.absorb[1]);
        if (got != number || memcmp(&told, &due, sizeof due) != 0) {
            wrong++;
            fprintf(stderr, "yb_var_limits, unit %" PRIu32 " of a file of %zu bytes: %" PRIu32 ", %" PRIu32 " and %"
                PRIu32 "; expected %" PRIu32 ", %" PRIu32 " and %" PRIu32 "\n",
                which, len, got, told.provide[1], told.absorb[1], number, due.provide[1], due.absorb[1]);
        }
    }
}

/* The same for its connection. */
static void check_connection(const uint8_t *file, size_t len, uint32_t which, uint32_t number,
    const struct connection *connection)
{
    for (int at_end = 0; at_end < 2; at_end++) {
        struct told_connection told, due;
        paint(&told, &due, sizeof due, at_end);
        if (number == 0) {
            due.phases[1] = connection->phases;
            due.volts[1] = connection->volts;
        }
        uint32_t got = yb_connection(lend(file, len, at_end), len, which, &told.phases[1], &told.volts[1]);
        if (got != number || memcmp(&told, &due, sizeof due) != 0) {
            wrong++;
            fprintf(stderr, "yb_connection, unit %" PRIu32 " of a file of %zu bytes: %" PRIu32 ", %u and %u; expected %"
                PRIu32 ", %u and %u\n",
                which, len, got, told.phases[1], told.volts[1], number, due.phases[1], due.volts[1]);
        }
    }
}

/* A unit that the file has; in edition 1 its S is both its limits. */
static void check_there(const struct file *file, uint32_t which)
{
    const struct unit *unit = &file->unit[which];
    struct limits kva = {unit->kva, unit->kva};
    check_unit(file->bytes, file->len, which, 0, unit);
    check_limits(file->bytes, file->len, which, 0, file->edition == 1 ? &kva : &file->limits[which]);
    check_connection(file->bytes, file->len, which, file->is_connected ? 0 : 10, &file->connection[which]);
}

/* Nothing of a unit, for it is not there or its file is refused. */
static void not_told(const uint8_t *file, size_t len, uint32_t which, uint32_t number)
{
    check_unit(file, len, which, number, NULL);
    check_limits(file, len, which, number, NULL);
    check_connection(file, len, which, number, NULL);
}

/* All of what a file says, and nothing of units that it has not. */
static void check_told(const struct file *file)
{
    check_site(file->bytes, file->len, (uint32_t)file->units, (uint32_t)file->inverters, file->seconds);
    check_settings(file->bytes, file->len, 0, &file->settings);
    for (uint32_t which = 0; which < file->units; which++)
        check_there(file, which);
    for (uint32_t which = (uint32_t)file->units; which < 256; which++)
        not_told(file->bytes, file->len, which, 10);
    /* Numbers that a narrower count would take for one of the fleet. */
    for (int bit = 8; bit < 32; bit++)
        for (uint32_t low = 0; low < 2; low++)
            not_told(file->bytes, file->len, (UINT32_C(1) << bit) + low, 10);
    not_told(file->bytes, file->len, UINT32_MAX, 10);
    not_told(file->bytes, file->len, UINT32_MAX / 52, 10);
    not_told(file->bytes, file->len, UINT32_MAX / 60, 10);
}

/* The same of the file in every edition. */
static void check_editions(struct file *file)
{
    for (uint8_t edition = 1; edition <= 3; edition++) {
        set_edition(file, edition);
        check_told(file);
    }
}

/* Nothing of a file that is not complete; its number comes before that of the unit. */
static void refused_told(const uint8_t *file, size_t len, uint32_t number)
{
    static const uint32_t units[] = {0, 1, 63, 64, 255, UINT32_MAX};
    check_site(file, len, 0, 0, 0);
    check_settings(file, len, number, NULL);
    for (size_t i = 0; i < sizeof units / sizeof units[0]; i++)
        not_told(file, len, units[i], number);
}

/* The file cut at every byte. */
static void cut_told(const struct file *file)
{
    for (size_t len = 0; len < file->len; len++)
        refused_told(file->bytes, len, yb_check(file->bytes, len));
}

static void test_told_complete(void)
{
    struct file file;
    for (size_t units = 1; units <= 64; units += units < 4 || units > 61 ? 1 : 19)
        for (int times = 0; times < 3; times++) {
            draw_file(&file, units);
            check_editions(&file);
        }
}

/* Connections, in every mode, with inverters and without; and what is refused of them. */
static void test_told_connected(void)
{
    struct file file;
    for (uint8_t mode = 1; mode <= 5; mode++)
        for (size_t units = 1; units <= 64; units += units < 3 || units > 61 ? 1 : 29)
            for (size_t inverters = 0; inverters <= 2; inverters += 2) {
                draw_file(&file, units);
                file.inverters = inverters;
                connect_file(&file, mode);
                check_editions(&file);
            }
    enum { CONNECTIONS = 76 };
    for (uint8_t mode = 1; mode <= 5; mode++) {
        draw_file(&file, 1);
        connect_file(&file, mode);
        cut_told(&file);
        /* Two phases, no volts, volts beyond the most, another length, and connections in their own place only. */
        check_changes(file.bytes, file.len, (struct change[]){{CONNECTIONS + 3, 2, 5, CONNECTIONS, 0},
            {CONNECTIONS + 3, 0, 5, CONNECTIONS, 0}, {CONNECTIONS + 4, 0xFF, 5, CONNECTIONS, 0},
            {CONNECTIONS + 2, 6, 3, CONNECTIONS, 0}, {61 + 3, mode < 4 ? 4 : 1, 5, CONNECTIONS + 6, 0}}, 5);
        file.is_connected = 0;
        write_file(&file);
        check_file(file.bytes, file.len, mode < 4 ? 0 : 4, mode < 4 ? file.len : CONNECTIONS, mode < 4 ? 2 : 0);
    }
}

/* Inverters, none to as many as there can be, change nothing of what is told of the fleet. */
static void test_told_roof(void)
{
    struct file file;
    for (size_t inverters = 0; inverters <= 64; inverters += inverters < 3 || inverters > 61 ? 1 : 15)
        for (size_t units = 1; units <= 64; units += 63) {
            draw_file(&file, units);
            file.inverters = inverters;
            check_editions(&file);
        }
    /* Cut at every byte, and one inverter too many. */
    draw_file(&file, 1);
    file.inverters = 2;
    write_file(&file);
    cut_told(&file);
    enum { HEAD = 76, INVERTER = 286 };
    uint8_t *bytes = calloc(1, HEAD + 65 * INVERTER + 7);
    if (bytes == NULL)
        give_up("no memory for a large file");
    memcpy(bytes, file.bytes, HEAD);
    for (size_t i = 0; i < 65; i++)
        memcpy(bytes + HEAD + INVERTER * i, file.bytes + HEAD, INVERTER);
    memcpy(bytes + HEAD + 65 * INVERTER, "\x7F\0\4\0\0\0\0", 7);
    refused_told(bytes, HEAD + 65 * INVERTER + 7, 4);
    memcpy(bytes + HEAD + 64 * INVERTER, "\x7F\0\4\0\0\0\0", 7);
    check_site(bytes, HEAD + 64 * INVERTER + 7, 1, 64, file.seconds);
    free(bytes);
}

/* A function, with inverters and without, in every mode, changes nothing of what is told. */
static void test_told_led(void)
{
    struct file file;
    for (uint8_t mode = 1; mode <= 5; mode++)
        for (size_t units = 1; units <= 64; units += units < 3 || units > 61 ? 1 : 29)
            for (size_t inverters = 0; inverters <= 64; inverters += 32) {
                draw_file(&file, units);
                file.inverters = inverters;
                file.is_led = 1;
                connect_file(&file, mode);
                check_editions(&file);
            }
    /* Cut at every byte; and without the function its voltage is out of order. */
    draw_file(&file, 1);
    file.is_led = 1;
    write_file(&file);
    cut_told(&file);
    enum { FUNCTION = 76, BYTES = 136, FIRST_STEP = 27 };
    memmove(file.bytes + FUNCTION, file.bytes + FUNCTION + BYTES, file.len - FUNCTION - BYTES);
    check_file(file.bytes, file.len - BYTES, 4, FUNCTION + FIRST_STEP, 1);
    refused_told(file.bytes, file.len - BYTES, 4);
}

/* Every value at its least and at its most. */
static void test_told_limits(void)
{
    static const struct unit least = {1, 0, 0, 1, 1, 0, -100000000, 1, 1000, 1000, 1000, 0};
    static const struct unit most = {UINT64_C(10000000000000), UINT64_C(10000000000000), UINT64_C(10000000000000),
        100000000, 100000000, 10000000, 100000000, 10000, 10000, 10000, 10000, 1};
    struct file file = {.units = 2, .seconds = 1, .unit = {least, most}, .limits = {{0, 1}, {0, 100000000}},
        .settings = {1, -100000000, 0, 1, 0}};
    check_editions(&file);
    file.seconds = 86400;
    file.unit[0] = most;
    file.unit[1] = least;
    file.limits[0] = (struct limits){100000000, 0};
    file.limits[1] = (struct limits){1, 0};
    file.settings = (struct settings){3, 100000000, 200000000, 1000, 5};
    check_editions(&file);
    /* The idle loss that only edition 3 takes, for the idle draw is above S. */
    file.unit[1].idle_loss = 10000000;
    set_edition(&file, 3);
    check_told(&file);
    for (uint8_t edition = 1; edition <= 2; edition++) {
        set_edition(&file, edition);
        refused_told(file.bytes, file.len, 5);
    }
}

/* The steps after the settings do not matter: none, and as many as there can be. */
static void test_told_steps(void)
{
    enum { HEAD = 76, STEPS = 65535, LEN = HEAD + 3 * STEPS + 7 };
    struct file file;
    uint8_t *bytes = calloc(1, LEN);
    if (bytes == NULL)
        give_up("no memory for a large file");
    draw_file(&file, 1);
    struct limits kva = {file.unit[0].kva, file.unit[0].kva};
    memcpy(bytes, file.bytes, HEAD);
    memcpy(bytes + HEAD, "\x7F\0\4\0\0\0\0", 7);
    check_site(bytes, HEAD + 7, 1, 0, file.seconds);
    check_settings(bytes, HEAD + 7, 0, &file.settings);
    check_unit(bytes, HEAD + 7, 0, 0, &file.unit[0]);
    check_limits(bytes, HEAD + 7, 0, 0, &kva);
    for (int step = 0; step < STEPS; step++)
        memcpy(bytes + HEAD + 3 * step, "\x05\0\0", 3);
    memcpy(bytes + LEN - 7, "\x7F\0\4\0\0\xFF\xFF", 7);
    check_site(bytes, LEN, 1, 0, file.seconds);
    check_settings(bytes, LEN, 0, &file.settings);
    check_unit(bytes, LEN, 0, 0, &file.unit[0]);
    check_limits(bytes, LEN, 0, 0, &kva);
    bytes[LEN - 1]--;
    refused_told(bytes, LEN, 7);
    free(bytes);
}

static void test_told_cut(void)
{
    struct file file;
    draw_file(&file, 3);
    for (uint8_t edition = 1; edition <= 3; edition++) {
        set_edition(&file, edition);
        cut_told(&file);
    }
    check_site(NULL, 0, 0, 0, 0);
    if (yb_units(NULL, 0) != 0 || yb_inverters(NULL, 0) != 0 || yb_seconds(NULL, 0) != 0) {
        wrong++;
        fprintf(stderr, "no file at all: units, inverters or seconds\n");
    }
}

/* One byte changed, for each refusal that a file can get. */
static void test_told_refused(void)
{
    static const struct {
        size_t at;
        uint8_t byte;
        uint32_t number;
    } changes[] = {{0, 0x7E, 2}, {2, 5, 3}, {4, 2, 4}, {3, 2, 3}, {3, 3, 3}, {3, 4, 5}, {4, 0, 5}, {4, 65, 5},
        {53, 0, 5}, {64, 4, 4}, {64, 6, 5}, {75, 6, 5}, {79, 0x7F, 6}, {142, 3, 7}};
    enum { TOO_LONG = 2097153 };
    uint8_t *file = calloc(1, TOO_LONG);
    if (file == NULL)
        give_up("no memory for a large file");
    for (size_t i = 0; i < sizeof changes / sizeof changes[0]; i++) {
        memcpy(file, complete, sizeof complete);
        file[changes[i].at] = changes[i].byte;
        refused_told(file, sizeof complete, changes[i].number);
    }
    memcpy(file, complete, sizeof complete);
    refused_told(file, sizeof complete + 1, 9);
    refused_told(file, TOO_LONG - 1, 9);
    refused_told(file, TOO_LONG, 12);
    /* Limits, of a unit whose S is 5,000. */
    for (uint8_t edition = 2; edition <= 3; edition++) {
        refused_told(file, put_limited(file, edition, complete, sizeof complete, 5001, 0), 5);
        refused_told(file, put_limited(file, edition, complete, sizeof complete, 0, 5001), 5);
    }
    free(file);
}

const struct test told_tests[] = {
    {"yb_units, yb_seconds, yb_settings, yb_unit, yb_var_limits: complete files", test_told_complete},
    {"yb_units, yb_seconds, yb_settings, yb_unit, yb_var_limits: values at their limits", test_told_limits},
    {"yb_inverters, yb_units, yb_seconds, yb_settings, yb_unit, yb_var_limits: files with inverters", test_told_roof},
    {"yb_connection, yb_units, yb_seconds, yb_settings, yb_unit, yb_var_limits: connections", test_told_connected},
    {"yb_inverters, yb_units, yb_seconds, yb_settings, yb_unit, yb_var_limits: files with a function", test_told_led},
    {"yb_units, yb_seconds, yb_settings, yb_unit, yb_var_limits: no steps, and all that there can be", test_told_steps},
    {"yb_units, yb_seconds, yb_settings, yb_unit, yb_var_limits: files cut at every byte", test_told_cut},
    {"yb_units, yb_seconds, yb_settings, yb_unit, yb_var_limits: refused files", test_told_refused},
    {NULL, NULL},
};
