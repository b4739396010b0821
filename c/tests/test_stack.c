/* Measures the stack that a call of each function of the header needs, which is at most 65,536 bytes: the call is
** made on a stack of its own that was painted before, with the largest fleet and long files, and the paint that is
** left tells how deep it went. Below that stack is memory that cannot be touched. The last line counts the tests.
*/
#define _DEFAULT_SOURCE /* for mmap's anonymous memory */
#include <inttypes.h>
#include <stdint.h>
#include <stdio.h>
#include <stdlib.h>
#include <string.h>
#include <sys/mman.h>
#include <ucontext.h>

#include "yesbrulka.h"

enum { STACK = 1 << 20, EDGE = 65536, MOST = 65536 };
enum { UNITS = 64, STEPS = 8760, HEAD = 9 + 52 * UNITS + 15, FILE_LEN = HEAD + 27 * STEPS + 7 };
enum { INVERTERS = 64, INVERTER = 22 + 132 + 132, ROOF_HEAD = HEAD + INVERTER * INVERTERS };
enum { ROOF_LEN = ROOF_HEAD + (19 + 27) * STEPS + 7, TOO_LONG = 2097153 };
enum { LIMITS = 8, LIMITED_LEN = FILE_LEN + LIMITS * UNITS };
enum { CONNECTIONS = 3 + 3 * UNITS, CURRENT_LEN = FILE_LEN + CONNECTIONS };
enum { BAD_LEN = HEAD + 27 * (YB_MOST_STEPS + 1), KEPT_LEN = HEAD + 3 * YB_MOST_STEPS + 7 };
enum { ROOF_CUT = ROOF_LEN - 7 - 27, ROOF_KEPT = ROOF_HEAD + (19 + 3) * (STEPS - 1) + 7 };
enum { LED_HEAD = ROOF_HEAD + 4 + 132, LED_STEP = 19 + 5 + 27, LED_LEN = LED_HEAD + LED_STEP * STEPS + 7 };
enum { LED_CUT = LED_LEN - 7 - 27, LED_KEPT = LED_HEAD + (19 + 5 + 3) * (STEPS - 1) + 7 };
enum { RESULT_LEN = 40 * UNITS * STEPS + 7, ROOF_RESULT_LEN = (40 * UNITS + 29 * INVERTERS) * STEPS + 7 };

static uint8_t *stack;
static ucontext_t home, away;

/* What the calls are about, and the answers that were not as expected. */
static uint8_t file[TOO_LONG], result[ROOF_RESULT_LEN], state[24071], list[YB_CHANGE_BYTES * (YB_MOST_STEPS + 1)];
static uint64_t rated[UNITS], reserve[UNITS], stored[UNITS];
static uint32_t rating[UNITS];
static uint16_t weight[UNITS];
static int32_t requests[UNITS];
static uint8_t phases[UNITS];
static uint16_t volts[UNITS];
static int64_t figures[YB_FIGURES];
static unsigned wrong;

static void expect(uint64_t got, uint64_t expected)
{
    wrong += got != expected;
}

static void open_stack(void)
{
    uint8_t *all = mmap(NULL, STACK + 2 * EDGE, PROT_NONE, MAP_PRIVATE | MAP_ANONYMOUS, -1, 0);
    if (all == MAP_FAILED || mprotect(all + EDGE, STACK, PROT_READ | PROT_WRITE) != 0) {
        perror("no memory for a stack");
        exit(2);
    }
    stack = all + EDGE;
}

/* Makes a call on the stack. */
static void call_away(void (*call)(void))
{
    getcontext(&away);
    away.uc_stack.ss_sp = stack;
    away.uc_stack.ss_size = STACK;
    away.uc_link = &home;
    makecontext(&away, call, 0);
    swapcontext(&home, &away);
}

/* The bytes from the top of the stack to the lowest that lost its paint. */
static size_t stack_under(uint8_t paint, void (*call)(void))
{
    size_t left = 0;
    memset(stack, paint, STACK);
    call_away(call);
    while (left < STACK && stack[left] == paint)
        left++;
    return STACK - left;
}

/* By two paints, for a call may write one of them. */
static size_t stack_of(void (*call)(void))
{
    size_t one = stack_under(0xA5, call), other = stack_under(0x5A, call);
    return one > other ? one : other;
}

static void put(uint8_t *bytes, uint64_t number, int width)
{
    for (int i = width; i-- > 0; number >>= 8)
        bytes[i] = (uint8_t)number;
}

/* The unit's field: each is another, with watts or vars first, and half of them with vars that touch the limit. Gives
** the place behind it, and from edition 2 on behind its var limits.
*/
static uint8_t *put_unit(uint8_t *field, uint8_t edition, unsigned unit)
{
    put(field, edition == 1 ? 0x020031 : 0x020039, 3);
    put(field + 3, UINT64_C(10000000000000) - unit, 8);
    put(field + 11, 1000 * unit, 8);
    put(field + 19, UINT64_C(100000000000) * (unit + 1), 8);
    put(field + 27, 100000000 - unit, 4);
    put(field + 31, 90000000 + unit, 4);
    put(field + 35, 1000 + unit, 4);
    put(field + 39, (uint32_t)(unit % 4 < 2 ? -80000000 : 3), 4);
    put(field + 43, 1 + 150 * unit, 2);
    put(field + 45, 9000 + unit, 2);
    put(field + 47, 9100 + unit, 2);
    put(field + 49, 9200 + unit, 2);
    put(field + 51, unit % 2, 1);
    if (edition == 1)
        return field + 52;
    put(field + 52, 1000000 * unit, 4);
    put(field + 56, 90000000 - 1000000 * unit, 4);
    return field + 52 + LIMITS;
}

/* A curve of 16 points between two x, and its y between 0 and the most. */
static void put_curve(uint8_t *field, int64_t least_x, int64_t most_x, int64_t most_y)
{
    put(field, 0x07008110, 4);
    for (int64_t i = 0; i < 16; i++) {
        put(field + 4 + 8 * i, (uint32_t)(least_x + (most_x - least_x) / 15 * i), 4);
        put(field + 8 + 8 * i, (uint32_t)(most_y / 15 * (i % 2 == 0 ? i : 15 - i)), 4);
    }
}

/* The inverter's fields, each another: with watts or vars first, and with a limit or none. */
static void put_inverter(uint8_t *field, unsigned inverter)
{
    put(field, 0x060013, 3);
    put(field + 3, 100000000 - inverter, 4);
    put(field + 7, 70000000 + 1000 * inverter, 4);
    put(field + 11, 100 * inverter, 2);
    put(field + 13, 50 * inverter, 2);
    put(field + 15, inverter % 3 == 0 ? 10000 : 7000, 2);
    put(field + 17, (uint32_t)(inverter % 4 < 2 ? -60000000 : 5), 4);
    put(field + 21, inverter % 2, 1);
    put_curve(field + 22, -100000000, 100000000, 20000);
    put_curve(field + 154, 0, 100000000, 10000);
}

static void put_double(uint8_t *bytes, double number)
{
    uint64_t bits;
    memcpy(&bits, &number, sizeof bits);
    put(bytes, bits, 8);
}

/* The fleet, the units and the settings. Gives the place behind them. */
static uint8_t *put_head(uint8_t edition, uint8_t mode)
{
    uint8_t *at = file + 9;
    memset(file, 0, sizeof file);
    put(file, 0x010006, 3);
    put(file + 3, edition, 1);
    put(file + 4, UNITS, 1);
    put(file + 5, 3600, 4);
    for (unsigned i = 0; i < UNITS; i++)
        at = put_unit(at, edition, i);
    put(at, 0x03000C, 3);
    put(at + 3, mode, 1);
    put(at + 4, (uint32_t)(mode == 3 ? 5000 : 10000), 4);
    put(at + 8, 1000, 4);
    put(at + 12, 1000, 2);
    put(at + 14, 0, 1);
    return at + 15;
}

/* Readings up and down, from less than a watt to the largest. */
static void put_reading(uint8_t *field, unsigned step)
{
    static const double powers[] = {1e5, -1e5, 0.0625, -33333.3333, 0, 2e-4, 77777, -0.4375, 50000, 12.5};
    put(field, 0x040018, 3);
    for (unsigned phase = 0; phase < 3; phase++)
        put_double(field + 3 + 8 * phase, powers[(step / (phase + 1) + phase) % 10]);
}

/* The same of the weather. */
static void put_weather(uint8_t *field, unsigned step)
{
    static const double suns[] = {0, 1, 1e5, 0.0625, 0.3333, 2e-4, 77777}, heats[] = {25, -1e5, 1e5, -0.4375, 85.5};
    put(field, 0x080010, 3);
    put_double(field + 3, suns[step % 7]);
    put_double(field + 11, heats[step % 5]);
}

static void put_end(uint8_t *field)
{
    put(field, 0x7F0004, 3);
    put(field + 3, STEPS, 4);
}

/* A complete file without inverters and weather, of any edition. */
static void put_edition(uint8_t edition, uint8_t mode)
{
    uint8_t *at = put_head(edition, mode);
    for (unsigned step = 0; step < STEPS; step++, at += 27)
        put_reading(at, step);
    put_end(at);
}

static void put_file(uint8_t mode)
{
    put_edition(1, mode);
}

/* Each unit's connection is another, and one in two has three phases. */
static uint8_t *put_connections(uint8_t *at)
{
    put(at, 0x0A0000 + 3 * UNITS, 3);
    for (unsigned i = 0; i < UNITS; i++) {
        phases[i] = i % 2 == 0 ? 1 : 3;
        volts[i] = (uint16_t)(1 + 634 * i);
        put(at + 3 + 3 * i, phases[i], 1);
        put(at + 4 + 3 * i, volts[i], 2);
    }
    return at + CONNECTIONS;
}

/* A complete file by current: the readings are those of a file by watts, none of them below 0. */
static void put_current(uint8_t mode)
{
    uint8_t *at = put_connections(put_head(1, mode));
    for (unsigned step = 0; step < STEPS; step++, at += 27) {
        put_reading(at, step);
        at[0] = 0x09;
        for (unsigned phase = 0; phase < 3; phase++)
            at[3 + 8 * phase] &= 0x7F;
    }
    put_end(at);
}

/* One with as many inverters as there can be, and weather in every step. */
static void put_roof_file(uint8_t mode)
{
    put_head(1, mode);
    for (unsigned i = 0; i < INVERTERS; i++)
        put_inverter(file + HEAD + INVERTER * i, i);
    for (unsigned step = 0; step < STEPS; step++) {
        put_weather(file + ROOF_HEAD + 46 * step, step);
        put_reading(file + ROOF_HEAD + 46 * step + 19, step);
    }
    put_end(file + ROOF_LEN - 7);
}

/* The same with vars that a voltage leads, another in every step. */
static void put_led_file(uint8_t mode, uint8_t base)
{
    static const uint8_t curve[] = {7, 0, 129, 3, 0, 0, 0x23, 0x28, 0, 0, 0x27, 0x10, 0, 0, 0x27, 0x10, 0, 0, 0, 0,
        0, 0, 0x2A, 0xF8, 0xFF, 0xFF, 0xD8, 0xF0};
    put_roof_file(mode);
    put(file + ROOF_HEAD, 0x0B000100 + base, 4);
    memset(file + ROOF_HEAD + 4, 0, 132);
    memcpy(file + ROOF_HEAD + 4, curve, sizeof curve);
    uint8_t *at = file + LED_HEAD;
    for (unsigned step = 0; step < STEPS; step++, at += LED_STEP) {
        put_weather(at, step);
        put(at + 19, 0x0C0002, 3);
        put(at + 22, step * 7 % 20001, 2);
        put_reading(at + 24, step);
    }
    put_end(at);
}

static void spoil_reading(uint8_t *field)
{
    put(field + 3, UINT64_C(0x7FF8000000000000), 8);
}

/* Readings that do not convert, one more than there can be. */
static void put_bad_file(void)
{
    uint8_t *at = put_head(1, 1);
    for (unsigned step = 0; step <= YB_MOST_STEPS; step++, at += 27) {
        put_reading(at, step);
        spoil_reading(at);
    }
}

static void put_bad_roof_file(void)
{
    put_roof_file(1);
    for (unsigned step = 0; step < STEPS; step++)
        spoil_reading(file + ROOF_HEAD + 46 * step + 19);
}

static void put_bad_led_file(void)
{
    put_led_file(1, 1);
    for (unsigned step = 0; step < STEPS; step++)
        spoil_reading(file + LED_HEAD + LED_STEP * step + 24);
}

static void put_fleet(int32_t request)
{
    for (unsigned i = 0; i < UNITS; i++) {
        rated[i] = UINT64_C(10000000000000);
        reserve[i] = 1000 * i;
        stored[i] = UINT64_C(5000000000000) + i;
        rating[i] = 100000000 - i;
        weight[i] = (uint16_t)(1 + 150 * i);
        requests[i] = request;
    }
}

/* The check, and the room, of a complete file, a cut one, an empty one and one that is too long. */
static void call_check(void)
{
    expect(yb_check(file, FILE_LEN), 0);
    expect(yb_check(file, FILE_LEN - 8), 1);
    expect(yb_check(file, 0), 8);
    expect(yb_check(file, TOO_LONG), 12);
}

static void call_check_place(void)
{
    expect(yb_check_place(file, FILE_LEN), FILE_LEN);
    expect(yb_check_place(file, FILE_LEN - 8), FILE_LEN - 34);
    expect(yb_check_place(file, TOO_LONG), 0);
}

static void call_check_steps(void)
{
    expect(yb_check_steps(file, FILE_LEN), STEPS);
    expect(yb_check_steps(file, FILE_LEN - 8), STEPS - 1);
    expect(yb_check_steps(file, TOO_LONG), 0);
}

/* The same in one call. */
static void expect_checked(size_t len, uint32_t number, uint64_t place, uint32_t steps)
{
    uint64_t got_place = UINT64_MAX;
    uint32_t got_steps = UINT32_MAX;
    expect(yb_checked(file, len, &got_place, &got_steps), number);
    expect(got_place, place);
    expect(got_steps, steps);
}

static void call_checked(void)
{
    expect_checked(FILE_LEN, 0, FILE_LEN, STEPS);
    expect_checked(FILE_LEN - 8, 1, FILE_LEN - 34, STEPS - 1);
    expect_checked(0, 8, 0, 0);
    expect_checked(TOO_LONG, 12, 0, 0);
}

static void call_value_start(void)
{
    expect(yb_value_start(file, FILE_LEN, 0), 3);
    expect(yb_value_start(file, FILE_LEN, FILE_LEN - 7), FILE_LEN - 4);
    expect(yb_value_start(file, FILE_LEN, UINT64_MAX), FILE_LEN);
}

static void call_value_len(void)
{
    expect(yb_value_len(file, FILE_LEN, 0), 6);
    expect(yb_value_len(file, FILE_LEN - 1, FILE_LEN - 7), 3);
    expect(yb_value_len(file, FILE_LEN, UINT64_MAX), 0);
}

static void call_units(void)
{
    expect(yb_units(file, FILE_LEN), UNITS);
    expect(yb_units(file, FILE_LEN - 8), 0);
    expect(yb_units(file, TOO_LONG), 0);
}

/* Without inverters, with all that there can be, and refused. */
static void call_inverters(void)
{
    put_file(1);
    expect(yb_inverters(file, FILE_LEN), 0);
    expect(yb_inverters(file, TOO_LONG), 0);
    put_roof_file(1);
    expect(yb_inverters(file, ROOF_LEN), INVERTERS);
    expect(yb_inverters(file, ROOF_LEN - 8), 0);
    put_file(1);
}

static void call_seconds(void)
{
    expect(yb_seconds(file, FILE_LEN), 3600);
    expect(yb_seconds(file, FILE_LEN - 8), 0);
    expect(yb_seconds(file, TOO_LONG), 0);
}

static void call_settings(void)
{
    uint8_t mode, phase;
    int32_t target;
    uint32_t band;
    uint16_t factor;
    expect(yb_settings(file, FILE_LEN, &mode, &target, &band, &factor, &phase), 0);
    expect(yb_settings(file, FILE_LEN - 8, &mode, &target, &band, &factor, &phase), 1);
    expect(yb_settings(file, TOO_LONG, &mode, &target, &band, &factor, &phase), 12);
    expect(band, 1000);
}

static uint32_t ask_unit(size_t len, uint32_t unit)
{
    uint64_t energy[3];
    uint32_t power[3];
    int32_t var_request;
    uint16_t part[4];
    uint8_t priority;
    return yb_unit(file, len, unit, &energy[0], &energy[1], &energy[2], &power[0], &power[1], &power[2], &var_request,
        &part[0], &part[1], &part[2], &part[3], &priority);
}

/* Every unit, one that is not there, and refused files. */
static void expect_units(uint32_t (*ask)(size_t len, uint32_t unit), size_t len)
{
    for (uint32_t unit = 0; unit < UNITS; unit++)
        expect(ask(len, unit), 0);
    expect(ask(len, UNITS), 10);
    expect(ask(len, UINT32_MAX), 10);
    expect(ask(len - 8, 0), 1);
    expect(ask(TOO_LONG, 0), 12);
}

static void call_unit(void)
{
    expect_units(ask_unit, FILE_LEN);
}

static uint32_t ask_limits(size_t len, uint32_t unit)
{
    uint32_t provide, absorb;
    return yb_var_limits(file, len, unit, &provide, &absorb);
}

/* In every edition. */
static void call_var_limits(void)
{
    for (uint8_t edition = 2; edition <= 3; edition++) {
        put_edition(edition, 1);
        expect_units(ask_limits, LIMITED_LEN);
    }
    put_file(1);
    expect_units(ask_limits, FILE_LEN);
}

static uint32_t ask_connection(size_t len, uint32_t unit)
{
    uint8_t unit_phases;
    uint16_t unit_volts;
    return yb_connection(file, len, unit, &unit_phases, &unit_volts);
}

/* Of a file that has connections, and of one that has none. */
static void call_connection(void)
{
    put_current(4);
    expect_units(ask_connection, CURRENT_LEN);
    put_file(1);
    expect(ask_connection(FILE_LEN, 0), 10);
}

/* The check of a complete file of any length, what the file says, and the check of it cut. */
static void expect_complete(size_t len, uint64_t room)
{
    expect(yb_check(file, len), 0);
    expect(yb_check_place(file, len), len);
    expect(yb_check_steps(file, len), STEPS);
    expect_checked(len, 0, len, STEPS);
    expect(yb_run_room(file, len), room);
    expect(yb_units(file, len), UNITS);
    expect(ask_unit(len, UNITS - 1), 0);
    expect(yb_check(file, len - 8), 1);
}

/* The same in editions 2 and 3, and a limit beyond its unit's S. */
static void call_limited_check(void)
{
    for (uint8_t edition = 2; edition <= 3; edition++) {
        put_edition(edition, 1);
        expect_complete(LIMITED_LEN, RESULT_LEN);
        put(file + 9 + 56, 90000001, 4);
        expect(yb_check(file, LIMITED_LEN), 5);
    }
    put_file(1);
}

/* The same with the longest head and a step's two fields, which the other calls about a file check as well. */
static void call_roof_check(void)
{
    put_roof_file(1);
    expect_complete(ROOF_LEN, ROOF_RESULT_LEN);
    put_file(1);
}

static void call_run_room(void)
{
    expect(yb_run_room(file, FILE_LEN), RESULT_LEN);
    expect(yb_run_room(file, FILE_LEN - 8), 0);
}

/* In every mode, and refused. */
static void call_run(void)
{
    for (uint8_t mode = 1; mode <= 3; mode++) {
        put_file(mode);
        expect(yb_run(file, FILE_LEN, result, RESULT_LEN), 0);
    }
    expect(yb_run(file, FILE_LEN, result, RESULT_LEN - 1), 11);
    expect(yb_run(file, FILE_LEN - 8, result, RESULT_LEN), 1);
}

/* The same in another edition. */
static void expect_limited_run(uint8_t edition)
{
    for (uint8_t mode = 1; mode <= 3; mode++) {
        put_edition(edition, mode);
        expect(yb_run(file, LIMITED_LEN, result, RESULT_LEN), 0);
    }
    expect(yb_run(file, LIMITED_LEN, result, RESULT_LEN - 1), 11);
    expect(yb_run(file, LIMITED_LEN - 8, result, RESULT_LEN), 1);
    put_file(1);
}

static void call_limited_run(void)
{
    expect_limited_run(2);
}

static void call_older_run(void)
{
    expect_limited_run(3);
}

/* By current. */
static void call_current_run(void)
{
    for (uint8_t mode = 4; mode <= 5; mode++) {
        put_current(mode);
        expect(yb_run(file, CURRENT_LEN, result, RESULT_LEN), 0);
    }
    expect(yb_run(file, CURRENT_LEN, result, RESULT_LEN - 1), 11);
}

/* The same in edition 1 with 64 inverters. */
static void call_roof_run(void)
{
    for (uint8_t mode = 1; mode <= 3; mode++) {
        put_roof_file(mode);
        expect(yb_run(file, ROOF_LEN, result, ROOF_RESULT_LEN), 0);
    }
    expect(yb_run(file, ROOF_LEN, result, ROOF_RESULT_LEN - 1), 11);
    expect(yb_run(file, ROOF_LEN - 8, result, ROOF_RESULT_LEN), 1);
    put_file(1);
}

/* The same led by a voltage, by either base. */
static void call_led_run(void)
{
    for (uint8_t base = 0; base <= 1; base++) {
        put_led_file(1, base);
        expect_complete(LED_LEN, ROOF_RESULT_LEN);
        expect(yb_run(file, LED_LEN, result, ROOF_RESULT_LEN), 0);
    }
    expect(yb_run(file, LED_LEN, result, ROOF_RESULT_LEN - 1), 11);
    put_file(1);
}

/* The figures of a complete file for its own target and for the ends of the range, and refused in every way. */
static void expect_peaks(size_t len)
{
    static const int32_t targets[] = {10000, -YB_MOST_POWER, YB_MOST_POWER};
    for (int i = 0; i < 3; i++) {
        expect(yb_peaks(file, len, targets[i], figures, YB_FIGURES), 0);
        expect((uint64_t)figures[YB_FIGURE_STEPS], STEPS);
    }
    expect(yb_peaks(file, len, YB_MOST_POWER + 1, figures, YB_FIGURES), 5);
    expect(yb_peaks(file, len, 10000, figures, YB_FIGURES - 1), 10);
    expect(yb_peaks(file, len - 8, 10000, figures, YB_FIGURES), 1);
    expect(yb_peaks(file, TOO_LONG, 10000, figures, YB_FIGURES), 12);
}

/* In every mode by watts. */
static void call_peaks(void)
{
    for (uint8_t mode = 1; mode <= 3; mode++) {
        put_file(mode);
        expect_peaks(FILE_LEN);
    }
    put_file(1);
}

static void call_older_peaks(void)
{
    put_edition(3, 1);
    expect_peaks(LIMITED_LEN);
    put_file(1);
}

static void call_current_peaks(void)
{
    for (uint8_t mode = 4; mode <= 5; mode++) {
        put_current(mode);
        expect_peaks(CURRENT_LEN);
    }
    put_file(1);
}

/* With 64 inverters, led by a voltage, by either base. */
static void call_led_peaks(void)
{
    for (uint8_t base = 0; base <= 1; base++) {
        put_led_file(1, base);
        expect_peaks(LED_LEN);
    }
    put_file(1);
}

/* Feeds the first bytes of the file in chunks of a length, each in a room one short first; gives the last number. */
static uint32_t feed_file(size_t len, size_t chunk_len)
{
    uint64_t written;
    uint32_t number = yb_feed_start(state, sizeof state);
    for (size_t at = 0; at < len && number == 0; at += chunk_len) {
        size_t chunk = len - at < chunk_len ? len - at : chunk_len;
        uint64_t due = yb_feed_room(state, sizeof state, file + at, chunk);
        if (due != 0)
            expect(yb_feed(state, sizeof state, file + at, chunk, result, due - 1, &written), 11);
        number = yb_feed(state, sizeof state, file + at, chunk, result, sizeof result, &written);
        expect(number != 0 || written == due, 1);
    }
    return number != 0 ? number : yb_feed_end(state, sizeof state, result, sizeof result, &written);
}

/* Complete, cut, refused, and over. */
static void call_feed(void)
{
    uint64_t written;
    put_edition(3, 1);
    expect(yb_feed_size(), sizeof state);
    expect(feed_file(LIMITED_LEN, 65536), 0);
    expect(yb_feed_place(state, sizeof state), LIMITED_LEN);
    expect(yb_feed_steps(state, sizeof state), STEPS);
    expect(yb_feed(state, sizeof state, file, 9, result, sizeof result, &written), 9);
    expect(feed_file(LIMITED_LEN - 8, 1000000), 1);
    expect(feed_file(HEAD, 7), 1);
    put_file(1);
    expect(feed_file(TOO_LONG, TOO_LONG), 9);
}

static void call_roof_feed(void)
{
    put_roof_file(1);
    expect(feed_file(ROOF_LEN, 65536), 0);
    expect(feed_file(ROOF_HEAD, 194), 8);
    expect(feed_file(ROOF_LEN - 8, 300000), 1);
    expect(yb_feed_place(state, sizeof state), ROOF_LEN - 34);
    expect(yb_feed_steps(state, sizeof state), STEPS - 1);
    put_file(1);
}

static void call_led_feed(void)
{
    put_led_file(1, 1);
    expect(feed_file(LED_LEN, 65536), 0);
    expect(feed_file(LED_HEAD, 194), 8);
    expect(feed_file(LED_LEN - 8, 300000), 1);
    expect(yb_feed_place(state, sizeof state), LED_LEN - 34);
    expect(yb_feed_steps(state, sizeof state), STEPS - 1);
    put_file(1);
}

/* A file of as many changes as there can be, a complete one, and refused ones. */
static void call_rescue_room(void)
{
    put_bad_file();
    expect(yb_rescue_room(file, BAD_LEN), KEPT_LEN);
    expect(yb_rescue_room(file, HEAD - 1), 0);
    put_file(1);
    expect(yb_rescue_room(file, FILE_LEN), FILE_LEN);
    expect(yb_rescue_room(file, TOO_LONG), 0);
}

static void call_rescue_changes(void)
{
    put_bad_file();
    expect(yb_rescue_changes(file, BAD_LEN), YB_MOST_STEPS + 1);
    expect(yb_rescue_changes(file, HEAD - 1), 0);
    put_file(1);
    expect(yb_rescue_changes(file, FILE_LEN - 8), 1);
    expect(yb_rescue_changes(file, TOO_LONG), 0);
}

static void call_rescue_steps(void)
{
    put_bad_file();
    expect(yb_rescue_steps(file, BAD_LEN), YB_MOST_STEPS);
    expect(yb_rescue_steps(file, HEAD - 1), 0);
    put_file(1);
    expect(yb_rescue_steps(file, FILE_LEN - 8), STEPS - 1);
    expect(yb_rescue_steps(file, TOO_LONG), 0);
}

static void call_rescue(void)
{
    put_bad_file();
    expect(yb_rescue(file, BAD_LEN, result, KEPT_LEN, list, sizeof list), 0);
    expect(yb_check(result, KEPT_LEN), 0);
    expect(yb_rescue(file, BAD_LEN, result, KEPT_LEN - 1, list, sizeof list), 11);
    expect(yb_rescue(file, BAD_LEN, result, KEPT_LEN, list, sizeof list - 1), 11);
    expect(yb_rescue(file, HEAD - 1, result, KEPT_LEN, list, sizeof list), 1);
    put_file(1);
    expect(yb_rescue(file, FILE_LEN, result, FILE_LEN, list, 0), 0);
    expect(yb_rescue(file, TOO_LONG, result, TOO_LONG, list, sizeof list), 12);
}

/* The same behind 64 inverters, broken off behind the last weather, and cut in a curve. */
static void call_roof_rescue(void)
{
    put_bad_roof_file();
    expect(yb_rescue_room(file, ROOF_CUT), ROOF_KEPT);
    expect(yb_rescue_changes(file, ROOF_CUT), STEPS);
    expect(yb_rescue_steps(file, ROOF_CUT), STEPS - 1);
    expect(yb_rescue(file, ROOF_CUT, result, ROOF_KEPT, list, sizeof list), 0);
    expect(yb_check(result, ROOF_KEPT), 0);
    expect(yb_rescue(file, ROOF_CUT, result, ROOF_KEPT, list, YB_CHANGE_BYTES * STEPS - 1), 11);
    expect(yb_rescue(file, ROOF_HEAD - 1, result, ROOF_KEPT, list, sizeof list), 1);
    put_file(1);
}

/* The same led by a voltage, broken off behind the last one, and cut in the volt-var curve. */
static void call_led_rescue(void)
{
    put_bad_led_file();
    expect(yb_rescue_room(file, LED_CUT), LED_KEPT);
    expect(yb_rescue_changes(file, LED_CUT), STEPS);
    expect(yb_rescue_steps(file, LED_CUT), STEPS - 1);
    expect(yb_rescue(file, LED_CUT, result, LED_KEPT, list, sizeof list), 0);
    expect(yb_check(result, LED_KEPT), 0);
    expect(yb_rescue(file, LED_CUT, result, LED_KEPT - 1, list, sizeof list), 11);
    expect(yb_rescue(file, LED_HEAD - 1, result, LED_KEPT, list, sizeof list), 1);
    put_file(1);
}

/* The verdict on the file's result, or its first bytes, or more. */
static void expect_verdict(size_t len, size_t result_len, uint8_t due, uint64_t due_start, uint64_t due_shown)
{
    uint8_t verdict;
    uint64_t start, shown;
    expect(yb_partner(file, len, result, result_len, &verdict, &start, &shown), 0);
    expect(verdict, due);
    expect(start, due_start);
    expect(shown, due_shown);
}

/* A result that is right, that ends before its end and before its last record, of so many bytes, and in which that one
** is another; and a file that is refused.
*/
static void expect_partner(size_t len, size_t result_len, size_t record)
{
    uint8_t verdict;
    uint64_t start, shown;
    size_t end = result_len - 7;
    expect(yb_run(file, len, result, result_len), 0);
    expect_verdict(len, result_len, 0, 0, 0);
    expect_verdict(len, end, 2, len - 7, 7);
    expect_verdict(len, end - record, 2, len - 34, 27);
    result[end - 1] ^= 1;
    expect_verdict(len, result_len, 1, end - record, record);
    expect(yb_partner(file, len - 8, result, result_len, &verdict, &start, &shown), 1);
    expect(yb_partner(file, TOO_LONG, result, result_len, &verdict, &start, &shown), 12);
}

static void call_partner(void)
{
    put_file(1);
    expect_partner(FILE_LEN, RESULT_LEN, 40);
    result[RESULT_LEN - 8] ^= 1;
    expect_verdict(FILE_LEN, RESULT_LEN + 9, 1, RESULT_LEN, 9);
}

/* The same with 64 inverters, and led by a voltage. */
static void call_roof_partner(void)
{
    put_roof_file(1);
    expect_partner(ROOF_LEN, ROOF_RESULT_LEN, 29);
    put_file(1);
}

static void call_led_partner(void)
{
    put_led_file(1, 1);
    expect_partner(LED_LEN, ROOF_RESULT_LEN, 29);
    put_file(1);
}

static void call_watts(void)
{
    static const double powers[] = {0, 1.5, -0.0625, 0x1p-1074, 99999.9999, 1e300, -1e300 * 1e300};
    for (int i = 0; i < 7; i++) {
        int32_t watts;
        expect(yb_watts(powers[i], &watts), i < 5 ? 0 : 6);
    }
}

static void call_pass(void)
{
    for (uint8_t mode = 0; mode <= 4; mode++)
        for (int sign = -1; sign <= 1; sign++) {
            int64_t need;
            uint8_t changed;
            put_fleet(sign * 100000);
            expect(yb_pass(mode, 50000, 10, 999, mode == 3 ? -300000000 : 300000000, rated, UNITS, reserve, UNITS,
                stored, UNITS, rating, UNITS, weight, UNITS, requests, UNITS, &need, &changed),
                mode >= 1 && mode <= 3 ? 0 : 5);
        }
}

static void call_pass_current(void)
{
    put_connections(file);
    for (uint8_t mode = 3; mode <= 6; mode++)
        for (int sign = -1; sign <= 1; sign++) {
            int64_t need;
            uint8_t changed;
            put_fleet(sign * 100000);
            expect(yb_pass_current(mode, mode == 5 ? 100000000 : 50000, 10, 999, mode == 5 ? 0 : 300000000, rated,
                UNITS, reserve, UNITS, stored, UNITS, rating, UNITS, weight, UNITS, phases, UNITS, volts, UNITS,
                requests, UNITS, &need, &changed), mode == 4 || mode == 5 ? 0 : 5);
        }
}

/* A study that takes long to settle, and one that is refused. */
static void call_settle(void)
{
    uint8_t settled;
    uint32_t passes;
    put_fleet(0);
    expect(yb_settle(100000000, 1, 0, 1, 10000, rated, UNITS, reserve, UNITS, stored, UNITS, rating, UNITS, weight,
        UNITS, requests, UNITS, &settled, &passes), 0);
    expect(passes > 1000, 1);
    expect(yb_settle(100000000, 1, 0, 1, 0, rated, UNITS, reserve, UNITS, stored, UNITS, rating, UNITS, weight,
        UNITS, requests, UNITS, &settled, &passes), 5);
}

/* In every mode and with factors that take long to settle and do not, and refused in every way. */
static void call_study(void)
{
    uint8_t settled;
    uint32_t passes;
    for (uint8_t mode = 1; mode <= 3; mode++) {
        put_file(mode);
        expect(yb_study(file, FILE_LEN, 100000000, 10000, requests, UNITS, &settled, &passes), 0);
        put(file + HEAD - 3, 1, 2);
        expect(yb_study(file, FILE_LEN, 100000000, 10000, requests, UNITS, &settled, &passes), 0);
        expect(passes > 1000, 1);
    }
    put_file(1);
    expect(yb_study(file, FILE_LEN, -1, 10000, requests, UNITS, &settled, &passes), 5);
    expect(yb_study(file, FILE_LEN, 0, 0, requests, UNITS, &settled, &passes), 5);
    expect(yb_study(file, FILE_LEN, 0, 1, requests, UNITS - 1, &settled, &passes), 10);
    expect(yb_study(file, FILE_LEN - 8, 0, 1, requests, UNITS, &settled, &passes), 1);
    expect(yb_study(file, TOO_LONG, 0, 1, requests, UNITS, &settled, &passes), 12);
}

/* Giving, idling and taking, with watts or vars first, and refused. */
static void call_step(void)
{
    for (uint8_t priority = 0; priority <= 2; priority++)
        for (int32_t request = -100000000; request <= 100000000; request += 50000000) {
            int32_t watts, vars;
            uint64_t after, loss;
            expect(yb_step(86400, UINT64_C(10000000000000), 1, UINT64_C(5000000000000), 100000000, 99999999, 77777,
                -60000000, 10000, 9999, 8888, 7777, priority, request, &watts, &vars, &after, &loss),
                priority < 2 ? 0 : 5);
        }
}

/* The same in every edition, with limits above and below the vars, and refused for the edition and for a limit. */
static void call_step_as(void)
{
    static const uint32_t limits[] = {0, 99999999, 100000000};
    for (uint8_t edition = 0; edition <= 4; edition++)
        for (int i = 0; i < 3; i++)
            for (int32_t request = -100000000; request <= 100000000; request += 50000000) {
                int32_t watts, vars;
                uint64_t after, loss;
                uint8_t priority = (uint8_t)(request / 50000000 & 1);
                expect(yb_step_as(edition, 86400, UINT64_C(10000000000000), 1, UINT64_C(5000000000000), 100000000,
                    99999999, 77777, -60000000, 10000, 9999, 8888, 7777, priority, limits[2 - i], limits[i], request,
                    &watts, &vars, &after, &loss),
                    edition == 1 || ((edition == 2 || edition == 3) && i == 1) ? 0 : 5);
            }
}

/* On and off, with watts or vars first, in every part of curves of 16 points, and refused in every way. */
static void call_solar(void)
{
    int32_t warm_x[16], warm_y[16], eff_x[16], eff_y[16], watts, vars;
    uint8_t on;
    uint64_t dc;
    for (int32_t i = 0; i < 16; i++) {
        warm_x[i] = 10000 * i - 80000;
        warm_y[i] = 20000 - 1000 * i;
        eff_x[i] = 100 * i;
        eff_y[i] = 9000 + 60 * i;
    }
    for (uint8_t priority = 0; priority <= 2; priority++)
        for (int irradiance = -1; irradiance <= 100000; irradiance = irradiance < 20 ? irradiance + 1 : 5 * irradiance)
            for (uint8_t was_on = 0; was_on <= 1; was_on++)
                expect(yb_solar(99999999, 88888888, 3000, 2000, 9000, -77777777, priority, warm_x, 16, warm_y, 16,
                    eff_x, 16, eff_y, 16, irradiance / 10.0, irradiance < 20 ? 10 * irradiance - 80 : 25, was_on, &on,
                    &watts, &vars, &dc),
                    priority == 2 ? 5 : irradiance < 0 ? 6 : 0);
    expect(yb_solar(1, 1, 0, 0, 0, 0, 0, warm_x, 16, warm_y, 15, eff_x, 16, eff_y, 16, 1, 1, 0, &on, &watts, &vars,
        &dc), 10);
}

/* What the measure itself must see: a call of nothing, and one above the limit. */
static void call_nothing(void)
{
}

static void call_deep(void)
{
    volatile uint8_t deep[MOST + 1];
    for (size_t i = 0; i < sizeof deep; i++)
        deep[i] = (uint8_t)i;
    expect(deep[MOST], 0);
}

static const struct {
    const char *name;
    void (*call)(void);
} calls[] = {
    {"yb_check", call_check},
    {"yb_check_place", call_check_place},
    {"yb_check_steps", call_check_steps},
    {"yb_checked", call_checked},
    {"yb_value_start", call_value_start},
    {"yb_value_len", call_value_len},
    {"yb_units", call_units},
    {"yb_inverters", call_inverters},
    {"yb_seconds", call_seconds},
    {"yb_settings", call_settings},
    {"yb_unit", call_unit},
    {"yb_var_limits", call_var_limits},
    {"yb_connection", call_connection},
    {"the check and what a file says, in editions 2 and 3", call_limited_check},
    {"the check and what a file says, with 64 inverters", call_roof_check},
    {"yb_run_room", call_run_room},
    {"yb_run", call_run},
    {"yb_run in edition 2", call_limited_run},
    {"yb_run in edition 3", call_older_run},
    {"yb_run by current", call_current_run},
    {"yb_run with 64 inverters", call_roof_run},
    {"yb_run with 64 inverters, led by a voltage", call_led_run},
    {"yb_peaks", call_peaks},
    {"yb_peaks in edition 3", call_older_peaks},
    {"yb_peaks by current", call_current_peaks},
    {"yb_peaks with 64 inverters, led by a voltage", call_led_peaks},
    {"yb_feed and the calls beside it, in edition 3", call_feed},
    {"yb_feed and the calls beside it, with 64 inverters", call_roof_feed},
    {"yb_feed and the calls beside it, led by a voltage", call_led_feed},
    {"yb_rescue_room", call_rescue_room},
    {"yb_rescue_changes", call_rescue_changes},
    {"yb_rescue_steps", call_rescue_steps},
    {"yb_rescue", call_rescue},
    {"yb_rescue and the calls beside it, with 64 inverters", call_roof_rescue},
    {"yb_rescue and the calls beside it, led by a voltage", call_led_rescue},
    {"yb_partner", call_partner},
    {"yb_partner with 64 inverters", call_roof_partner},
    {"yb_partner with 64 inverters, led by a voltage", call_led_partner},
    {"yb_watts", call_watts},
    {"yb_pass", call_pass},
    {"yb_pass_current", call_pass_current},
    {"yb_settle", call_settle},
    {"yb_study", call_study},
    {"yb_step", call_step},
    {"yb_step_as", call_step_as},
    {"yb_solar", call_solar},
};

static int measured(const char *name, void (*call)(void))
{
    /* The name is out before the call, which may run off the stack. */
    printf("%s: ", name);
    fflush(stdout);
    wrong = 0;
    size_t bytes = stack_of(call);
    int good = wrong == 0 && bytes <= MOST;
    printf("%zu bytes of stack%s%s\n", bytes, bytes <= MOST ? "" : ", FAILED: more than 65536",
        wrong == 0 ? "" : ", FAILED: an answer is not as expected");
    return good;
}

int main(void)
{
    unsigned passed = 0, failed = 0;
    open_stack();
    put_file(1);
    size_t nothing = stack_of(call_nothing), deep = stack_of(call_deep);
    printf("a call of nothing: %zu bytes of stack, a call of %d bytes: %zu\n", nothing, MOST + 1, deep);
    int measures = nothing < 4096 && deep > MOST && deep < MOST + 4096;
    passed += measures;
    failed += !measures;
    for (size_t i = 0; i < sizeof calls / sizeof calls[0]; i++) {
        int good = measured(calls[i].name, calls[i].call);
        passed += good;
        failed += !good;
    }
    printf("%u passed, %u failed\n", passed, failed);
    return fflush(stdout) == 0 && failed == 0 ? 0 : 1;
}
