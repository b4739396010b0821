/* Holds the proved archive for tests that are not written in C: calls come in on standard input as frames,
** answers go out on standard output. All numbers of a frame are little-endian.
**
**     call     op u8, length u32, that many payload bytes
**     answer   length u32, that many payload bytes
**
** The end of input between two frames ends the program with status 0. A frame that is cut short, has an
** unknown op or a payload that is none of that op's ends it with status 1 and a message.
*/
#include <stdint.h>
#include <stdio.h>
#include <stdlib.h>
#include <string.h>

#include "yesbrulka.h"

/* Larger than any frame of the tests; a broken length is caught before it is believed. */
#define MOST_PAYLOAD (64u << 20)

/* Longer than any room of the tests. */
#define MOST_ROOM (64u << 20)

/* What an out-number holds before a call, so that a test can see that it was left alone; all of its bytes
** are equal, for numbers of other widths.
*/
#define LEFT_ALONE 0x5A5A5A5A

/* The guard bytes before and after lent memory, and what they hold. */
#define GUARD 64
#define GUARD_BYTE 0xA5

static _Noreturn void give_up(const char *why)
{
    fprintf(stderr, "host: %s\n", why);
    exit(1);
}

static uint64_t number_at(const uint8_t *bytes, int width)
{
    uint64_t n = 0;
    for (int i = width; i-- > 0;)
        n = n << 8 | bytes[i];
    return n;
}

/* The answer as it grows; its first four bytes are kept for the length. */
static struct {
    uint8_t *bytes;
    size_t used, room;
} answer;

/* Sees to it that so many more bytes fit the answer. */
static void make_room(size_t length)
{
    if (answer.room - answer.used >= length)
        return;
    answer.room = 2 * answer.room + length + 4096;
    answer.bytes = realloc(answer.bytes, answer.room);
    if (answer.bytes == NULL)
        give_up("no memory for an answer");
}

static void put(uint64_t n, int width)
{
    make_room((size_t)width);
    for (int i = 0; i < width; i++)
        answer.bytes[answer.used++] = (uint8_t)(n >> 8 * i);
}

static void put_bytes(const uint8_t *bytes, size_t length)
{
    make_room(length);
    memcpy(answer.bytes + answer.used, bytes, length);
    answer.used += length;
}

/* 'W': any number of kW doubles by their bits, u64. For each the number, u32, and *watts after the call. */
static void call_watts(const uint8_t *payload, size_t length)
{
    if (length % 8 != 0)
        give_up("op W: the payload is no row of doubles");
    for (size_t at = 0; at < length; at += 8) {
        uint64_t bits = number_at(payload + at, 8);
        double kw;
        int32_t watts = LEFT_ALONE;
        memcpy(&kw, &bits, sizeof kw);
        put(yb_watts(kw, &watts), 4);
        put((uint32_t)watts, 4);
    }
}

/* What is left of a payload. */
struct rest {
    const uint8_t *bytes;
    size_t length;
    const char *too_short;
};

static const uint8_t *take(struct rest *rest, uint64_t length)
{
    const uint8_t *taken = rest->bytes;
    if (rest->length < length)
        give_up(rest->too_short);
    rest->bytes += length;
    rest->length -= length;
    return taken;
}

static uint64_t take_number(struct rest *rest, int width)
{
    return number_at(take(rest, (uint64_t)width), width);
}

/* Memory to lend, between guards, and a copy of all of it from before the call. */
struct lent {
    uint8_t *memory, *copy;
    size_t length, room;
};

/* The lists of a fleet in the order of the calls, those of its connections among them, and up to twelve out-numbers
** after them.
*/
enum { RATED, RESERVE, STORED, RATING, WEIGHT, PHASES, VOLTS, REQUESTS, LISTS };
enum { FIRST = LISTS, SECOND, THIRD, FOURTH, FIFTH, TWELFTH = FIRST + 11, ALL_LENT };

static const size_t widths[LISTS] = {8, 8, 8, 4, 2, 1, 2, 4};
static struct lent lent[ALL_LENT];
static struct lent lent_file, lent_result, lent_room, lent_list, lent_state;

/* Memory of a length between guards; what it holds is still to be filled in and then kept. */
static uint8_t *between_guards(struct lent *lent, size_t length)
{
    size_t whole = length + 2 * GUARD;
    if (lent->room < whole) {
        lent->room = 2 * whole;
        lent->memory = realloc(lent->memory, lent->room);
        lent->copy = realloc(lent->copy, lent->room);
        if (lent->memory == NULL || lent->copy == NULL)
            give_up("no memory to lend");
    }
    lent->length = length;
    memset(lent->memory, GUARD_BYTE, whole);
    return lent->memory + GUARD;
}

/* Copies all of it as it is before the call, and gives the address to lend. */
static void *keep(struct lent *lent)
{
    memcpy(lent->copy, lent->memory, lent->length + 2 * GUARD);
    return lent->memory + GUARD;
}

/* Puts bytes between guards and gives the address to lend. The archive's numbers are little-endian in
** memory, as those of a frame are.
*/
static void *lend(struct lent *lent, const uint8_t *bytes, size_t length)
{
    uint8_t *memory = between_guards(lent, length);
    if (length != 0)
        memcpy(memory, bytes, length);
    return keep(lent);
}

/* A room of a call, its length u32 and its fill u8, lent. Its bytes before the call are the fill, that and 7, that and
** 14, and so on: no byte is like the next, so that a shifted copy is seen as well.
*/
static uint8_t *take_room(struct rest *rest, struct lent *lent, const char *too_long)
{
    uint64_t length = take_number(rest, 4);
    uint8_t fill = (uint8_t)take_number(rest, 1);
    if (length > MOST_ROOM)
        give_up(too_long);
    uint8_t *room = between_guards(lent, length);
    for (size_t i = 0; i < length; i++)
        room[i] = (uint8_t)(fill + 7 * i);
    return keep(lent);
}

static void *lend_number(struct lent *lent, size_t width)
{
    static const uint64_t left_alone = (uint64_t)LEFT_ALONE << 32 | LEFT_ALONE;
    return lend(lent, (const uint8_t *)&left_alone, width);
}

/* 1 if a guard byte, or any byte of what may only be read, is other than before the call. */
static int disturbed_one(const struct lent *l, int read_only)
{
    size_t before = read_only ? l->length + GUARD : GUARD;
    size_t after = GUARD + l->length;
    return memcmp(l->memory, l->copy, before) != 0 || memcmp(l->memory + after, l->copy + after, GUARD) != 0;
}

/* The same of any of what was lent to a call. */
static int disturbed(int from, int to)
{
    for (int i = from; i <= to; i++)
        if (disturbed_one(&lent[i], i < REQUESTS))
            return 1;
    return 0;
}

/* The lists of a call: their lengths in elements, u32, and the elements of each list in turn. Those of the connections
** are part of a call by current alone; for the others they are empty.
*/
static void take_lists(struct rest *rest, void *lists[LISTS], size_t lengths[LISTS], int by_current)
{
    for (int i = 0; i < LISTS; i++)
        lengths[i] = by_current || (i != PHASES && i != VOLTS) ? take_number(rest, 4) : 0;
    for (int i = 0; i < LISTS; i++) {
        size_t bytes = lengths[i] * widths[i];
        lists[i] = lend(&lent[i], take(rest, bytes), bytes);
    }
}

/* The out-numbers of a call in their own widths, up to a last one. */
static void put_numbers(int to)
{
    for (int i = FIRST; i <= to; i++)
        put(number_at(lent[i].memory + GUARD, (int)lent[i].length), (int)lent[i].length);
}

/* The requests that a call left, i32. */
static void put_requests(void)
{
    for (size_t at = 0; at < lent[REQUESTS].length; at += 4)
        put(number_at(lent[REQUESTS].memory + GUARD + at, 4), 4);
}

/* What a call left: the number, u32; 1 if it wrote where it may not, u8; the out-numbers. What was lent goes
** from one place to another.
*/
static void put_left(uint32_t number, int from, int to)
{
    put(number, 4);
    put((uint64_t)disturbed(from, to), 1);
    put_numbers(to);
}

/* The same of a call that was lent a file as well. */
static void put_file_left(uint32_t number, int from, int to)
{
    put(number, 4);
    put((uint64_t)(disturbed_one(&lent_file, 1) || disturbed(from, to)), 1);
    put_numbers(to);
}

/* What a call over a fleet left: the above, and the requests. */
static void put_fleet_left(uint32_t number)
{
    put_left(number, RATED, SECOND);
    put_requests();
}

/* Takes the passes of a payload, by power or by current. */
static void call_passes(struct rest rest, int by_current)
{
    while (rest.length != 0) {
        void *list[LISTS];
        size_t n[LISTS];
        uint8_t mode = (uint8_t)take_number(&rest, 1);
        int32_t target = (int32_t)take_number(&rest, 4);
        uint32_t band = (uint32_t)take_number(&rest, 4);
        uint16_t factor = (uint16_t)take_number(&rest, 2);
        int64_t measure = (int64_t)take_number(&rest, 8);
        take_lists(&rest, list, n, by_current);
        int64_t *need = lend_number(&lent[FIRST], sizeof *need);
        uint8_t *changed = lend_number(&lent[SECOND], sizeof *changed);
        uint32_t number = by_current
            ? yb_pass_current(mode, target, band, factor, measure, list[RATED], n[RATED], list[RESERVE], n[RESERVE],
                list[STORED], n[STORED], list[RATING], n[RATING], list[WEIGHT], n[WEIGHT], list[PHASES], n[PHASES],
                list[VOLTS], n[VOLTS], list[REQUESTS], n[REQUESTS], need, changed)
            : yb_pass(mode, target, band, factor, measure, list[RATED], n[RATED], list[RESERVE], n[RESERVE],
                list[STORED], n[STORED], list[RATING], n[RATING], list[WEIGHT], n[WEIGHT], list[REQUESTS],
                n[REQUESTS], need, changed);
        put_fleet_left(number);
    }
}

/* 'P': any number of passes. Each is mode u8, target i32, band u32, factor u16, measure i64, the six lists: rated,
** reserve, stored, rating, weight, requests; for each what it left, the need i64 and changed u8.
*/
static void call_pass(const uint8_t *payload, size_t length)
{
    call_passes((struct rest){payload, length, "op P: the payload is no row of passes"}, 0);
}

/* 'B': any number of passes by current. Each is what a pass of 'P' is, with the lists of phases and volts before the
** requests; for each what it left, as there.
*/
static void call_pass_current(const uint8_t *payload, size_t length)
{
    call_passes((struct rest){payload, length, "op B: the payload is no row of passes by current"}, 1);
}

/* 'T': any number of settling studies. Each is load i64, target i32, band u32, factor u16, budget u32, the six
** lists; for each what it left, settled u8 and the passes u32.
*/
static void call_settle(const uint8_t *payload, size_t length)
{
    struct rest rest = {payload, length, "op T: the payload is no row of studies"};
    while (rest.length != 0) {
        void *list[LISTS];
        size_t n[LISTS];
        int64_t load = (int64_t)take_number(&rest, 8);
        int32_t target = (int32_t)take_number(&rest, 4);
        uint32_t band = (uint32_t)take_number(&rest, 4);
        uint16_t factor = (uint16_t)take_number(&rest, 2);
        uint32_t budget = (uint32_t)take_number(&rest, 4);
        take_lists(&rest, list, n, 0);
        uint8_t *settled = lend_number(&lent[FIRST], sizeof *settled);
        uint32_t *passes = lend_number(&lent[SECOND], sizeof *passes);
        put_fleet_left(yb_settle(load, target, band, factor, budget, list[RATED], n[RATED], list[RESERVE],
            n[RESERVE], list[STORED], n[STORED], list[RATING], n[RATING], list[WEIGHT], n[WEIGHT],
            list[REQUESTS], n[REQUESTS], settled, passes));
    }
}

/* Takes the steps of a payload, with an edition and var limits or without. */
static void call_steps(struct rest rest, int as)
{
    while (rest.length != 0) {
        uint8_t edition = as ? (uint8_t)take_number(&rest, 1) : 1;
        uint32_t seconds = (uint32_t)take_number(&rest, 4);
        uint64_t rated = take_number(&rest, 8);
        uint64_t reserve = take_number(&rest, 8);
        uint64_t stored = take_number(&rest, 8);
        uint32_t rating = (uint32_t)take_number(&rest, 4);
        uint32_t kva = (uint32_t)take_number(&rest, 4);
        uint32_t idle_loss = (uint32_t)take_number(&rest, 4);
        int32_t var_request = (int32_t)take_number(&rest, 4);
        uint16_t weight = (uint16_t)take_number(&rest, 2);
        uint16_t inverter = (uint16_t)take_number(&rest, 2);
        uint16_t charge = (uint16_t)take_number(&rest, 2);
        uint16_t discharge = (uint16_t)take_number(&rest, 2);
        uint8_t priority = (uint8_t)take_number(&rest, 1);
        uint32_t provide = as ? (uint32_t)take_number(&rest, 4) : 0;
        uint32_t absorb = as ? (uint32_t)take_number(&rest, 4) : 0;
        int32_t request = (int32_t)take_number(&rest, 4);
        int32_t *watts = lend_number(&lent[FIRST], sizeof *watts);
        int32_t *vars = lend_number(&lent[SECOND], sizeof *vars);
        uint64_t *stored_after = lend_number(&lent[THIRD], sizeof *stored_after);
        uint64_t *loss = lend_number(&lent[FOURTH], sizeof *loss);
        uint32_t number = as
            ? yb_step_as(edition, seconds, rated, reserve, stored, rating, kva, idle_loss, var_request, weight,
                inverter, charge, discharge, priority, provide, absorb, request, watts, vars, stored_after, loss)
            : yb_step(seconds, rated, reserve, stored, rating, kva, idle_loss, var_request, weight, inverter, charge,
                discharge, priority, request, watts, vars, stored_after, loss);
        put_left(number, FIRST, FOURTH);
    }
}

/* 'S': any number of steps. Each is seconds u32, rated, reserve and stored u64, rating, kva and idle loss u32,
** var request i32, weight, inverter, charge and discharge u16, priority u8, request i32; for each what it
** left, watts and vars i32, stored after and loss u64.
*/
static void call_step(const uint8_t *payload, size_t length)
{
    call_steps((struct rest){payload, length, "op S: the payload is no row of steps"}, 0);
}

/* 'A': any number of steps of an edition. Each is edition u8, what a step of 'S' is up to the priority, provide and
** absorb u32, request i32; for each what it left, as there.
*/
static void call_step_as(const uint8_t *payload, size_t length)
{
    call_steps((struct rest){payload, length, "op A: the payload is no row of steps of an edition"}, 1);
}

/* A double by its bits. */
static double take_double(struct rest *rest)
{
    uint64_t bits = take_number(rest, 8);
    double r;
    memcpy(&r, &bits, sizeof r);
    return r;
}

/* The four lists of an inverter's curves, in the order of the call. They stand where those of a fleet stand that are
** only read.
*/
enum { WARM_X, WARM_Y, EFF_X, EFF_Y, CURVE_LISTS };

/* Their four lengths in elements, u32, and the elements of each list in turn, i32. */
static void take_curves(struct rest *rest, const int32_t *lists[CURVE_LISTS], size_t lengths[CURVE_LISTS])
{
    for (int i = 0; i < CURVE_LISTS; i++)
        lengths[i] = take_number(rest, 4);
    for (int i = 0; i < CURVE_LISTS; i++) {
        size_t bytes = lengths[i] * sizeof *lists[i];
        lists[i] = lend(&lent[i], take(rest, bytes), bytes);
    }
}

/* 'I': any number of steps of an inverter. Each is array and kva u32, cut-in, cut-out and limit u16, var request i32,
** priority u8, the lists of the curves, irradiance and temperature by their bits, u64, on u8; for each what it left: on
** after u8, watts and vars i32, DC power u64.
*/
static void call_solar(const uint8_t *payload, size_t length)
{
    struct rest rest = {payload, length, "op I: the payload is no row of inverters"};
    while (rest.length != 0) {
        const int32_t *list[CURVE_LISTS];
        size_t n[CURVE_LISTS];
        uint32_t array = (uint32_t)take_number(&rest, 4);
        uint32_t kva = (uint32_t)take_number(&rest, 4);
        uint16_t cut_in = (uint16_t)take_number(&rest, 2);
        uint16_t cut_out = (uint16_t)take_number(&rest, 2);
        uint16_t limit = (uint16_t)take_number(&rest, 2);
        int32_t var_request = (int32_t)take_number(&rest, 4);
        uint8_t priority = (uint8_t)take_number(&rest, 1);
        take_curves(&rest, list, n);
        double irradiance = take_double(&rest);
        double temperature = take_double(&rest);
        uint8_t on = (uint8_t)take_number(&rest, 1);
        uint8_t *on_after = lend_number(&lent[FIRST], sizeof *on_after);
        int32_t *watts = lend_number(&lent[SECOND], sizeof *watts);
        int32_t *vars = lend_number(&lent[THIRD], sizeof *vars);
        uint64_t *dc = lend_number(&lent[FOURTH], sizeof *dc);
        uint32_t number = yb_solar(array, kva, cut_in, cut_out, limit, var_request, priority, list[WARM_X], n[WARM_X],
            list[WARM_Y], n[WARM_Y], list[EFF_X], n[EFF_X], list[EFF_Y], n[EFF_Y], irradiance, temperature, on,
            on_after, watts, vars, dc);
        put(number, 4);
        put((uint64_t)(disturbed(WARM_X, EFF_Y) || disturbed(FIRST, FOURTH)), 1);
        put_numbers(FOURTH);
    }
}

/* A file of a call, a length u32 and that many bytes, lent; its length is that of what was lent. */
static const uint8_t *take_file_into(struct rest *rest, struct lent *lent)
{
    uint64_t length = take_number(rest, 4);
    return lend(lent, take(rest, length), length);
}

/* The same of the one file of a call, or of its run file. */
static const uint8_t *take_file(struct rest *rest)
{
    return take_file_into(rest, &lent_file);
}

/* 'C': any number of files. For each the check's number u32, place u64 and steps u32; 1 if anything was
** written, u8; and what yb_checked left: number u32; 1 if the file or a guard was written, u8; place u64 and steps u32.
*/
static void call_check(const uint8_t *payload, size_t length)
{
    struct rest rest = {payload, length, "op C: the payload is no row of files"};
    while (rest.length != 0) {
        const uint8_t *file = take_file(&rest);
        size_t n = lent_file.length;
        put(yb_check(file, n), 4);
        put(yb_check_place(file, n), 8);
        put(yb_check_steps(file, n), 4);
        put((uint64_t)disturbed_one(&lent_file, 1), 1);
        uint64_t *place = lend_number(&lent[FIRST], sizeof *place);
        uint32_t *steps = lend_number(&lent[SECOND], sizeof *steps);
        put_file_left(yb_checked(file, n, place, steps), FIRST, SECOND);
    }
}

/* 'V': any number of places, each u64, and files. For each the start and the length of the value bytes, u64;
** 1 if anything was written, u8.
*/
static void call_value(const uint8_t *payload, size_t length)
{
    struct rest rest = {payload, length, "op V: the payload is no row of places and files"};
    while (rest.length != 0) {
        uint64_t place = take_number(&rest, 8);
        const uint8_t *file = take_file(&rest);
        size_t n = lent_file.length;
        put(yb_value_start(file, n, place), 8);
        put(yb_value_len(file, n, place), 8);
        put((uint64_t)disturbed_one(&lent_file, 1), 1);
    }
}

/* 'F': any number of files. For each the units, the inverters and the seconds, u32, and what yb_settings left: mode u8,
** target i32, band u32, factor u16, phase u8.
*/
static void call_settings(const uint8_t *payload, size_t length)
{
    struct rest rest = {payload, length, "op F: the payload is no row of files"};
    while (rest.length != 0) {
        const uint8_t *file = take_file(&rest);
        size_t n = lent_file.length;
        uint8_t *mode = lend_number(&lent[FIRST], sizeof *mode);
        int32_t *target = lend_number(&lent[SECOND], sizeof *target);
        uint32_t *band = lend_number(&lent[THIRD], sizeof *band);
        uint16_t *factor = lend_number(&lent[FOURTH], sizeof *factor);
        uint8_t *phase = lend_number(&lent[FIFTH], sizeof *phase);
        put(yb_units(file, n), 4);
        put(yb_inverters(file, n), 4);
        put(yb_seconds(file, n), 4);
        put_file_left(yb_settings(file, n, mode, target, band, factor, phase), FIRST, FIFTH);
    }
}

/* Asks for one unit of the lent file, and answers what that left. */
static void call_one_unit(const uint8_t *file, uint32_t unit)
{
    uint64_t *rated = lend_number(&lent[FIRST], sizeof *rated);
    uint64_t *reserve = lend_number(&lent[FIRST + 1], sizeof *reserve);
    uint64_t *stored = lend_number(&lent[FIRST + 2], sizeof *stored);
    uint32_t *rating = lend_number(&lent[FIRST + 3], sizeof *rating);
    uint32_t *kva = lend_number(&lent[FIRST + 4], sizeof *kva);
    uint32_t *idle_loss = lend_number(&lent[FIRST + 5], sizeof *idle_loss);
    int32_t *var_request = lend_number(&lent[FIRST + 6], sizeof *var_request);
    uint16_t *weight = lend_number(&lent[FIRST + 7], sizeof *weight);
    uint16_t *inverter = lend_number(&lent[FIRST + 8], sizeof *inverter);
    uint16_t *charge = lend_number(&lent[FIRST + 9], sizeof *charge);
    uint16_t *discharge = lend_number(&lent[FIRST + 10], sizeof *discharge);
    uint8_t *priority = lend_number(&lent[TWELFTH], sizeof *priority);
    uint32_t number = yb_unit(file, lent_file.length, unit, rated, reserve, stored, rating, kva, idle_loss,
        var_request, weight, inverter, charge, discharge, priority);
    put_file_left(number, FIRST, TWELFTH);
}

/* The same of the unit's var limits. */
static void call_one_limits(const uint8_t *file, uint32_t unit)
{
    uint32_t *provide = lend_number(&lent[FIRST], sizeof *provide);
    uint32_t *absorb = lend_number(&lent[SECOND], sizeof *absorb);
    put_file_left(yb_var_limits(file, lent_file.length, unit, provide, absorb), FIRST, SECOND);
}

/* The same of both. */
static void call_unit_and_limits(const uint8_t *file, uint32_t unit)
{
    call_one_unit(file, unit);
    call_one_limits(file, unit);
}

/* The same of the unit's connection. */
static void call_one_connection(const uint8_t *file, uint32_t unit)
{
    uint8_t *phases = lend_number(&lent[FIRST], sizeof *phases);
    uint16_t *volts = lend_number(&lent[SECOND], sizeof *volts);
    put_file_left(yb_connection(file, lent_file.length, unit, phases, volts), FIRST, SECOND);
}

/* Asks for units of files: each is a count u32, that many unit numbers, u32, and the file. */
static void call_units(struct rest rest, void (*ask)(const uint8_t *file, uint32_t unit))
{
    while (rest.length != 0) {
        uint64_t count = take_number(&rest, 4);
        const uint8_t *numbers = take(&rest, 4 * count);
        const uint8_t *file = take_file(&rest);
        for (uint64_t i = 0; i < count; i++)
            ask(file, (uint32_t)number_at(numbers + 4 * i, 4));
    }
}

/* 'U': any number of files and units of them; for each unit number what yb_unit left: rated, reserve and stored u64,
** rating, kva and idle loss u32, var request i32, weight, inverter, charge and discharge u16, priority u8; and what
** yb_var_limits left: provide and absorb u32.
*/
static void call_unit(const uint8_t *payload, size_t length)
{
    struct rest rest = {payload, length, "op U: the payload is no row of unit numbers and files"};
    call_units(rest, call_unit_and_limits);
}

/* 'N': the same; for each unit number what yb_connection left: phases u8, volts u16. */
static void call_connection(const uint8_t *payload, size_t length)
{
    struct rest rest = {payload, length, "op N: the payload is no row of unit numbers and files"};
    call_units(rest, call_one_connection);
}

/* 'Y': any number of studies over files. Each is load i64, budget u32, the length of the requests u32, the
** requests, i32, and the file; for each what it left: settled u8, the passes u32 and the requests.
*/
static void call_study(const uint8_t *payload, size_t length)
{
    struct rest rest = {payload, length, "op Y: the payload is no row of studies and files"};
    while (rest.length != 0) {
        int64_t load = (int64_t)take_number(&rest, 8);
        uint32_t budget = (uint32_t)take_number(&rest, 4);
        size_t n = take_number(&rest, 4);
        int32_t *requests = lend(&lent[REQUESTS], take(&rest, n * sizeof *requests), n * sizeof *requests);
        const uint8_t *file = take_file(&rest);
        uint8_t *settled = lend_number(&lent[FIRST], sizeof *settled);
        uint32_t *passes = lend_number(&lent[SECOND], sizeof *passes);
        uint32_t number = yb_study(file, lent_file.length, load, budget, requests, n, settled, passes);
        put_file_left(number, REQUESTS, SECOND);
        put_requests();
    }
}

/* 'R': any number of runs. Each is the room's length u32, its fill u8, and the file; for each the room that
** the file needs u64; the run's number u32; 1 if the file or a guard was written, u8; and all bytes of the room.
*/
static void call_run(const uint8_t *payload, size_t length)
{
    struct rest rest = {payload, length, "op R: the payload is no row of rooms and files"};
    while (rest.length != 0) {
        uint8_t *room = take_room(&rest, &lent_room, "op R: a room is too long");
        const uint8_t *file = take_file(&rest);
        put(yb_run_room(file, lent_file.length), 8);
        put(yb_run(file, lent_file.length, room, lent_room.length), 4);
        put((uint64_t)(disturbed_one(&lent_file, 1) || disturbed_one(&lent_room, 0)), 1);
        put_bytes(room, lent_room.length);
    }
}

/* 'G': any number of seasons. Each is target i32, the length of the list of figures u32, what it holds, i64, and the
** file; for each the number u32; 1 if the file or a guard was written, u8; and the list.
*/
static void call_peaks(const uint8_t *payload, size_t length)
{
    struct rest rest = {payload, length, "op G: the payload is no row of targets, lists and files"};
    while (rest.length != 0) {
        int32_t target = (int32_t)take_number(&rest, 4);
        size_t n = take_number(&rest, 4);
        int64_t *figures = lend(&lent_list, take(&rest, n * sizeof *figures), n * sizeof *figures);
        const uint8_t *file = take_file(&rest);
        put(yb_peaks(file, lent_file.length, target, figures, n), 4);
        put((uint64_t)(disturbed_one(&lent_file, 1) || disturbed_one(&lent_list, 0)), 1);
        put_bytes((const uint8_t *)figures, lent_list.length);
    }
}

/* The state that a row of calls begins with: its length u32, a fill u8, the number of its pieces u32, and of each piece
** its place and its length, u32, and its bytes. What is in no piece is the fill.
*/
static void take_state(struct rest *rest)
{
    uint64_t length = take_number(rest, 4);
    int fill = (int)take_number(rest, 1);
    uint64_t pieces = take_number(rest, 4);
    if (length > MOST_ROOM)
        give_up("op E: a state is too long");
    uint8_t *state = between_guards(&lent_state, length);
    memset(state, fill, length);
    while (pieces-- > 0) {
        uint64_t place = take_number(rest, 4), bytes = take_number(rest, 4);
        if (place > length || bytes > length - place)
            give_up("op E: a piece of a state lies outside it");
        memcpy(state + place, take(rest, bytes), bytes);
    }
    keep(&lent_state);
}

/* A number that stands for bytes, taken eight at a time with 0 past their end: where one eight is another, so is the
** number.
*/
static uint64_t hash_of(const uint8_t *bytes, size_t length)
{
    uint64_t hash = length;
    for (size_t at = 0; at < length; at += 8) {
        uint64_t eight = 0;
        if (length - at >= 8)
            memcpy(&eight, bytes + at, 8);
        else
            memcpy(&eight, bytes + at, length - at);
        hash = (hash ^ eight) * UINT64_C(0x9E3779B97F4A7C15);
        hash ^= hash >> 29;
    }
    return hash;
}

/* The calls of a fed run, and what is asked beside one: yb_feed_room before it; after it yb_feed_place and
** yb_feed_steps, the state's hash, and the state.
*/
enum { FEED_START, FEED, FEED_END };
enum { ASK_ROOM = 1, ASK_PLACE = 2, ASK_HASH = 4, ASK_STATE = 8 };

/* Makes the call itself. */
static uint32_t call_feed_kind(uint8_t kind, uint8_t *room, uint64_t *written)
{
    uint8_t *state = lent_state.memory + GUARD;
    const uint8_t *chunk = lent_file.memory + GUARD;
    switch (kind) {
    case FEED_START:
        return yb_feed_start(state, lent_state.length);
    case FEED:
        return yb_feed(state, lent_state.length, chunk, lent_file.length, room, lent_room.length, written);
    case FEED_END:
        return yb_feed_end(state, lent_state.length, room, lent_room.length, written);
    default:
        give_up("op E: no such call");
    }
}

/* 1 if a byte of the room past the first so many, or a guard of it, is other than before the call. */
static int room_disturbed(size_t used)
{
    size_t past = GUARD + used;
    return disturbed_one(&lent_room, 0)
        || memcmp(lent_room.memory + past, lent_room.copy + past, lent_room.length - used) != 0;
}

/* One call over the state that stands, and what it left. What is only asked may change nothing of the state. */
static void call_feed_once(struct rest *rest)
{
    uint8_t kind = (uint8_t)take_number(rest, 1);
    uint8_t asks = (uint8_t)take_number(rest, 1);
    uint8_t *room = take_room(rest, &lent_room, "op E: a room is too long"), *state = lent_state.memory + GUARD;
    const uint8_t *chunk = take_file(rest);
    uint64_t *written = lend_number(&lent[FIRST], sizeof *written);
    int changed = 0;
    if (asks & ASK_ROOM) {
        keep(&lent_state);
        put(yb_feed_room(state, lent_state.length, chunk, lent_file.length), 8);
        changed |= disturbed_one(&lent_state, 1);
    }
    uint32_t number = call_feed_kind(kind, room, written);
    size_t used = number != 0 || kind == FEED_START ? 0 : *written < lent_room.length ? *written : lent_room.length;
    changed |= disturbed_one(&lent_state, 0) || disturbed_one(&lent_file, 1) || disturbed_one(&lent[FIRST], 0)
        || room_disturbed(used);
    put(number, 4);
    put(*written, 8);
    if (asks & ASK_PLACE) {
        keep(&lent_state);
        put(yb_feed_place(state, lent_state.length), 8);
        put(yb_feed_steps(state, lent_state.length), 4);
        changed |= disturbed_one(&lent_state, 1);
    }
    if (asks & ASK_HASH)
        put(hash_of(state, lent_state.length), 8);
    if (asks & ASK_STATE)
        put_bytes(state, lent_state.length);
    put((uint64_t)changed, 1);
    put(used, 4);
    put_bytes(room, used);
}

/* 'E': any number of rows of calls that feed a run. Each is a state, the number of the calls u32, and the calls: which
** one u8, what is asked u8, the room's length u32, its fill u8, and the chunk, a length u32 and that many bytes; the
** state of each is what the one before it left. For each row yb_feed_size u64; for each call the room needed u64, if it
** is asked; the number u32; *written after the call u64; place u64 and steps u32, if they are asked; the hash u64 and
** the state, if they are asked; 1 if the chunk, a guard, the room behind what was written or, by what was asked, the
** state was written, u8; the number of bytes written u32, and these.
*/
static void call_feed(const uint8_t *payload, size_t length)
{
    struct rest rest = {payload, length, "op E: the payload is no row of fed runs"};
    while (rest.length != 0) {
        take_state(&rest);
        put(yb_feed_size(), 8);
        for (uint64_t calls = take_number(&rest, 4); calls-- > 0;)
            call_feed_once(&rest);
    }
}

/* 'H': any number of rescues. Each is the room for the output and the room for the list, of both the length u32 and the
** fill u8, and the file; for each yb_rescue_room and yb_rescue_changes u64, yb_rescue_steps u32; the rescue's number
** u32; 1 if the file or a guard was written, u8; and all bytes of both rooms.
*/
static void call_rescue(const uint8_t *payload, size_t length)
{
    struct rest rest = {payload, length, "op H: the payload is no row of rooms and files"};
    while (rest.length != 0) {
        uint8_t *out = take_room(&rest, &lent_room, "op H: a room is too long");
        uint8_t *list = take_room(&rest, &lent_list, "op H: a list is too long");
        const uint8_t *file = take_file(&rest);
        size_t n = lent_file.length;
        put(yb_rescue_room(file, n), 8);
        put(yb_rescue_changes(file, n), 8);
        put(yb_rescue_steps(file, n), 4);
        put(yb_rescue(file, n, out, lent_room.length, list, lent_list.length), 4);
        put((uint64_t)(disturbed_one(&lent_file, 1) || disturbed_one(&lent_room, 0) || disturbed_one(&lent_list, 0)),
            1);
        put_bytes(out, lent_room.length);
        put_bytes(list, lent_list.length);
    }
}

/* 'J': any number of run files, each with a partner's result behind it, of both the length u32 and that many bytes; for
** each the number u32; 1 if either file or a guard was written, u8; and what yb_partner left: verdict u8, start and
** len u64.
*/
static void call_partner(const uint8_t *payload, size_t length)
{
    struct rest rest = {payload, length, "op J: the payload is no row of run files and results"};
    while (rest.length != 0) {
        const uint8_t *run = take_file(&rest);
        const uint8_t *result = take_file_into(&rest, &lent_result);
        uint8_t *verdict = lend_number(&lent[FIRST], sizeof *verdict);
        uint64_t *start = lend_number(&lent[SECOND], sizeof *start);
        uint64_t *len = lend_number(&lent[THIRD], sizeof *len);
        put(yb_partner(run, lent_file.length, result, lent_result.length, verdict, start, len), 4);
        put((uint64_t)(disturbed_one(&lent_file, 1) || disturbed_one(&lent_result, 1) || disturbed(FIRST, THIRD)), 1);
        put_numbers(THIRD);
    }
}

static const struct {
    uint8_t op;
    void (*call)(const uint8_t *payload, size_t length);
} ops[] = {
    {'W', call_watts},
    {'P', call_pass},
    {'B', call_pass_current},
    {'T', call_settle},
    {'S', call_step},
    {'A', call_step_as},
    {'I', call_solar},
    {'C', call_check},
    {'V', call_value},
    {'F', call_settings},
    {'U', call_unit},
    {'N', call_connection},
    {'Y', call_study},
    {'R', call_run},
    {'G', call_peaks},
    {'E', call_feed},
    {'H', call_rescue},
    {'J', call_partner},
};

static void dispatch(uint8_t op, const uint8_t *payload, size_t length)
{
    for (size_t i = 0; i < sizeof ops / sizeof ops[0]; i++)
        if (ops[i].op == op) {
            ops[i].call(payload, length);
            return;
        }
    give_up("unknown op");
}

int main(void)
{
    uint8_t *payload = malloc(MOST_PAYLOAD);
    if (payload == NULL)
        give_up("no memory for a frame");
    for (;;) {
        uint8_t head[5];
        size_t got = fread(head, 1, sizeof head, stdin);
        if (got == 0 && feof(stdin))
            return 0;
        if (got < sizeof head)
            give_up("a frame's head is cut short");
        uint64_t length = number_at(head + 1, 4);
        if (length > MOST_PAYLOAD)
            give_up("a frame is too long");
        if (fread(payload, 1, length, stdin) < length)
            give_up("a frame's payload is cut short");

        answer.used = 0;
        put(0, 4);
        dispatch(head[0], payload, length);
        size_t whole = answer.used;
        answer.used = 0;
        put(whole - 4, 4);
        if (fwrite(answer.bytes, 1, whole, stdout) < whole || fflush(stdout) != 0)
            give_up("an answer cannot be written");
    }
}
