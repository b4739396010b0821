/* The tests of the calls that feed a run in chunks: yb_feed_size, yb_feed_start, yb_feed, yb_feed_end, yb_feed_room,
** yb_feed_place and yb_feed_steps.
*/
#include <inttypes.h>
#include <stdio.h>
#include <stdlib.h>
#include <string.h>
#include <sys/mman.h>

#include "test_surface.h"
#include "test_surface_file.h"
#include "test_surface_roof.h"
#include "test_surface_voltage.h"
#include "yesbrulka.h"

enum { STATE = 24071, STAGE = 13, LAST = 7, MOST_RESULT = 400 };

/* What *written holds before a call. */
#define LEFT_ALONE UINT64_C(0x5A5A5A5A5A5A5A5A)

/* The state between calls. Every call has a copy of it in other memory than the call before: at the end of its pages,
** then at their start, and so on.
*/
static uint8_t kept[STATE];
static int at_end;

static struct pages of_state, of_room;

/* The state, which can only be read. */
static const uint8_t *readable(size_t len)
{
    uint8_t *state = open_bytes(&of_state, len, 0xC3, at_end);
    if (len != 0)
        memcpy(state, kept, len < STATE ? len : STATE);
    if (mprotect(of_state.open, of_state.whole, PROT_READ) != 0)
        give_up("memory to lend");
    return state;
}

static void tell(const char *what, uint64_t got, uint64_t due)
{
    if (got != due) {
        wrong++;
        fprintf(stderr, "%s: %" PRIu64 ", expected %" PRIu64 "\n", what, got, due);
    }
}

/* Place and steps of the state. */
static void check_at(uint64_t place, uint32_t steps)
{
    tell("yb_feed_place", yb_feed_place(readable(STATE), STATE), place);
    tell("yb_feed_steps", yb_feed_steps(readable(STATE), STATE), steps);
}

/* Makes a state ready over bytes of a fill. */
static void start_over(uint8_t fill)
{
    at_end = !at_end;
    uint8_t *state = open_bytes(&of_state, STATE, fill, at_end);
    tell("yb_feed_start", yb_feed_start(state, STATE), 0);
    tell("yb_feed_start, bytes before or behind the state", (uint64_t)spilled(&of_state, STATE, fill), 0);
    memcpy(kept, state, STATE);
}

/* A call: a chunk, or the end if that is NULL. */
struct call {
    const uint8_t *chunk;
    size_t len, room_len;
};

/* Makes a call that is to give a number and, if that is 0, this result at the room's start. All else of the room stays,
** and on 10 and 11 the state does.
*/
static void check_call(struct call call, uint32_t number, const uint8_t *result, size_t result_len)
{
    uint8_t room_fill = at_end ? 0x5A : 0xFF;
    uint64_t written = LEFT_ALONE;
    size_t used = number == 0 ? result_len : 0;
    at_end = !at_end;
    uint8_t *state = open_bytes(&of_state, STATE, 0xC3, at_end);
    uint8_t *room = open_bytes(&of_room, call.room_len, room_fill, at_end);
    memcpy(state, kept, STATE);
    uint32_t got = call.chunk == NULL
        ? yb_feed_end(state, STATE, room, call.room_len, &written)
        : yb_feed(state, STATE, lend(call.chunk, call.len, at_end), call.len, room, call.room_len, &written);
    int bad = spilled(&of_room, used, room_fill) || spilled(&of_state, STATE, 0xC3)
        || (used != 0 && memcmp(room, result, used) != 0) || written != (number == 0 ? result_len : LEFT_ALONE)
        || ((number == YB_DOES_NOT_FIT || number == YB_ROOM_TOO_SHORT) && memcmp(state, kept, STATE) != 0);
    if (got != number || bad) {
        wrong++;
        fprintf(stderr, "%s of %zu bytes in a room of %zu: number %" PRIu32 ", expected %" PRIu32 "%s\n",
            call.chunk == NULL ? "yb_feed_end" : "yb_feed", call.len, call.room_len, got, number,
            bad ? "; room, state or *written is not as expected" : "");
    }
    memcpy(kept, state, STATE);
}

static void feed(const uint8_t *chunk, size_t len, size_t room_len, uint32_t number, const uint8_t *result,
    size_t result_len)
{
    check_call((struct call){chunk, len, room_len}, number, result, result_len);
}

static void end(size_t room_len, uint32_t number, const uint8_t *result)
{
    check_call((struct call){NULL, 0, room_len}, number, result, LAST);
}

static void check_room_of(const uint8_t *chunk, size_t len, uint64_t due)
{
    tell("yb_feed_room", yb_feed_room(readable(STATE), STATE, lend(chunk, len, at_end), len), due);
}

/* The state is number, place and steps, and nothing else. */
static void check_over(uint32_t number, uint64_t place, uint32_t steps)
{
    uint8_t due[STATE] = {(uint8_t)number};
    put(due + 1, place, 8);
    put(due + 9, steps, 4);
    tell("a state that is over", memcmp(kept, due, STATE) == 0, 1);
    check_at(place, steps);
}

/* A complete file, the result of its run, and the bytes of a step in it. */
static struct {
    uint8_t file[ROOF_LEN], result[MOST_RESULT];
    size_t len, result_len, step;
} whole;

/* The file of one unit, the one with an inverter too, or the one with a function. */
enum { PLAIN, ROOF, LED, KINDS };

static void make_whole(int kind)
{
    static const size_t lengths[KINDS] = {sizeof complete, ROOF_LEN, LED_LEN};
    whole.len = lengths[kind];
    whole.step = kind == ROOF ? 40 + 29 : 40;
    if (kind == PLAIN)
        memcpy(whole.file, complete, sizeof complete);
    else if (kind == ROOF)
        put_roof(whole.file);
    else
        put_led(whole.file);
    whole.result_len = 4 * whole.step + LAST;
    if (yb_run(whole.file, whole.len, whole.result, sizeof whole.result) != 0)
        give_up("the run of a complete file");
}

/* The steps whose readings are among the first bytes of the file. */
static uint32_t steps_in(size_t len)
{
    static const size_t plain[] = {103, 106, 133, 136}, roof[] = {384, 430, 452, 455}, led[] = {220, 271, 274, 306};
    const size_t *behind = whole.len == ROOF_LEN ? roof : whole.len == LED_LEN ? led : plain;
    uint32_t steps = 0;
    while (steps < 4 && behind[steps] <= len)
        steps++;
    return steps;
}

/* Feeds the bytes of the file between two places, none of which is refused. */
static void feed_part(size_t from, size_t to)
{
    const uint8_t *result = whole.result + whole.step * steps_in(from);
    size_t due = whole.step * (steps_in(to) - steps_in(from));
    check_room_of(whole.file + from, to - from, due);
    feed(whole.file + from, to - from, due, 0, result, due);
    check_at(to, steps_in(to));
}

static void end_whole(void)
{
    end(LAST, 0, whole.result + whole.result_len - LAST);
    check_over(9, whole.len, 4);
}

static void test_start(void)
{
    static const uint8_t fills[] = {0, 1, 9, 0x5A, 0xFF};
    static const size_t lengths[] = {0, 1, STAGE, STATE - 1, STATE + 1, 2 * STATE, ROOM};
    tell("yb_feed_size", yb_feed_size(), STATE);
    for (size_t i = 0; i < sizeof fills / sizeof fills[0]; i++)
        for (int edge = 0; edge < 2; edge++) {
            uint8_t due[STATE] = {0};
            due[STAGE] = 1;
            start_over(fills[i]);
            tell("the state before any byte", memcmp(kept, due, STATE) == 0, 1);
            check_at(0, 0);
        }
    for (size_t i = 0; i < sizeof lengths / sizeof lengths[0]; i++) {
        at_end = !at_end;
        uint8_t *state = open_bytes(&of_state, lengths[i], 0x77, at_end);
        tell("yb_feed_start, a wrong length", yb_feed_start(state, lengths[i]), 10);
        tell("yb_feed_start, a wrong length, and writes", (uint64_t)spilled(&of_state, 0, 0x77), 0);
    }
    tell("yb_feed_start, no address", yb_feed_start(NULL, 0), 10);
}

static void test_cuts(void)
{
    for (int kind = 0; kind < KINDS; kind++) {
        make_whole(kind);
        for (size_t cut = 0; cut <= whole.len; cut++) {
            start_over((uint8_t)cut);
            feed_part(0, cut);
            feed_part(cut, whole.len);
            end_whole();
        }
        /* A byte at a time, with a chunk of none behind each. */
        start_over(0xFF);
        for (size_t at = 0; at < whole.len; at++) {
            feed_part(at, at + 1);
            feed_part(at + 1, at + 1);
        }
        end_whole();
    }
}

/* However a refused file is cut, its number, place and steps are the check's, and stay. */
static void check_refused(const uint8_t *file, size_t len)
{
    uint32_t steps, number;
    uint64_t place;
    number = yb_checked(file, len, &place, &steps);
    start_over(0);
    if (number == YB_CUT_SHORT || number == YB_END_MISSING) {
        uint64_t room_len = yb_feed_room(kept, STATE, file, len);
        feed(file, len, room_len, 0, whole.result, room_len);
        end(LAST, number, NULL);
    } else {
        check_room_of(file, len, 0);
        feed(file, len, MOST_RESULT, number, NULL, 0);
    }
    check_over(number, place, steps);
    feed(file, len, MOST_RESULT, number, NULL, 0);
    feed(file, 0, 0, number, NULL, 0);
    end(LAST, number, NULL);
    check_over(number, place, steps);
}

static void test_refused(void)
{
    /* One byte of each field: tag, length, order, edition, unit, settings, reading, count. */
    static const struct {
        size_t at;
        uint8_t byte;
    } changes[] = {{0, 0x7E}, {2, 5}, {4, 2}, {3, 4}, {53, 0}, {64, 4}, {79, 0x7F}, {106, 0x7E}, {142, 3}};
    uint8_t file[sizeof complete + 1] = {0};
    make_whole(PLAIN);
    for (size_t len = 0; len < sizeof complete; len++)
        check_refused(complete, len);
    for (size_t i = 0; i < sizeof changes / sizeof changes[0]; i++) {
        memcpy(file, complete, sizeof complete);
        file[changes[i].at] = changes[i].byte;
        check_refused(file, sizeof complete);
    }
    memcpy(file, complete, sizeof complete);
    check_refused(file, sizeof file);
    /* Steps before a fault stay unwritten with it, and were written if they came before the chunk. */
    file[133] = 0x7E;
    start_over(0);
    feed(file, 106, 80, 0, whole.result, 80);
    feed(file + 106, sizeof complete - 106, 80, 2, NULL, 0);
    check_over(2, 133, 3);
}

/* A room that is too short changes nothing, and the call can be made again. */
static void test_rooms(void)
{
    for (int kind = 0; kind < KINDS; kind++) {
        make_whole(kind);
        size_t due = 4 * whole.step;
        start_over(0x11);
        for (size_t room_len = 0; room_len < due; room_len += 7) {
            feed(whole.file, whole.len, room_len, 11, NULL, 0);
            check_at(0, 0);
        }
        feed(whole.file, whole.len, due - 1, 11, NULL, 0);
        feed(whole.file, whole.len, due + 9, 0, whole.result, due);
        for (size_t room_len = 0; room_len < LAST; room_len++) {
            end(room_len, 11, NULL);
            check_at(whole.len, 4);
        }
        end(LAST + 3, 0, whole.result + due);
    }
}

static void test_after_end(void)
{
    make_whole(PLAIN);
    start_over(0);
    feed_part(0, whole.len);
    end_whole();
    for (int i = 0; i < 2; i++) {
        feed(complete, 0, 0, 9, NULL, 0);
        feed(complete, sizeof complete, MOST_RESULT, 9, NULL, 0);
        check_room_of(complete, sizeof complete, 0);
        end(0, 9, NULL);
        end(LAST, 9, NULL);
        check_over(9, whole.len, 4);
    }
    /* Over what is left of one run another can begin. */
    start_over(0xEE);
    feed_part(0, whole.len);
    end_whole();
}

/* A state that is not well formed, or of another length, is 10, and nothing changes. */
static void test_no_state(void)
{
    static const size_t lengths[] = {0, 1, STATE - 1, STATE + 1};
    make_whole(ROOF);
    start_over(0);
    feed_part(0, 400);
    for (size_t i = 0; i < sizeof lengths / sizeof lengths[0]; i++) {
        size_t len = lengths[i];
        uint64_t written = LEFT_ALONE;
        uint8_t room[MOST_RESULT], *state = malloc(2 * STATE), *before = malloc(2 * STATE);
        if (state == NULL || before == NULL)
            give_up("no memory for a state");
        memset(state, 0, 2 * STATE);
        memcpy(state, kept, STATE);
        memcpy(before, state, 2 * STATE);
        tell("yb_feed, a wrong length", yb_feed(state, len, whole.file + 400, 30, room, sizeof room, &written), 10);
        tell("yb_feed_end, a wrong length", yb_feed_end(state, len, room, sizeof room, &written), 10);
        tell("a state of a wrong length, or *written, that stays",
            memcmp(state, before, 2 * STATE) == 0 && written == LEFT_ALONE, 1);
        tell("yb_feed_room, a wrong length", yb_feed_room(readable(len), len, whole.file + 400, 30), 0);
        tell("yb_feed_place, a wrong length", yb_feed_place(readable(len), len), 0);
        tell("yb_feed_steps, a wrong length", yb_feed_steps(readable(len), len), 0);
        free(state);
        free(before);
    }
    /* The number, the place, the steps, the stage, the lengths; sun, voltage, tail and its end; a store, a request and
    ** those of no unit; a flag, and that of no inverter; the vars of the unit, the inverter and neither; the site part.
    */
    static const size_t changed[] = {0, 1, 9, STAGE, 14, 16, 17, 25, 26, 27, 220, 221, 229, 233, 988, 989, 990, 1052,
        1053, 1057, 1061, 1564, 1565, STATE - 1};
    for (size_t i = 0; i < sizeof changed / sizeof changed[0]; i++) {
        kept[changed[i]] ^= 0xB6;
        check_at(0, 0);
        check_room_of(whole.file + 400, 30, 0);
        feed(whole.file + 400, 30, MOST_RESULT, 10, NULL, 0);
        end(LAST, 10, NULL);
        kept[changed[i]] ^= 0xB6;
    }
    check_at(400, 1);
    feed_part(400, whole.len);
    end_whole();
}

/* Lists of none may be lent by no address. */
static void test_no_address(void)
{
    uint64_t written = LEFT_ALONE;
    make_whole(PLAIN);
    start_over(0);
    tell("yb_feed, no chunk and no room", yb_feed(kept, STATE, NULL, 0, NULL, 0, &written), 0);
    tell("yb_feed, no chunk and no room, written", written, 0);
    tell("yb_feed_room, no chunk", yb_feed_room(kept, STATE, NULL, 0), 0);
    feed_part(0, whole.len);
    tell("yb_feed_end, no room", yb_feed_end(kept, STATE, NULL, 0, &written), 11);
    tell("yb_feed_room, no state", yb_feed_room(NULL, 0, NULL, 0), 0);
    tell("yb_feed_place, no state", yb_feed_place(NULL, 0), 0);
    tell("yb_feed_steps, no state", yb_feed_steps(NULL, 0), 0);
    tell("yb_feed, no state", yb_feed(NULL, 0, NULL, 0, NULL, 0, &written), 10);
    tell("yb_feed_end, no state", yb_feed_end(NULL, 0, NULL, 0, &written), 10);
    end_whole();
}

/* A file of the most steps, each with a weather, a voltage and a power, which is longer than the other calls take; and
** one with a step more.
*/
enum { STEPS_BEGIN = 212, STEP = 19 + 5 + 27, STEPS_END = STEPS_BEGIN + STEP * YB_MOST_STEPS, LONG = STEPS_END + LAST };

static uint8_t *make_long(void)
{
    uint8_t *file = malloc(LONG), led[LED_LEN];
    if (file == NULL)
        give_up("no memory for a large file");
    put_led(led);
    memcpy(file, led, STEPS_BEGIN);
    for (size_t at = STEPS_BEGIN; at < STEPS_END; at += STEP)
        memcpy(file + at, led + 220, STEP);
    memcpy(file + STEPS_END, "\x7F\0\4\0\0\xFF\xFF", LAST);
    return file;
}

/* Feeds bytes up to a place in chunks of 65,536; the last record of each is that of the last step in it. */
static uint64_t feed_long(const uint8_t *file, size_t to)
{
    enum { CHUNK = 65536, MOST = (CHUNK / STEP + 2) * 40 };
    static uint8_t room[MOST];
    uint64_t all = 0;
    for (size_t at = 0; at < to; at += CHUNK) {
        size_t len = to - at < CHUNK ? to - at : CHUNK;
        uint64_t written = 0;
        tell("yb_feed of a long file", yb_feed(kept, STATE, file + at, len, room, MOST, &written), 0);
        if (written >= 40)
            tell("the last step of a chunk", (uint64_t)room[written - 35] << 8 | room[written - 34],
                yb_feed_steps(kept, STATE) - 1);
        all += written;
    }
    return all;
}

static void test_long(void)
{
    uint8_t *file = make_long();
    tell("the check of a long file", yb_check(file, LONG), 12);
    start_over(0);
    tell("the results of a long file", feed_long(file, STEPS_END), UINT64_C(40) * YB_MOST_STEPS);
    check_at(STEPS_END, YB_MOST_STEPS);
    uint8_t before[STATE];
    memcpy(before, kept, STATE);
    feed(file + STEPS_BEGIN, STEP, 40, 12, NULL, 0);
    check_over(12, STEPS_END + 19 + 5, YB_MOST_STEPS);
    memcpy(kept, before, STATE);
    feed(file + STEPS_END, LAST, 0, 0, NULL, 0);
    end(LAST, 0, (const uint8_t *)"\x1F\0\4\0\0\xFF\xFF");
    check_over(9, LONG, YB_MOST_STEPS);
    free(file);
}

const struct test feed_tests[] = {
    {"yb_feed_start: over any bytes, and of a wrong length", test_start},
    {"yb_feed: every cut in two, and a byte at a time", test_cuts},
    {"yb_feed: refused files, and the calls after it", test_refused},
    {"yb_feed: rooms that are too short", test_rooms},
    {"yb_feed: after the end", test_after_end},
    {"yb_feed: bytes that are no state", test_no_state},
    {"yb_feed: lists of none", test_no_address},
    {"yb_feed: a file longer than the other calls take", test_long},
    {NULL, NULL},
};
