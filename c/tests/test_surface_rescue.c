/* The tests of yb_rescue_room, yb_rescue_changes, yb_rescue_steps and yb_rescue. */
#include <inttypes.h>
#include <stdio.h>
#include <stdlib.h>
#include <string.h>

#include "test_surface.h"
#include "test_surface_file.h"
#include "test_surface_roof.h"
#include "test_surface_voltage.h"
#include "yesbrulka.h"

enum { LAST = 7, MOST_CHANGES = YB_MOST_STEPS + 1 };

static struct pages of_out, of_list;

/* What a rescue is to give: the file as it is kept and the list, as far as the file has been gone through. */
static struct {
    uint8_t out[YB_MOST_FILE_BYTES], list[YB_CHANGE_BYTES * MOST_CHANGES];
    size_t len, changes, from;
} due;

static void begin_due(void)
{
    due.len = due.changes = due.from = 0;
}

/* Takes the file as it is up to a place. */
static void keep_to(const uint8_t *file, size_t place)
{
    if (place != due.from)
        memcpy(due.out + due.len, file + due.from, place - due.from);
    due.len += place - due.from;
    due.from = place;
}

static void list_change(size_t place, uint8_t kind, size_t dropped)
{
    put(put(put(due.list + YB_CHANGE_BYTES * due.changes++, place, 8), kind, 1), dropped, 8);
}

/* The three changes: a reading, all from a place on, and all behind the end. */
static void make_missing(const uint8_t *file, size_t place)
{
    keep_to(file, place);
    list_change(place, 1, 24);
    put(due.out + due.len, 0x050000, 3);
    due.len += 3;
    due.from += 27;
}

static void end_here(const uint8_t *file, size_t len, size_t place, uint32_t steps)
{
    keep_to(file, place);
    list_change(place, 2, len - place);
    put(put(due.out + due.len, 0x7F0004, 3), steps, 4);
    due.len += LAST;
    due.from = len;
}

static void leave_out(const uint8_t *file, size_t len, size_t place)
{
    keep_to(file, place);
    list_change(place, 3, len - place);
    due.from = len;
}

static void tell(const char *what, size_t len, uint64_t got, uint64_t expected)
{
    if (got != expected) {
        wrong++;
        fprintf(stderr, "%s of a file of %zu bytes: %" PRIu64 ", expected %" PRIu64 "\n", what, len, got, expected);
    }
}

static void check_asked(const uint8_t *file, size_t len, uint64_t room, uint64_t changes, uint32_t steps)
{
    for (int at_end = 0; at_end < 2; at_end++) {
        tell("yb_rescue_room", len, yb_rescue_room(lend(file, len, at_end), len), room);
        tell("yb_rescue_changes", len, yb_rescue_changes(lend(file, len, at_end), len), changes);
        tell("yb_rescue_steps", len, yb_rescue_steps(lend(file, len, at_end), len), steps);
    }
}

/* A rescue into rooms of these lengths: its number and, if that is 0, what is due at the start of both; every other
** byte, and the file, as it was.
*/
static void check_call(const uint8_t *file, size_t len, size_t out_len, size_t list_len, uint32_t number)
{
    size_t used = number == 0 ? due.len : 0, listed = number == 0 ? YB_CHANGE_BYTES * due.changes : 0;
    for (int at_end = 0; at_end < 2; at_end++) {
        uint8_t fill = at_end ? 0x5A : 0xFF;
        uint8_t *out = open_bytes(&of_out, out_len, fill, at_end);
        uint8_t *list = open_bytes(&of_list, list_len, fill, at_end);
        uint32_t got = yb_rescue(lend(file, len, at_end), len, out, out_len, list, list_len);
        int is_bad = spilled(&of_out, used, fill) || spilled(&of_list, listed, fill)
            || (used != 0 && memcmp(out, due.out, used) != 0) || (listed != 0 && memcmp(list, due.list, listed) != 0);
        if (got != number || is_bad) {
            wrong++;
            fprintf(stderr, "yb_rescue, a file of %zu bytes, rooms of %zu and %zu: number %" PRIu32 ", expected %"
                PRIu32 "%s\n", len, out_len, list_len, got, number, is_bad ? "; a room is not as expected" : "");
        }
    }
}

/* The file is rescued as it is due, into rooms that are just as long, longer, and too short; and what is kept comes
** back as it is.
*/
static void check_rescued(const uint8_t *file, size_t len, uint32_t steps)
{
    keep_to(file, len);
    size_t listed = YB_CHANGE_BYTES * due.changes;
    check_asked(file, len, due.len, due.changes, steps);
    check_call(file, len, due.len, listed, 0);
    check_call(file, len, due.len + 9, listed + 20, 0);
    check_call(file, len, due.len - 1, listed, 11);
    check_call(file, len, 0, listed + 20, 11);
    if (listed != 0) {
        check_call(file, len, due.len, listed - 1, 11);
        check_call(file, len, due.len + 9, listed - YB_CHANGE_BYTES, 11);
        check_call(file, len, due.len, 0, 11);
        check_call(file, len, due.len - 1, listed - 1, 11);
    }
    tell("the check of what is kept", len, yb_check(due.out, due.len), 0);
    tell("the steps of what is kept", len, yb_check_steps(due.out, due.len), steps);
    due.changes = 0;
    check_asked(due.out, due.len, due.len, 0, steps);
    check_call(due.out, due.len, due.len, 0, 0);
}

/* Refused, whatever rooms there are. */
static void check_refused(const uint8_t *file, size_t len, uint32_t number)
{
    check_asked(file, len, 0, 0, 0);
    check_call(file, len, len + LAST, 100, number);
    check_call(file, len, 0, 0, number);
}

static void test_complete(void)
{
    uint8_t roof[ROOF_LEN], led[LED_LEN], limited[sizeof complete + MORE];
    put_roof(roof);
    put_led(led);
    begin_due();
    check_rescued(complete, sizeof complete, 4);
    begin_due();
    check_rescued(roof, ROOF_LEN, 4);
    begin_due();
    check_rescued(led, LED_LEN, 4);
    for (uint8_t edition = 2; edition <= 3; edition++) {
        begin_due();
        check_rescued(limited, put_limited(limited, edition, complete, sizeof complete, 7, 5000), 4);
    }
    for (size_t units = 1; units <= MOST_UNITS; units += 21) {
        static struct file file;
        draw_file(&file, units);
        file.inverters = units;
        write_file(&file);
        begin_due();
        check_rescued(file.bytes, file.len, 2);
    }
}

/* Readings that do not convert, one by one and together: a NaN, an infinity, and a watt beyond the range. */
static void test_missing(void)
{
    static const uint8_t bad[][8] = {{0x7F, 0xF8}, {0xFF, 0xF0}, {0x40, 0xF8, 0x6A, 0, 0x20, 0, 0, 0}};
    static const size_t places[] = {76, 106};
    uint8_t file[sizeof complete], roof[ROOF_LEN], led[LED_LEN];
    for (size_t kind = 0; kind < 3; kind++)
        for (size_t phase = 0; phase < 3; phase++)
            for (unsigned which = 1; which <= 3; which++) {
                memcpy(file, complete, sizeof complete);
                begin_due();
                for (unsigned i = 0; i < 2; i++)
                    if (which >> i & 1) {
                        memcpy(file + places[i] + 3 + 8 * phase, bad[kind], 8);
                        make_missing(file, places[i]);
                    }
                check_rescued(file, sizeof file, 4);
            }
    /* A weather and a voltage stay with their step. */
    put_roof(roof);
    memcpy(roof + 406, bad[0], 8);
    begin_due();
    make_missing(roof, 403);
    check_rescued(roof, ROOF_LEN, 4);
    put_led(led);
    memcpy(led + 247, bad[0], 8);
    memcpy(led + 282, bad[1], 8);
    begin_due();
    make_missing(led, 244);
    make_missing(led, 279);
    check_rescued(led, LED_LEN, 4);
}

/* A file of four steps is cut at every byte. What is lost is from the place on where its step begins, its weather and
** its voltage with it. Behind the settings a cut leaves a file of no steps; anywhere else before the steps it is
** refused.
*/
static void check_cuts(const uint8_t *file, size_t file_len, const size_t *begins)
{
    enum { SETTINGS_END = 76 };
    for (size_t len = 0; len < file_len; len++) {
        uint32_t steps = 0;
        while (steps < 4 && begins[steps + 1] <= len)
            steps++;
        if (len < begins[0] && len != SETTINGS_END) {
            check_refused(file, len, yb_check(file, len));
            continue;
        }
        begin_due();
        end_here(file, len, len < begins[0] ? SETTINGS_END : begins[steps], steps);
        check_rescued(file, len, steps);
    }
}

static void test_cut(void)
{
    static const size_t begins[] = {76, 103, 106, 133, 136}, roof_begins[] = {362, 384, 430, 452, 455};
    static const size_t led_begins[] = {212, 220, 271, 274, 306};
    uint8_t roof[ROOF_LEN], led[LED_LEN];
    put_roof(roof);
    put_led(led);
    check_cuts(complete, sizeof complete, begins);
    check_cuts(roof, ROOF_LEN, roof_begins);
    check_cuts(led, LED_LEN, led_begins);
}

/* A byte that is another, and the place and the steps of the end that is put in then. */
struct ending {
    size_t at;
    uint8_t byte;
    size_t place;
    uint32_t steps;
};

static void check_endings(const uint8_t *whole, size_t len, const struct ending *ends, size_t count)
{
    uint8_t file[ROOF_LEN];
    for (size_t i = 0; i < count; i++) {
        memcpy(file, whole, len);
        file[ends[i].at] = ends[i].byte;
        begin_due();
        end_here(file, len, ends[i].place, ends[i].steps);
        check_rescued(file, len, ends[i].steps);
    }
}

/* One byte is another, from the steps on, and what follows is lost; or before them, and all is. */
static void test_changed(void)
{
    static const struct ending ends[] = {{76, 0x7E, 76, 0}, {78, 23, 76, 0}, {76, 0x03, 76, 0}, {103, 0x00, 103, 1},
        {105, 1, 103, 1}, {106, 0x02, 106, 2}, {133, 0x01, 133, 3}, {136, 0xFF, 136, 4}, {138, 3, 136, 4},
        {142, 3, 136, 4}, {139, 1, 136, 4}},
      roofs[] = {{76, 0x02, 76, 0}, {362, 0x7E, 362, 0}, {365, 0xBF, 362, 0}, {373, 0x7F, 362, 0}, {381, 0x7E, 362, 0},
        {384, 0x06, 384, 1}, {387, 0x7F, 384, 1}, {403, 0x08, 384, 1}, {405, 23, 384, 1}, {449, 0x7F, 430, 2},
        {452, 0x07, 452, 3}, {461, 5, 455, 4}},
      leds[] = {{76, 0x7E, 76, 0}, {212, 0x7E, 212, 0}, {212, 0x05, 212, 0}, {215, 0xFF, 212, 0}, {217, 0x7E, 212, 0},
        {220, 0x0B, 220, 1}, {223, 0xBF, 220, 1}, {239, 0x7E, 220, 1}, {242, 0xFF, 220, 1}, {244, 0x09, 220, 1},
        {246, 23, 220, 1}, {271, 0x0B, 271, 2}, {274, 0x08, 274, 3}, {279, 0x05, 274, 3}, {312, 3, 306, 4}};
    uint8_t roof[ROOF_LEN], led[LED_LEN];
    put_roof(roof);
    put_led(led);
    check_endings(complete, sizeof complete, ends, sizeof ends / sizeof ends[0]);
    check_endings(roof, ROOF_LEN, roofs, sizeof roofs / sizeof roofs[0]);
    check_endings(led, LED_LEN, leds, sizeof leds / sizeof leds[0]);
}

static void test_refused(void)
{
    /* Tag, length and a value of each field before the steps, and another field in its place. */
    static const struct {
        size_t at;
        uint8_t byte;
        uint32_t number;
    } changes[] = {{0, 0x7E, 2}, {0, 0x04, 3}, {2, 5, 3}, {3, 4, 5}, {4, 0, 5}, {4, 2, 4}, {9, 0x05, 3}, {11, 57, 3},
        {53, 0, 5}, {61, 0x7F, 3}, {64, 9, 5}, {78, 18, 3}, {90, 101, 5}, {98, 0x06, 3}, {98, 0x08, 3},
        {101, 1, 5}, {230, 0x7E, 2}, {233, 17, 5}, {362, 0x06, 3}, {362, 0x07, 3}},
      leds[] = {{77, 1, 3}, {78, 2, 3}, {79, 2, 5}, {80, 0x7E, 2}, {80, 0x05, 3}, {83, 1, 5}, {115, 0xEF, 5},
        {212, 0x06, 3}, {212, 0x07, 3}, {212, 0x0A, 3}, {212, 0x0B, 3}};
    uint8_t file[ROOF_LEN];
    for (size_t i = 0; i < sizeof changes / sizeof changes[0]; i++) {
        put_roof(file);
        file[changes[i].at] = changes[i].byte;
        tell("yb_check", ROOF_LEN, yb_check(file, ROOF_LEN), changes[i].number);
        check_refused(file, ROOF_LEN, changes[i].number);
    }
    for (size_t i = 0; i < sizeof leds / sizeof leds[0]; i++) {
        put_led(file);
        file[leds[i].at] = leds[i].byte;
        tell("yb_check", LED_LEN, yb_check(file, LED_LEN), leds[i].number);
        check_refused(file, LED_LEN, leds[i].number);
    }
    check_refused(NULL, 0, 8);
    /* As the fleet counts two units, the settings come too early. */
    memcpy(file, complete, sizeof complete);
    file[4] = 2;
    check_refused(file, sizeof complete, 4);
}

static void test_after_end(void)
{
    uint8_t file[2 * sizeof complete];
    memcpy(file, complete, sizeof complete);
    memcpy(file + sizeof complete, complete, sizeof complete);
    for (size_t len = sizeof complete + 1; len <= sizeof file; len += 71) {
        begin_due();
        leave_out(file, len, sizeof complete);
        check_rescued(file, len, 4);
    }
    /* All kinds that one file can have. */
    memcpy(file + 79, "\x7F\xF8", 2);
    memcpy(file + 109, "\x7F\xF8", 2);
    begin_due();
    make_missing(file, 76);
    make_missing(file, 106);
    leave_out(file, sizeof file, sizeof complete);
    check_rescued(file, sizeof file, 4);
    file[142] = 9;
    begin_due();
    make_missing(file, 76);
    make_missing(file, 106);
    end_here(file, sizeof file, 136, 4);
    check_rescued(file, sizeof file, 4);
}

static void test_no_address(void)
{
    uint8_t out[sizeof complete + LAST];
    tell("yb_rescue_room, no file", 0, yb_rescue_room(NULL, 0), 0);
    tell("yb_rescue_changes, no file", 0, yb_rescue_changes(NULL, 0), 0);
    tell("yb_rescue_steps, no file", 0, yb_rescue_steps(NULL, 0), 0);
    tell("yb_rescue, nothing at all", 0, yb_rescue(NULL, 0, NULL, 0, NULL, 0), 8);
    tell("yb_rescue, no rooms", sizeof complete, yb_rescue(complete, sizeof complete, NULL, 0, NULL, 0), 11);
    tell("yb_rescue, no list", sizeof complete, yb_rescue(complete, sizeof complete, out, sizeof out, NULL, 0), 0);
    tell("yb_rescue, no list, the file", sizeof complete, memcmp(out, complete, sizeof complete) == 0, 1);
}

/* Puts so many of the same fields behind the bytes of a file; gives its bytes then. */
static size_t put_fields(uint8_t *file, size_t len, const uint8_t *field, size_t field_len, size_t count)
{
    for (; count != 0; count--, len += field_len)
        memcpy(file + len, field, field_len);
    return len;
}

/* Readings that do not convert, as many as there can be, and an end; or a step too many. */
static void test_many(void)
{
    uint8_t *file = malloc(YB_MOST_FILE_BYTES), bad[27];
    if (file == NULL)
        give_up("no memory for a large file");
    memcpy(file, complete, 76);
    memcpy(bad, complete + 76, sizeof bad);
    memcpy(bad + 3, "\x7F\xF8", 2);
    size_t len = put_fields(file, 76, bad, sizeof bad, YB_MOST_STEPS);
    memcpy(file + len, "\x7F\0\4\0\0\xFF\xFF", LAST);
    for (int is_more = 0; is_more < 2; is_more++) {
        begin_due();
        for (size_t at = 76; at < len; at += sizeof bad)
            make_missing(file, at);
        if (is_more) {
            memcpy(file + len, bad, sizeof bad);
            end_here(file, len + sizeof bad, len, YB_MOST_STEPS);
        }
        tell("the changes that are due", len, due.changes, (uint64_t)YB_MOST_STEPS + (is_more != 0));
        check_rescued(file, is_more ? len + sizeof bad : len + LAST, YB_MOST_STEPS);
    }
    free(file);
}

/* Files of just the most bytes, and of more; with an end, and without one, which is then put in if there is room. */
static void test_size(void)
{
    enum { ROWS = 45588, MISSING = 7, STEPS = ROWS + MISSING };
    uint8_t *file = malloc(YB_MOST_FILE_BYTES + 1), roof[ROOF_LEN];
    if (file == NULL)
        give_up("no memory for a large file");
    put_roof(roof);
    memcpy(file, complete, 76);
    size_t rows = put_fields(file, 76, roof + 384, 46, ROWS), len = put_fields(file, rows, complete + 103, 3, MISSING);
    memcpy(put(file + len, 0x7F0004, 3), "\0\0\xB2\x1B", 4);
    file[YB_MOST_FILE_BYTES] = 0;
    tell("the file that is just not too long", len + LAST, yb_check(file, len + LAST), 0);
    begin_due();
    check_rescued(file, YB_MOST_FILE_BYTES, STEPS);
    check_refused(file, YB_MOST_FILE_BYTES + 1, 12);
    begin_due();
    end_here(file, len, len, STEPS);
    check_rescued(file, len, STEPS);
    /* Bytes behind the steps that are no end field leave room for one. */
    file[len] = 0x7E;
    begin_due();
    end_here(file, YB_MOST_FILE_BYTES, len, STEPS);
    check_rescued(file, YB_MOST_FILE_BYTES, STEPS);
    /* A step with weather and two without fill it to the last byte: there is none. */
    len = put_fields(file, put_fields(file, rows, roof + 362, 19, 1), complete + 103, 3, 3);
    tell("the bytes of the file without an end", len, len, YB_MOST_FILE_BYTES);
    for (size_t less = 0; less <= 6; less += 3) {
        tell("yb_check", len - less, yb_check(file, len - less), 8);
        check_refused(file, len - less, 12);
    }
    /* A reading that is made missing makes it. */
    memcpy(file + 76 + 22, "\x7F\xF8", 2);
    begin_due();
    make_missing(file, 76 + 19);
    end_here(file, len, len, ROWS + 3);
    check_rescued(file, len, ROWS + 3);
    free(file);
}

const struct test rescue_tests[] = {
    {"yb_rescue: complete files come back", test_complete},
    {"yb_rescue: readings made missing", test_missing},
    {"yb_rescue: every cut", test_cut},
    {"yb_rescue: ended where something is wrong", test_changed},
    {"yb_rescue: refused before the steps", test_refused},
    {"yb_rescue: bytes behind the end, and all kinds of changes", test_after_end},
    {"yb_rescue: lists of none", test_no_address},
    {"yb_rescue: as many changes as there can be", test_many},
    {"yb_rescue: the size of the file and of what is kept", test_size},
    {NULL, NULL},
};
