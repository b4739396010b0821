/* The tests of yb_check and yb_run over files with a function and voltages. */
#include <inttypes.h>
#include <stdio.h>
#include <stdlib.h>
#include <string.h>

#include "test_surface.h"
#include "test_surface_file.h"
#include "test_surface_roof.h"
#include "test_surface_voltage.h"
#include "yesbrulka.h"

/* The fields by their places, and the file's end. */
static const size_t fields[] = {0, 9, 61, 76, 80, 212, 217, 220, 239, 244, 271, 274, 279, 306, 313};
enum { FIELDS = 14, BASE = 79 };

/* All vars up to 0.92 per unit, none from 0.98 to 1.02, and all the other way from 1.08 on. The base is 0. */
void put_led(uint8_t *file)
{
    static const int32_t curve[] = {9200, 10000, 9800, 0, 10200, 0, 10800, -10000};
    /* 1 kW/m2 and 25 degrees C */
    static const uint8_t clear[] = {0x08, 0, 16, 0x3F, 0xF0, 0, 0, 0, 0, 0, 0, 0x40, 0x39, 0, 0, 0, 0, 0, 0};
    memset(file, 0, LED_LEN);
    memcpy(file, complete, 76);
    put(file + 76, 0x0B000100, 4);
    put(file + 80, 0x07008104, 4);
    for (size_t i = 0; i < sizeof curve / sizeof curve[0]; i++)
        put(file + 84 + 4 * i, (uint32_t)curve[i], 4);
    put(put(file + 212, 0x0C0002, 3), 9500, 2);
    file[217] = 0x05;
    memcpy(file + 220, clear, sizeof clear);
    put(put(file + 239, 0x0C0002, 3), 10800, 2);
    memcpy(file + 244, complete + 76, 27);
    file[271] = 0x05;
    put(put(file + 274, 0x0C0002, 3), 9200, 2);
    memcpy(file + 279, complete + 76, 27);
    memcpy(file + 306, "\x7F\0\4\0\0\0\4", 7);
}

static void test_led_complete(void)
{
    uint8_t file[LED_LEN];
    put_led(file);
    check_file(file, LED_LEN, 0, LED_LEN, 4);
}

/* The steps before a field. */
static uint32_t steps_before(const uint8_t *file, int field)
{
    uint32_t steps = 0;
    for (int i = 0; i < field; i++)
        steps += file[fields[i]] == 0x04 || file[fields[i]] == 0x05;
    return steps;
}

static void test_led_cut(void)
{
    uint8_t file[LED_LEN];
    put_led(file);
    for (int field = 0; field < FIELDS; field++) {
        check_file(file, fields[field], 8, fields[field], steps_before(file, field));
        for (size_t len = fields[field] + 1; len < fields[field + 1]; len++)
            check_file(file, len, 1, fields[field], steps_before(file, field));
    }
}

/* The file with one byte changed. */
static void test_led_changed(void)
{
    static const struct change changes[] = {
        /* the function: tag and length, base */
        {76, 0x0D, 2, 76, 0}, {76, 0x06, 3, 76, 0}, {76, 0x07, 3, 76, 0}, {77, 1, 3, 76, 0}, {78, 0, 3, 76, 0},
        {78, 2, 3, 76, 0}, {79, 1, 0, 313, 4}, {79, 2, 5, 76, 0}, {79, 255, 5, 76, 0},
        /* its curve: tag and length, points, x, y, and what is past the points */
        {80, 0x0D, 2, 80, 0}, {80, 0x0B, 3, 80, 0}, {81, 1, 3, 80, 0}, {82, 128, 3, 80, 0}, {83, 0, 5, 80, 0},
        {83, 1, 5, 80, 0}, {83, 3, 5, 80, 0}, {83, 5, 5, 80, 0}, {83, 17, 5, 80, 0}, {83, 255, 5, 80, 0},
        {84, 0x80, 5, 80, 0}, {84, 1, 5, 80, 0}, {86, 0x26, 5, 80, 0}, {86, 0x25, 0, 313, 4}, {86, 0, 0, 313, 4},
        {88, 0x80, 5, 80, 0}, {90, 0x28, 5, 80, 0}, {91, 0x11, 5, 80, 0}, {91, 0x0F, 0, 313, 4}, {96, 0xFF, 5, 80, 0},
        {110, 0x4E, 5, 80, 0}, {110, 0x4D, 0, 313, 4}, {112, 0, 5, 80, 0}, {115, 0xEF, 5, 80, 0},
        {115, 0xF1, 0, 313, 4}, {116, 1, 5, 80, 0}, {119, 1, 5, 80, 0}, {211, 1, 5, 80, 0},
        /* the voltages */
        {212, 0x0D, 2, 212, 0}, {212, 0x05, 3, 212, 0}, {212, 0x0B, 3, 212, 0}, {213, 1, 3, 212, 0},
        {214, 1, 3, 212, 0}, {214, 3, 3, 212, 0}, {215, 0, 0, 313, 4}, {215, 0x4E, 0, 313, 4}, {215, 0x4F, 5, 212, 0},
        {215, 0xFF, 5, 212, 0}, {242, 0x4E, 5, 239, 1}, {242, 0x4D, 0, 313, 4}, {277, 0x4E, 5, 274, 3},
        /* the readings and the end */
        {217, 0x04, 3, 217, 0}, {217, 0x7F, 3, 217, 0}, {244, 0x09, 5, 244, 1}, {247, 0x7F, 6, 244, 1},
        {271, 0x0C, 3, 271, 2}, {312, 3, 7, 306, 4}, {312, 5, 7, 306, 4},
    };
    uint8_t file[LED_LEN];
    put_led(file);
    check_changes(file, LED_LEN, changes, sizeof changes / sizeof changes[0]);
    /* The largest voltage and one more, as the curve's last x and as a step's. */
    for (uint32_t more = 0; more < 2; more++) {
        put_led(file);
        put(file + 108, 20000 + more, 4);
        check_file(file, LED_LEN, more ? 5 : 0, more ? 80 : LED_LEN, more ? 0 : 4);
        put_led(file);
        put(file + 215, 20000 + more, 2);
        check_file(file, LED_LEN, more ? 5 : 0, more ? 212 : LED_LEN, more ? 0 : 4);
    }
}

/* A field by its letter: fleet, unit, settings, Inverter, its two curves t and T, Function, its Curve, Weather,
** Voltage, Missing, Power, End.
*/
static size_t put_letter(uint8_t *to, char letter)
{
    static const char letters[] = "fusFCVMW.P...E", roof_letters[] = "...ItT";
    static const size_t roof_fields[] = {0, 9, 61, 76, 98, 230, 362};
    uint8_t led[LED_LEN], roof[ROOF_LEN];
    const char *at = strchr(letters, letter);
    put_led(led);
    put_roof(roof);
    const size_t *places = at != NULL ? fields + (at - letters)
        : roof_fields + (strchr(roof_letters, letter) - roof_letters);
    memcpy(to, (at != NULL ? led : roof) + places[0], places[1] - places[0]);
    return places[1] - places[0];
}

/* Fields in another order; the end counts the steps before it. The place is that of the last field of the order, or the
** length of a complete one.
*/
static void check_order(const char *order, uint32_t number)
{
    uint8_t file[4 * ROOF_LEN];
    size_t len = 0, last = 0;
    uint32_t steps = 0, before = 0;
    for (const char *c = order; *c != '\0'; c++) {
        last = len;
        before = steps;
        len += put_letter(file + len, *c);
        steps += *c == 'M' || *c == 'P';
        if (*c == 'E')
            file[len - 1] = (uint8_t)steps;
    }
    check_file(file, len, number, number == 0 ? len : last, before);
}

static void test_led_order(void)
{
    static const char *const good[] = {"fusFCE", "fusFCME", "fusFCVME", "fusFCVPE", "fusFCWVPE", "fusFCMVMWMWVME",
        "fusItTFCVME", "fusItTItTFCWVMME"};
    static const char *const bad[] = {
        /* too early */
        "F", "V", "fF", "fV", "fuF", "fuV", "fusIF", "fusIV", "fusItF", "fusItV",
        /* a voltage without a function */
        "fusV", "fusMV", "fusWV", "fusItTV", "fusItTMV", "fusItTWV",
        /* a function without its curve, with two, twice, and before an inverter */
        "fusFF", "fusFV", "fusFM", "fusFP", "fusFE", "fusFI", "fusFW", "fusFs", "fusFCC", "fusFCF", "fusFCI", "fusFCs",
        "fusItTFCI", "fusItTFCT", "fusC",
        /* a function after the steps began */
        "fusMF", "fusPF", "fusWF", "fusFCMF", "fusFCVF", "fusFCWF", "fusFCMC", "fusFCVC", "fusFCWVF",
        /* a weather or a voltage that waits for its reading */
        "fusFCVV", "fusFCVW", "fusFCVE", "fusFCVs", "fusFCVI", "fusFCWW", "fusFCWE", "fusFCWVE", "fusFCWVV", "fusFCWVW",
        "fusFCMVE"};
    for (size_t i = 0; i < sizeof good / sizeof good[0]; i++)
        check_order(good[i], 0);
    for (size_t i = 0; i < sizeof bad / sizeof bad[0]; i++)
        check_order(bad[i], 4);
}

/* As many steps as there can be, each with a voltage. The reading that would close one more is refused, and not its
** voltage.
*/
static void test_led_most_steps(void)
{
    enum { HEAD = 212, STEP = 8, LAST = HEAD + STEP * 65535 };
    uint8_t led[LED_LEN], *file = calloc(1, LAST + 2 * STEP);
    if (file == NULL)
        give_up("no memory for a large file");
    put_led(led);
    memcpy(file, led, HEAD);
    for (int step = 0; step < 65536; step++)
        memcpy(file + HEAD + STEP * step, led + HEAD, STEP);
    check_file(file, LAST + 5, 8, LAST + 5, 65535);
    check_file(file, LAST + STEP, 12, LAST + 5, 65535);
    memcpy(file + LAST, "\x7F\0\4\0\0\xFF\xFF", 7);
    check_file(file, LAST + 7, 0, LAST + 7, 65535);
    free(file);
}

static void tell(const char *what, size_t step, uint8_t base, int64_t got, int64_t expected)
{
    if (got != expected) {
        wrong++;
        fprintf(stderr, "yb_run, a led file of base %d, step %zu, %s: %" PRId64 ", expected %" PRId64 "\n", base, step,
            what, got, expected);
    }
}

static int64_t number_at(const uint8_t *bytes, int width)
{
    uint64_t number = bytes[0] >= 0x80 ? UINT64_MAX : 0;
    for (int i = 0; i < width; i++)
        number = number << 8 | bytes[i];
    return (int64_t)number;
}

/* By hand: half of the base, idle, where 4,999 of 5,000 VA are left; all the other way at 5,000 W, which leave nothing;
** what was requested then, at the 981 W that are left to give; and all of it, idle again.
*/
static void test_led_run(void)
{
    static const int64_t vars[2][4] = {{2500, 0, -4902, 4999}, {2499, 0, 0, 4999}};
    static const int64_t stored[] = {600000, 182550, 100050, 100050}, lost[] = {720, 117450, 23640, 720};
    for (uint8_t base = 0; base < 2; base++) {
        uint8_t file[LED_LEN], room[4 * 40 + 7];
        put_led(file);
        file[BASE] = base;
        tell("number", 0, base, yb_run(lend(file, LED_LEN, base), LED_LEN, room, sizeof room), 0);
        for (size_t step = 0; step < 4; step++) {
            tell("vars", step, base, number_at(room + 40 * step + 20, 4), vars[base][step]);
            tell("stored", step, base, number_at(room + 40 * step + 24, 8), stored[step]);
            tell("loss", step, base, number_at(room + 40 * step + 32, 8), lost[step]);
        }
    }
}

const struct test voltage_tests[] = {
    {"yb_check: a complete file with a function and voltages", test_led_complete},
    {"yb_check: the same with a function cut at every byte", test_led_cut},
    {"yb_check: the same with a function with single bytes changed", test_led_changed},
    {"yb_check: functions, their curves and voltages in another order", test_led_order},
    {"yb_check: as many steps with a voltage as there can be", test_led_most_steps},
    {"yb_run: a function's vars, by either base", test_led_run},
    {NULL, NULL},
};
