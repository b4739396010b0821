/* The tests of yb_check over files with inverters and weather. */
#include <stdlib.h>
#include <string.h>

#include "test_surface.h"
#include "test_surface_file.h"
#include "test_surface_roof.h"
#include "yesbrulka.h"

/* The fields by their places, and the file's end. */
static const size_t fields[] = {0, 9, 61, 76, 98, 230, 362, 381, 384, 403, 430, 449, 452, 455, 462};
enum { FIELDS = 14 };

/* The curves are level: both of them may stand for either. The inverter is on above 80 W and off below 40 W. */
void put_roof(uint8_t *file)
{
    /* array 10,000 W, S 8,000 VA, cut-in, cut-out, limit, var request -3,000, priority */
    static const uint8_t inverter[] = {0x06, 0, 19, 0, 0, 0x27, 0x10, 0, 0, 0x1F, 0x40, 0, 100, 0, 50, 0x13, 0x88, 0xFF,
        0xFF, 0xF4, 0x48, 0};
    /* two points: 0 and 1,000, with 10,000 and 9,500 */
    static const uint8_t warm[] = {0x07, 0, 129, 2, 0, 0, 0, 0, 0, 0, 0x27, 0x10, 0, 0, 0x03, 0xE8, 0, 0, 0x27, 0x10};
    static const uint8_t eff[] = {0x07, 0, 129, 2, 0, 0, 0, 0, 0, 0, 0x25, 0x1C, 0, 0, 0x03, 0xE8, 0, 0, 0x25, 0x1C};
    /* 0.006 and 1 kW/m2, and 25 degrees C */
    static const uint8_t dim[] = {0x08, 0, 16, 0x3F, 0x78, 0x93, 0x74, 0xBC, 0x6A, 0x7E, 0xFA, 0x40, 0x39, 0, 0, 0, 0,
        0, 0};
    static const uint8_t clear[] = {0x08, 0, 16, 0x3F, 0xF0, 0, 0, 0, 0, 0, 0, 0x40, 0x39, 0, 0, 0, 0, 0, 0};
    memset(file, 0, ROOF_LEN);
    memcpy(file, complete, 76);
    memcpy(file + 76, inverter, sizeof inverter);
    memcpy(file + 98, warm, sizeof warm);
    memcpy(file + 230, eff, sizeof eff);
    memcpy(file + 362, dim, sizeof dim);
    file[381] = 0x05;
    memcpy(file + 384, clear, sizeof clear);
    memcpy(file + 403, complete + 76, 27);
    memcpy(file + 430, dim, sizeof dim);
    file[449] = file[452] = 0x05;
    memcpy(file + 455, "\x7F\0\4\0\0\0\4", 7);
}

static void test_roof_complete(void)
{
    uint8_t file[ROOF_LEN];
    put_roof(file);
    check_file(file, ROOF_LEN, 0, ROOF_LEN, 4);
}

/* The steps before a field. */
static uint32_t steps_before(const uint8_t *file, int field)
{
    uint32_t steps = 0;
    for (int i = 0; i < field; i++)
        steps += file[fields[i]] == 0x04 || file[fields[i]] == 0x05;
    return steps;
}

static void test_roof_cut(void)
{
    uint8_t file[ROOF_LEN];
    put_roof(file);
    for (int field = 0; field < FIELDS; field++) {
        check_file(file, fields[field], 8, fields[field], steps_before(file, field));
        for (size_t len = fields[field] + 1; len < fields[field + 1]; len++)
            check_file(file, len, 1, fields[field], steps_before(file, field));
    }
}

/* The file with one byte changed. */
static void test_roof_changed(void)
{
    static const struct change changes[] = {
        /* the inverter: tag and length, array, S, cut-in, cut-out, limit, var request, priority */
        {76, 0x0D, 2, 76, 0}, {76, 0x07, 3, 76, 0}, {76, 0x02, 3, 76, 0}, {77, 1, 3, 76, 0}, {78, 18, 3, 76, 0},
        {78, 20, 3, 76, 0}, {79, 6, 5, 76, 0}, {79, 0x80, 5, 76, 0}, {79, 5, 0, 462, 4}, {83, 6, 5, 76, 0},
        {83, 0xFF, 5, 76, 0}, {87, 0x28, 5, 76, 0}, {87, 0x26, 0, 462, 4}, {88, 49, 5, 76, 0}, {88, 50, 0, 462, 4},
        {90, 101, 5, 76, 0}, {90, 100, 0, 462, 4}, {90, 0, 0, 462, 4}, {91, 0x28, 5, 76, 0}, {91, 0xFF, 5, 76, 0},
        {91, 0, 0, 462, 4}, {93, 0x7F, 5, 76, 0}, {93, 0x80, 5, 76, 0}, {93, 0xF9, 5, 76, 0}, {93, 0xFA, 0, 462, 4},
        {97, 1, 0, 462, 4}, {97, 2, 5, 76, 0}, {97, 255, 5, 76, 0},
        /* the temperature curve: points, x, y, and what is past the points */
        {98, 0x06, 3, 98, 0}, {98, 0x0D, 2, 98, 0}, {99, 1, 3, 98, 0}, {100, 128, 3, 98, 0}, {101, 0, 5, 98, 0},
        {101, 1, 5, 98, 0}, {101, 3, 5, 98, 0}, {101, 16, 5, 98, 0}, {101, 17, 5, 98, 0}, {101, 255, 5, 98, 0},
        {102, 0xFF, 0, 462, 4}, {102, 0xF0, 5, 98, 0}, {104, 3, 0, 462, 4}, {104, 4, 5, 98, 0}, {106, 0x80, 5, 98, 0},
        {108, 0x4E, 0, 462, 4}, {108, 0x4F, 5, 98, 0}, {110, 0x80, 5, 98, 0}, {110, 5, 0, 462, 4}, {110, 6, 5, 98, 0},
        {112, 0, 0, 462, 4}, {118, 1, 5, 98, 0}, {121, 1, 5, 98, 0}, {229, 1, 5, 98, 0},
        /* the efficiency curve: the same in its own ranges */
        {230, 0x08, 3, 230, 0}, {231, 1, 3, 230, 0}, {233, 1, 5, 230, 0}, {233, 3, 5, 230, 0}, {234, 0xFF, 5, 230, 0},
        {236, 4, 5, 230, 0}, {240, 0x27, 5, 230, 0}, {240, 0x26, 0, 462, 4}, {238, 0x80, 5, 230, 0},
        {242, 5, 0, 462, 4}, {242, 6, 5, 230, 0}, {246, 1, 5, 230, 0}, {361, 1, 5, 230, 0},
        /* the weather: irradiance and temperature */
        {362, 0x0D, 2, 362, 0}, {362, 0x04, 3, 362, 0}, {364, 15, 3, 362, 0}, {365, 0xBF, 6, 362, 0},
        {365, 0x7F, 6, 362, 0}, {365, 0x41, 6, 362, 0}, {373, 0x7F, 6, 362, 0}, {373, 0xFF, 6, 362, 0},
        {373, 0xC0, 0, 462, 4}, {387, 0x7F, 6, 384, 1}, {387, 0xBF, 6, 384, 1}, {395, 0x41, 6, 384, 1},
        {433, 0xBF, 6, 430, 2}, {434, 0x38, 0, 462, 4},
        /* the readings and the end */
        {403, 0x05, 3, 403, 1}, {406, 0x7F, 6, 403, 1}, {449, 0x04, 3, 449, 2}, {452, 0x08, 3, 452, 3},
        {461, 3, 7, 455, 4}, {461, 5, 7, 455, 4},
    };
    uint8_t file[ROOF_LEN];
    put_roof(file);
    check_changes(file, ROOF_LEN, changes, sizeof changes / sizeof changes[0]);
    /* A double of the least size below 0 is 0. */
    memcpy(file + 365, "\x80\0\0\0\0\0\0\1", 8);
    check_file(file, ROOF_LEN, 0, ROOF_LEN, 4);
}

/* Fields of the file in another order: fleet, unit, settings, Inverter, temperature Curve and efficiency Curve,
** Weather, Missing, Power, and the End, which counts the steps before it. The place is that of the last field of the
** order, or the length of a complete one.
*/
static void test_roof_order(void)
{
    static const char letters[] = "fusItTWM.P...E";
    static const struct {
        const char *order;
        uint32_t number;
    } orders[] = {
        /* complete ones: with and without inverters, steps and weather */
        {"fusE", 0}, {"fusItTE", 0}, {"fusItTItTE", 0}, {"fusItTMPE", 0}, {"fusWMWPME", 0}, {"fusItTWMMWPE", 0},
        /* too early */
        {"I", 4}, {"t", 4}, {"W", 4}, {"fI", 4}, {"ft", 4}, {"fW", 4}, {"fuI", 4}, {"fut", 4}, {"fuW", 4},
        /* a curve without an inverter, one that is missing, and one too many */
        {"fust", 4}, {"fusII", 4}, {"fusIW", 4}, {"fusIM", 4}, {"fusIP", 4}, {"fusIE", 4}, {"fusIs", 4},
        {"fusItI", 4}, {"fusItW", 4}, {"fusItM", 4}, {"fusItP", 4}, {"fusItE", 4}, {"fusItTt", 4}, {"fusItTT", 4},
        {"fusItTs", 4}, {"fusItTu", 4}, {"fusItTf", 4},
        /* an inverter or a curve after the steps began */
        {"fusItTMI", 4}, {"fusItTMt", 4}, {"fusItTPI", 4}, {"fusMI", 4}, {"fusPt", 4}, {"fusWI", 4}, {"fusWt", 4},
        /* a weather that waits for its reading */
        {"fusWW", 4}, {"fusWE", 4}, {"fusItTWE", 4}, {"fusItTWW", 4}, {"fusItTMWE", 4}, {"fusWs", 4}, {"fusWMWI", 4},
    };
    uint8_t roof[ROOF_LEN], file[2 * ROOF_LEN];
    put_roof(roof);
    for (size_t i = 0; i < sizeof orders / sizeof orders[0]; i++) {
        size_t len = 0, last = 0;
        uint32_t steps = 0, before = 0;
        for (const char *c = orders[i].order; *c != '\0'; c++) {
            int field = (int)(strchr(letters, *c) - letters);
            size_t bytes = fields[field + 1] - fields[field];
            last = len;
            before = steps;
            memcpy(file + len, roof + fields[field], bytes);
            len += bytes;
            steps += *c == 'M' || *c == 'P';
            if (*c == 'E')
                file[len - 1] = (uint8_t)steps;
        }
        check_file(file, len, orders[i].number, orders[i].number == 0 ? len : last, before);
    }
}

/* As many inverters as there can be, and one more. */
static void test_most_inverters(void)
{
    enum { HEAD = 76, INVERTER = 286 };
    uint8_t roof[ROOF_LEN], *file = calloc(1, HEAD + 65 * INVERTER + ROOF_LEN);
    if (file == NULL)
        give_up("no memory for a large file");
    put_roof(roof);
    memcpy(file, roof, HEAD);
    for (size_t i = 0; i < 65; i++)
        memcpy(file + HEAD + INVERTER * i, roof + HEAD, INVERTER);
    check_file(file, HEAD + 64 * INVERTER, 8, HEAD + 64 * INVERTER, 0);
    check_file(file, HEAD + 65 * INVERTER, 4, HEAD + 64 * INVERTER, 0);
    check_file(file, HEAD + 64 * INVERTER + 21, 1, HEAD + 64 * INVERTER, 0);
    memcpy(file + HEAD + 64 * INVERTER, roof + 362, ROOF_LEN - 362);
    check_file(file, HEAD + 64 * INVERTER + ROOF_LEN - 362, 0, HEAD + 64 * INVERTER + ROOF_LEN - 362, 4);
    free(file);
}

/* As many steps as there can be, each with weather. The reading that would close one more is refused, and not its
** weather.
*/
static void test_most_steps(void)
{
    enum { HEAD = 362, STEP = 22, LAST = HEAD + STEP * 65535 };
    uint8_t roof[ROOF_LEN], *file = calloc(1, LAST + 2 * STEP);
    if (file == NULL)
        give_up("no memory for a large file");
    put_roof(roof);
    memcpy(file, roof, HEAD);
    for (int step = 0; step < 65536; step++)
        memcpy(file + HEAD + STEP * step, roof + 362, STEP);
    check_file(file, LAST, 8, LAST, 65535);
    check_file(file, LAST + 19, 8, LAST + 19, 65535);
    check_file(file, LAST + STEP, 12, LAST + 19, 65535);
    memcpy(file + LAST + 19, "\x7F\0\4\0\0\xFF\xFF", 7);
    check_file(file, LAST + 26, 4, LAST + 19, 65535);
    memcpy(file + LAST, "\x7F\0\4\0\0\xFF\xFF", 7);
    check_file(file, LAST + 7, 0, LAST + 7, 65535);
    check_file(file, LAST + 8, 9, LAST + 7, 65535);
    free(file);
}

const struct test roof_tests[] = {
    {"yb_check: a complete file with an inverter and weather", test_roof_complete},
    {"yb_check: the same cut at every byte", test_roof_cut},
    {"yb_check: the same with single bytes changed", test_roof_changed},
    {"yb_check: inverters, curves and weather in another order", test_roof_order},
    {"yb_check: as many inverters as there can be", test_most_inverters},
    {"yb_check: as many steps with weather as there can be", test_most_steps},
    {NULL, NULL},
};
