/* The tests of yb_peaks: seasons worked out by hand, and others by what yb_run writes of them. */
#include <inttypes.h>
#include <stdio.h>
#include <stdlib.h>
#include <string.h>

#include "test_surface.h"
#include "test_surface_file.h"
#include "test_surface_roof.h"
#include "test_surface_voltage.h"
#include "yesbrulka.h"

enum { HEAD = 76, MODE = 64, TARGET = 65, READING = 27, LAST = 7, MOST_STEPS = 8, CONNECTION = 6 };
enum { MOST_LEN = HEAD + CONNECTION + MOST_STEPS * READING + LAST };

/* The figures of a season, in their order. */
struct figures {
    int64_t list[YB_FIGURES];
};

static void tell_wrong(const int64_t *list, const struct figures *due, size_t len, int32_t target)
{
    wrong++;
    for (int i = 0; i < YB_FIGURES; i++)
        if (list[i] != due->list[i])
            fprintf(stderr, "yb_peaks, a file of %zu bytes, target %" PRId32 ", figure %d: %" PRId64 ", expected %"
                PRId64 "\n", len, target, i, list[i], due->list[i]);
}

/* One call, made twice over different memory: the number, and the list, which is as it was if that is not 0. A list of
** none is lent by no address the second time.
*/
static void check_call(const uint8_t *file, size_t len, int32_t target, size_t figures_len, uint32_t number,
    const struct figures *due)
{
    static struct pages pages;
    for (int at_end = 0; at_end < 2; at_end++) {
        uint8_t fill = at_end ? 0x5A : 0xFF;
        void *lent = open_bytes(&pages, figures_len * sizeof (int64_t), fill, at_end);
        int64_t *list = at_end && figures_len == 0 ? NULL : lent;
        uint32_t got = yb_peaks(lend(file, len, at_end), len, target, list, figures_len);
        if (got != number || spilled(&pages, number == 0 ? sizeof *due : 0, fill)) {
            wrong++;
            fprintf(stderr, "yb_peaks, a file of %zu bytes, target %" PRId32 ", a list of %zu: number %" PRIu32
                ", expected %" PRIu32 "; or more was written\n", len, target, figures_len, got, number);
        } else if (number == 0 && memcmp(list, due, sizeof *due) != 0) {
            tell_wrong(list, due, len, target);
        }
    }
}

static void check_figures(const uint8_t *file, size_t len, int32_t target, const struct figures *due)
{
    check_call(file, len, target, YB_FIGURES, 0, due);
}

static void check_refused(const uint8_t *file, size_t len, int32_t target, size_t figures_len, uint32_t number)
{
    check_call(file, len, target, figures_len, number, NULL);
}

/* Thousandths as a double. */
static uint8_t *put_thousandths(uint8_t *at, int32_t number)
{
    double thousands = number / 1000.0;
    uint64_t bits;
    memcpy(&bits, &thousands, sizeof bits);
    return put(at, bits, 8);
}

/* A reading of so many W or mA on the first phase, or with NONE a missing one. */
enum { NONE = INT32_MIN };
static uint8_t *put_reading(uint8_t *at, uint8_t mode, int32_t number)
{
    if (number == NONE)
        return put(at, 0x050000, 3);
    at = put_thousandths(put(at, mode >= 4 ? 0x090018 : 0x040018, 3), number);
    return put(put(at, 0, 8), 0, 8);
}

/* A season of the complete file's unit in a mode, with a target of 700 W or mA and a band of 20; by current it is
** connected to one phase of 230 V. Gives the length.
*/
static size_t put_season(uint8_t *file, uint8_t mode, const int32_t *readings, uint32_t steps)
{
    uint8_t *at = file + HEAD;
    memcpy(file, complete, HEAD);
    file[MODE] = mode;
    if (mode >= 4)
        at = put(put(put(at, 0x0A0003, 3), 1, 1), 230, 2);
    for (uint32_t step = 0; step < steps; step++)
        at = put_reading(at, mode, readings[step]);
    at = put(put(at, 0x7F0004, 3), steps, 4);
    return (size_t)(at - file);
}

/* A morning in mode 1, from 600,000 J of which 100,000 are reserved. w watts take (ceil(w x 10 / 9) + 10) x 75 J out of
** the store, for 60 s; an idle unit draws 12 W, 720 J.
**
**     measure   need   request   given   removed    store    lost     net
**        1600    900       900     900     75750   524250   21750     700
**     missing              900     900     75750   448500   21750
**         705      5       900     900     75750   372750   21750    -195    5 is no more than half the band
**         711     11       911     911     76725   296025   22065    -200
**        4700   4000      4911    2342    195975   100050   55455    2358    196,025 J are not reserved
**         300   -400      4511     -12         0   100050     720     312    no watt can be had for 50 J
**
** Outside are the measures of steps 0, 3 and 4, and with the fleet that of step 4. Steps 4 and 5 are not met.
*/
enum { MORNING_LEN = HEAD + 5 * READING + 3 + LAST };
static const struct figures morning_due = {{6, 1, 300, 5, 4700, 4, 3, -200, 3, 2358, 4, 1, 100050, 4, 0, 143490, 2}};

static void put_morning(uint8_t *file)
{
    static const int32_t morning[] = {1600, NONE, 705, 711, 4700, 300};
    wrong += put_season(file, 1, morning, 6) != MORNING_LEN;
}

/* From edition 2 on as well: there are no vars to be limited. */
static void test_morning(void)
{
    uint8_t file[MOST_LEN], limited[MOST_LEN + MORE];
    put_morning(file);
    check_figures(file, MORNING_LEN, 700, &morning_due);
    size_t len = put_limited(limited, 2, file, MORNING_LEN, 0, 5000);
    check_figures(limited, len, 700, &morning_due);
}

/* At 5,000 W nothing is asked, and the unit idles in every step. At 4,600 W only step 4 calls, for 100 W, which take
** 122 x 75 = 9,150 J; of these 6,000 are given. The figures are those of the file with this target in it.
*/
static void test_targets(void)
{
    static const struct {
        int32_t target;
        struct figures due;
    } asked[] = {
        {5000, {{6, 1, 300, 5, 4700, 4, 0, 312, 5, 4712, 4, 0, 600000, 0, 0, 4320, 0}}},
        {4600, {{6, 1, 300, 5, 4700, 4, 1, 312, 5, 4600, 4, 0, 590850, 4, 0, 6750, 0}}},
        {100000000, {{6, 1, 300, 5, 4700, 4, 0, 312, 5, 4712, 4, 0, 600000, 0, 0, 4320, 0}}},
    };
    uint8_t file[MOST_LEN];
    for (size_t i = 0; i < sizeof asked / sizeof asked[0]; i++) {
        put_morning(file);
        check_figures(file, MORNING_LEN, asked[i].target, &asked[i].due);
        put(file + TARGET, (uint32_t)asked[i].target, 4);
        check_figures(file, MORNING_LEN, asked[i].target, &asked[i].due);
        check_figures(file, MORNING_LEN, 700, &morning_due);
    }
}

/* Mode 3: the needs are 200, -1,000 and twice -4,200, the requests 0, -1,000 and twice -5,000. w watts add (floor(w x
** 0.9) - 10) x 48 J: 1,000 W add 42,720, 5,000 W 215,520. Then there is room for 141,760 J, and 3,293 W add 141,744.
**
** Mode 2: measure and target together are 0, 20 and 11, the requests 0, 20 and 31, which take 2,475 and 3,375 J. With
** the draw of 12 W step 0 is outside: twice 12 is more than 20.
*/
static void test_modes(void)
{
    static const int32_t valley[] = {900, -300, -3500, -3500}, support[] = {-700, -680, -689};
    static const struct figures valley_due =
        {{4, 0, -3500, 2, 900, 0, 3, -207, 3, 1500, 2, 1, 600000, 0, 0, 720 + 17280 + 84480 + 55836, 1}};
    static const struct figures support_due =
        {{3, 0, -700, 0, -680, 1, 2, -720, 2, -688, 0, 1, 594150, 2, 0, 720 + 1275 + 1515, 0}};
    uint8_t file[MOST_LEN];
    size_t len = put_season(file, YB_PEAK_SHAVE_LOW, valley, 4);
    check_figures(file, len, 700, &valley_due);
    len = put_season(file, YB_SUPPORT, support, 3);
    check_figures(file, len, 700, &support_due);
}

/* 4,000 mA above the target are 920 W, and 400 mA below it take 92 W from them: 77,475 J twice, and 69,750 J. In mode 5
** the need of step 2 is taken: 92 W add 72 x 48 J. By current nothing is net.
*/
static void test_current(void)
{
    static const int32_t readings[] = {4700, NONE, 300};
    static const struct figures above = {{3, 1, 300, 2, 4700, 0, 1, 0, 0, 0, 0, 0, 375300, 2, 0, 64620, 0}};
    static const struct figures below =
        {{3, 1, 300, 2, 4700, 0, 1, 0, 0, 0, 0, 0, 600000, 0, 0, 2 * 720 + 5520 - 3456, 0}};
    uint8_t file[MOST_LEN];
    size_t len = put_season(file, YB_I_PEAK_SHAVE, readings, 3);
    check_figures(file, len, 700, &above);
    len = put_season(file, YB_I_PEAK_SHAVE_LOW, readings, 3);
    check_figures(file, len, 700, &below);
}

/* In edition 3 the idle loss of 10 W is drawn at the grid, and 890 of 900 W are left there. The request is met all the
** same: the inverter gives 900.
*/
static void test_older(void)
{
    static const int32_t one[] = {1600};
    static const struct figures due = {{1, 0, 1600, 0, 1600, 0, 1, 710, 0, 710, 0, 0, 525000, 0, 0, 21600, 0}};
    uint8_t file[MOST_LEN], older[MOST_LEN + MORE];
    size_t len = put_limited(older, 3, file, put_season(file, 1, one, 1), 5000, 5000);
    check_figures(older, len, 700, &due);
}

/* Without steps, without readings, and where all are alike. */
static void test_alike(void)
{
    static const int32_t none[] = {NONE, NONE, NONE}, alike[] = {NONE, 500, 500, 500};
    static const struct figures no_steps = {{0}};
    static const struct figures no_readings = {{3, 3, 0, 0, 0, 0, 0, 0, 0, 0, 0, 0, 600000, 0, 0, 3 * 720, 0}};
    static const struct figures the_same =
        {{4, 1, 500, 1, 500, 1, 0, 512, 1, 512, 1, 0, 600000, 0, 0, 4 * 720, 0}};
    uint8_t file[MOST_LEN];
    for (int32_t target = -700; target <= 700; target += 1400) {
        check_figures(file, put_season(file, 1, none, 0), target, &no_steps);
        check_figures(file, put_season(file, 1, none, 3), target, &no_readings);
    }
    check_figures(file, put_season(file, 1, alike, 4), 700, &the_same);
}

/* 1,000, 2,000 and 3,000 W in any order, by every phase choice; the unit draws 12 W. */
static void test_phases(void)
{
    enum { PHASE = 75, FIRST = HEAD + 3 };
    static const int32_t orders[][3] = {{1000, 2000, 3000}, {1000, 3000, 2000}, {2000, 1000, 3000},
        {2000, 3000, 1000}, {3000, 1000, 2000}, {3000, 2000, 1000}};
    uint8_t file[MOST_LEN];
    for (size_t i = 0; i < sizeof orders / sizeof orders[0]; i++)
        for (uint8_t phase = 0; phase <= 5; phase++) {
            const int32_t *of = orders[i], due_of[] = {6000, of[0], of[1], of[2], 3000, 1000};
            int64_t due = due_of[phase];
            size_t len = put_season(file, 1, of, 1);
            file[PHASE] = phase;
            put_thousandths(put_thousandths(put_thousandths(file + FIRST, of[0]), of[1]), of[2]);
            check_figures(file, len, 6000,
                &(struct figures){{1, 0, due, 0, due, 0, 0, due + 12, 0, due + 12, 0, phase == 0, 600000, 0, 0, 720,
                    0}});
        }
}

/* The list's length comes before the target, and the file before both. */
static void test_refused(void)
{
    static const int32_t beyond[] = {INT32_MIN, -100000001, 100000001, INT32_MAX};
    uint8_t file[MOST_LEN];
    put_morning(file);
    for (size_t len = 0; len <= 40; len++)
        if (len != YB_FIGURES) {
            check_refused(file, MORNING_LEN, 700, len, 10);
            check_refused(file, MORNING_LEN, INT32_MIN, len, 10);
            check_refused(file, MORNING_LEN - 1, 700, len, 1);
        }
    for (size_t i = 0; i < sizeof beyond / sizeof beyond[0]; i++) {
        check_refused(file, MORNING_LEN, beyond[i], YB_FIGURES, 5);
        check_refused(file, MORNING_LEN - LAST, beyond[i], YB_FIGURES, 8);
    }
    wrong += yb_peaks(NULL, 0, 0, NULL, 0) != 8;
}

static double double_at(const uint8_t *at)
{
    uint64_t bits = 0;
    double number;
    for (int i = 0; i < 8; i++)
        bits = bits << 8 | at[i];
    memcpy(&number, &bits, sizeof number);
    return number;
}

static uint64_t number_at(const uint8_t *at, int width)
{
    uint64_t number = 0;
    for (int i = 0; i < width; i++)
        number = number << 8 | at[i];
    return number;
}

/* The measure of a reading, by its value. */
static int64_t measure_at(const uint8_t *value, uint8_t phase)
{
    int32_t of[3];
    for (int i = 0; i < 3; i++)
        wrong += yb_watts(double_at(value + 8 * i), &of[i]) != 0;
    int32_t most = of[0] > of[1] ? of[0] : of[1], least = of[0] < of[1] ? of[0] : of[1];
    if (phase == YB_PHASE_SUM)
        return (int64_t)of[0] + of[1] + of[2];
    if (phase == YB_PHASE_LARGEST)
        return most > of[2] ? most : of[2];
    return phase == YB_PHASE_SMALLEST ? (least < of[2] ? least : of[2]) : of[phase - 1];
}

/* What the figures go by. */
struct basis {
    uint8_t mode, phase;
    int64_t target;
    uint32_t band, units, inverters;
    uint32_t grid_loss[MOST_UNITS];
};

/* Takes a step's number into five figures: the smallest, its step, the largest, its step, and those outside. */
static void note_five(int64_t *five, const struct basis *of, int is_first, int64_t step, int64_t number)
{
    int64_t need = of->mode == YB_SUPPORT ? number + of->target : number - of->target;
    if (of->mode == YB_PEAK_SHAVE_LOW || of->mode == YB_I_PEAK_SHAVE_LOW)
        need = -need;
    if (is_first || number < five[0]) {
        five[0] = number;
        five[1] = step;
    }
    if (is_first || number > five[2]) {
        five[2] = number;
        five[3] = step;
    }
    five[4] += need > 0 && 2 * need > (int64_t)of->band;
}

/* Takes the records of a step into the figures. Gives what the units give together, in W. */
static int64_t note_records(struct figures *due, const struct basis *of, int64_t step, const uint8_t *record)
{
    int64_t power = 0, store = 0, loss = due->list[YB_FIGURE_LOSS_MJ] * 1000000 + due->list[YB_FIGURE_LOSS_J];
    int is_met = 1;
    for (uint32_t i = 0; i < of->units; i++, record += 40) {
        double watts = 1000 * double_at(record + 12);
        int64_t given = (int64_t)(watts < 0 ? watts - 0.5 : watts + 0.5);
        int64_t request = (int32_t)(uint32_t)number_at(record + 8, 4);
        power += given;
        store += (int64_t)number_at(record + 24, 8);
        loss += (int64_t)number_at(record + 32, 8);
        is_met = is_met && (request == 0 || request == given + of->grid_loss[i]);
    }
    if (step == 0 || store < due->list[YB_FIGURE_STORE]) {
        due->list[YB_FIGURE_STORE] = store;
        due->list[YB_FIGURE_STORE_STEP] = step;
    }
    due->list[YB_FIGURE_LOSS_MJ] = loss / 1000000;
    due->list[YB_FIGURE_LOSS_J] = loss % 1000000;
    due->list[YB_FIGURE_NOT_MET] += !is_met;
    return power;
}

/* The figures of a complete file by the result of its run, from the place of its settings on. */
static void figures_of(struct figures *due, const struct basis *of, const uint8_t *field, const uint8_t *result)
{
    int64_t *list = due->list;
    memset(due, 0, sizeof *due);
    for (; field[0] != 0x7F; field += 3 + number_at(field + 1, 2)) {
        if (field[0] != 0x04 && field[0] != 0x05 && field[0] != 0x09)
            continue;
        int64_t step = list[YB_FIGURE_STEPS]++, power = note_records(due, of, step, result);
        int is_first = step == list[YB_FIGURE_MISSING];
        result += 40 * of->units + 29 * of->inverters;
        if (field[0] == 0x05) {
            list[YB_FIGURE_MISSING]++;
            continue;
        }
        int64_t measure = measure_at(field + 3, of->phase);
        note_five(list + YB_FIGURE_LEAST, of, is_first, step, measure);
        if (of->mode < YB_I_PEAK_SHAVE)
            note_five(list + YB_FIGURE_NET_LEAST, of, is_first, step, measure - power);
    }
}

/* Asks a complete file what the figures go by. Gives the place of its settings. */
static size_t ask_file(const uint8_t *file, size_t len, struct basis *of)
{
    uint64_t joules[3];
    uint32_t powers[2], idle_loss;
    int32_t target, vars;
    uint16_t factor, parts[4];
    uint8_t priority;
    wrong += yb_settings(file, len, &of->mode, &target, &of->band, &factor, &of->phase) != 0;
    of->units = yb_units(file, len);
    of->inverters = yb_inverters(file, len);
    for (uint32_t i = 0; i < of->units; i++) {
        wrong += yb_unit(file, len, i, &joules[0], &joules[1], &joules[2], &powers[0], &powers[1], &idle_loss, &vars,
            &parts[0], &parts[1], &parts[2], &parts[3], &priority) != 0;
        of->grid_loss[i] = file[3] == 3 ? idle_loss : 0;
    }
    return 9 + (file[3] == 1 ? 52 : 60) * (size_t)of->units;
}

/* The figures by the run of the file with the target in it; there is room for four steps of the largest site. */
static void check_by_run(const uint8_t *file, size_t len, int32_t target)
{
    static uint8_t other[MOST_FILE], result[4 * (40 * MOST_UNITS + 29 * MOST_INVERTERS) + LAST];
    struct basis of;
    struct figures due;
    size_t settings = ask_file(file, len, &of);
    of.target = target;
    memcpy(other, file, len);
    put(other + settings + 4, (uint32_t)target, 4);
    wrong += yb_run(other, len, result, sizeof result) != 0;
    figures_of(&due, &of, other + settings, result);
    check_figures(file, len, target, &due);
    check_figures(other, len, target, &due);
}

/* Of both ends, none, and of some that are near the readings of the files here. */
static void check_targets(const uint8_t *file, size_t len)
{
    static const int32_t targets[] = {-100000000, -1000, 0, 1, 700, 1500, 50000000, 99999900, 100000000};
    for (size_t i = 0; i < sizeof targets / sizeof targets[0]; i++)
        check_by_run(file, len, targets[i]);
}

/* A plain file, the morning, and files with all that one can have, in every mode by watts. */
static void test_files(void)
{
    uint8_t roof[ROOF_LEN], led[LED_LEN], file[MOST_LEN], plain[MOST_LEN];
    for (uint8_t mode = 1; mode <= 3; mode++) {
        memcpy(plain, complete, sizeof complete);
        put_morning(file);
        put_roof(roof);
        put_led(led);
        plain[MODE] = file[MODE] = roof[MODE] = led[MODE] = mode;
        check_targets(plain, sizeof complete);
        check_targets(file, MORNING_LEN);
        check_targets(roof, sizeof roof);
        check_targets(led, sizeof led);
    }
}

/* Fleets and roofs of any size, in every mode and edition, led or not. */
static void test_fleets(void)
{
    static struct file file;
    for (size_t units = 1; units <= MOST_UNITS; units += units < 4 ? 1 : 6)
        for (uint8_t mode = 1; mode <= 5; mode++)
            for (uint8_t edition = 1; edition <= 3; edition++) {
                draw_file(&file, units);
                file.inverters = draw(2) * units;
                file.is_led = (int)draw(2);
                connect_file(&file, mode);
                set_edition(&file, edition);
                check_by_run(file.bytes, file.len, file.settings.target);
                check_by_run(file.bytes, file.len, (int32_t)draw(200000001) - 100000000);
            }
}

/* Every cut of a file, and every byte with another value: the check's number, or the figures of what it says then. */
static void test_bytes(void)
{
    uint8_t file[MOST_LEN];
    unsigned accepted = 0;
    for (size_t len = 0; len < sizeof complete; len++)
        check_refused(complete, len, 700, YB_FIGURES, yb_check(complete, len));
    for (size_t at = 0; at < sizeof complete; at++)
        for (uint8_t bit = 1; bit != 0; bit = (uint8_t)(bit << 1)) {
            memcpy(file, complete, sizeof complete);
            file[at] ^= bit;
            uint32_t number = yb_check(file, sizeof complete);
            accepted += number == 0;
            if (number == 0)
                check_by_run(file, sizeof complete, 700);
            else
                check_refused(file, sizeof complete, 700, YB_FIGURES, number);
        }
    wrong += accepted < 300;
}

static void test_size(void)
{
    uint8_t *file = calloc(1, YB_MOST_FILE_BYTES + 1);
    if (file == NULL)
        give_up("no memory for a large file");
    put_morning(file);
    check_refused(file, YB_MOST_FILE_BYTES + 1, 700, YB_FIGURES, 12);
    check_refused(file, YB_MOST_FILE_BYTES, 700, YB_FIGURES, 9);
    free(file);
}

/* As many steps as there can be: a peak in the last one but one, and 720 J lost in all but two. */
static void test_most_steps(void)
{
    enum { STEPS_LEN = 3 * (YB_MOST_STEPS - 2) + 2 * READING, FILE_LEN = HEAD + STEPS_LEN + LAST };
    /* 720 x 65,533 J, and the 21,750 J of 900 W twice. */
    static const struct figures due = {{YB_MOST_STEPS, YB_MOST_STEPS - 2, 700, YB_MOST_STEPS - 1, 1600,
        YB_MOST_STEPS - 2, 1, -200, YB_MOST_STEPS - 1, 700, YB_MOST_STEPS - 2, 0, 448500, YB_MOST_STEPS - 1, 47, 227260,
        0}};
    uint8_t *file = malloc(FILE_LEN), *at = file + HEAD;
    if (file == NULL)
        give_up("no memory for a large file");
    memcpy(file, complete, HEAD);
    for (uint32_t step = 0; step < YB_MOST_STEPS - 2; step++)
        at = put_reading(at, 1, NONE);
    at = put_reading(put_reading(at, 1, 1600), 1, 700);
    put(put(at, 0x7F0004, 3), YB_MOST_STEPS, 4);
    check_figures(file, FILE_LEN, 700, &due);
    free(file);
}

/* 64 units that draw 99,999,990 W each, for 86,399 s in as many steps as there can be: 36,237,810,552,218,582,400 J. */
static void test_most_loss(void)
{
    enum { FLEET = 9 + 52 * MOST_UNITS + 15, FILE_LEN = FLEET + 3 * YB_MOST_STEPS + LAST };
    static const struct unit unit = {1000, 0, 1000, 1, 100000000, 9999999, 0, 1, 1000, 1000, 1000, 0};
    static const struct figures due = {{YB_MOST_STEPS, YB_MOST_STEPS, 0, 0, 0, 0, 0, 0, 0, 0, 0, 0, 64000, 0,
        INT64_C(36237810552218), 582400, 0}};
    static struct file fleet = {.edition = 1, .units = MOST_UNITS, .seconds = 86399, .settings = {1, 0, 0, 1000, 0}};
    uint8_t *file = malloc(FILE_LEN), *at = file + FLEET;
    if (file == NULL)
        give_up("no memory for a large file");
    for (size_t i = 0; i < MOST_UNITS; i++)
        fleet.unit[i] = unit;
    write_file(&fleet);
    memcpy(file, fleet.bytes, FLEET);
    for (uint32_t step = 0; step < YB_MOST_STEPS; step++)
        at = put_reading(at, 1, NONE);
    put(put(at, 0x7F0004, 3), YB_MOST_STEPS, 4);
    check_figures(file, FILE_LEN, 0, &due);
    free(file);
}

const struct test peaks_tests[] = {
    {"yb_peaks: a morning by hand", test_morning},
    {"yb_peaks: other targets than the file's", test_targets},
    {"yb_peaks: modes 2 and 3 by hand", test_modes},
    {"yb_peaks: by current", test_current},
    {"yb_peaks: a request is met by the inverter", test_older},
    {"yb_peaks: no steps, no readings, and steps that are alike", test_alike},
    {"yb_peaks: phase choices", test_phases},
    {"yb_peaks: lengths and targets that are refused, in their order", test_refused},
    {"yb_peaks: with inverters, weather and voltages", test_files},
    {"yb_peaks: fleets and roofs of any size", test_fleets},
    {"yb_peaks: every cut, and every bit changed", test_bytes},
    {"yb_peaks: the size of the file", test_size},
    {"yb_peaks: as many steps as there can be", test_most_steps},
    {"yb_peaks: a loss that 64 bits do not hold", test_most_loss},
    {NULL, NULL},
};
