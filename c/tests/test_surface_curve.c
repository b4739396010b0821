/* The tests of the curves that are lent to yb_solar. */
#include <math.h>
#include <string.h>

#include "test_surface.h"
#include "test_surface_solar.h"

/* A curve through points, an x and a y each. */
static void put_curve(struct solar *s, int x_list, size_t points, const int32_t (*point)[2])
{
    for (size_t i = 0; i < points; i++) {
        s->list[x_list][i] = point[i][0];
        s->list[x_list + 1][i] = point[i][1];
    }
    s->length[x_list] = s->length[x_list + 1] = points;
}

/* The temperature's curve at its points, midway, beside them, and beyond its ends; a part of a step is cut, not
** floored, where the curve falls.
*/
static void test_warm_curve(void)
{
    static const int32_t points[][2] = {{-20000, 11800}, {25000, 10000}, {85000, 7600}};
    static const struct {
        double temperature;
        int32_t dc;
    } due[] = {{-20, 11800}, {-20.001, 11800}, {-100000, 11800}, {-19.999, 11800}, {2.5, 10900}, {24.999, 10001},
        {25, 10000}, {25.001, 10000}, {55, 8800}, {84.999, 7601}, {85, 7600}, {85.001, 7600}, {100000, 7600},
        {-0.0, 11000}, {0, 11000}};
    struct solar s = plain_solar;
    put_curve(&s, WARM_X, 3, points);
    s.kva = 100000;
    for (size_t i = 0; i < sizeof due / sizeof due[0]; i++) {
        s.temperature = due[i].temperature;
        check_solar(&s, 1, due[i].dc <= 10000 ? due[i].dc : 10000, 0, (uint64_t)due[i].dc);
    }
}

/* The efficiency's curve, over the DC power in thousandths of the kVA, which are cut; and the watts, which are too. */
static void test_eff_curve(void)
{
    static const int32_t points[][2] = {{50, 9000}, {100, 9500}, {1000, 9700}};
    static const struct {
        double irradiance;
        int32_t dc, watts;
    } due[] = {{0.001, 10, 9}, {0.040, 400, 360}, {0.050, 500, 450}, {0.051, 510, 459}, {0.070, 700, 644},
        {0.075, 750, 693}, {0.099, 990, 939}, {0.100, 1000, 950}, {0.101, 1010, 959}, {0.550, 5500, 5280},
        {0.999, 9990, 9689}, {1.000, 10000, 9700}, {1.030, 10300, 9991}};
    struct solar s = plain_solar;
    put_curve(&s, EFF_X, 3, points);
    s.cut_in = s.cut_out = 0;
    for (size_t i = 0; i < sizeof due / sizeof due[0]; i++) {
        s.irradiance = due[i].irradiance;
        check_solar(&s, 1, due[i].watts, 0, (uint64_t)due[i].dc);
    }
    /* 509 W of 10,000 VA are 50 thousandths, as 500 W are. */
    s.irradiance = 1;
    s.array = 509;
    check_solar(&s, 1, 458, 0, 509);
}

/* Sixteen points, in both curves, and a jump between two of them. */
static void test_most_points(void)
{
    int32_t warm[16][2], eff[16][2];
    for (int32_t i = 0; i < 16; i++) {
        warm[i][0] = i * 1000;
        warm[i][1] = i == 15 ? 20000 : 1000 * i;
        eff[i][0] = i * 10;
        eff[i][1] = i < 8 ? 0 : 10000;
    }
    struct solar s = plain_solar;
    put_curve(&s, WARM_X, 16, (const int32_t(*)[2])warm);
    put_curve(&s, EFF_X, 16, (const int32_t(*)[2])eff);
    s.kva = 100000;
    for (int32_t i = 0; i < 15; i++) {
        s.temperature = i;
        check_solar(&s, i > 2, i < 8 ? 0 : i < 10 ? 1000 * i : 10000, 0, (uint64_t)(1000 * i));
    }
    s.temperature = 14.5;
    check_solar(&s, 1, 10000, 0, 17000);
    s.temperature = 7.5;
    check_solar(&s, 1, 3750, 0, 7500);
}

/* Every x and y of both curves at the ends of its range, and one beyond, at every point of a long curve. */
static void test_curve_values(void)
{
    static const struct {
        int list;
        int32_t least, most;
    } ranges[] = {{WARM_X, -100000000, 100000000}, {WARM_Y, 0, 20000}, {EFF_X, 0, 100000000}, {EFF_Y, 0, 10000}};
    for (int k = 0; k < CURVE_LISTS; k++)
        for (size_t at = 0; at < 16; at++) {
            struct solar s = plain_solar;
            for (int32_t i = 0; i < 16; i++)
                for (int list = k & ~1; list <= (k | 1); list++)
                    s.list[list][i] = list % 2 == 0 ? 1000 + i : 10000;
            s.length[k & ~1] = s.length[k | 1] = 16;
            check_solar(&s, 1, 10000, 0, 10000);
            s.list[k][at] = ranges[k].least - 1;
            out_of_range(&s);
            s.list[k][at] = INT32_MIN;
            out_of_range(&s);
            s.list[k][at] = ranges[k].most + 1;
            out_of_range(&s);
            s.list[k][at] = INT32_MAX;
            out_of_range(&s);
            /* An x as large as the one before it, and smaller. */
            if (k % 2 == 0 && at > 0) {
                s.list[k][at] = s.list[k][at - 1];
                out_of_range(&s);
                s.list[k][at] = s.list[k][at - 1] - 1;
                out_of_range(&s);
            }
        }
    struct solar s = plain_solar;
    s.list[WARM_X][0] = -100000000, s.list[WARM_X][1] = 100000000;
    s.list[EFF_X][0] = 0, s.list[EFF_X][1] = 100000000;
    check_solar(&s, 1, 10000, 0, 10000);
    s.list[EFF_Y][0] = s.list[EFF_Y][1] = 0;
    check_solar(&s, 1, 0, 0, 10000);
    s.list[WARM_Y][0] = s.list[WARM_Y][1] = 0;
    check_solar(&s, 0, 0, 0, 0);
}

/* Lists of other lengths than a curve's, or than each other's, come before everything else that is wrong. */
static void test_curve_lengths(void)
{
    static const size_t lengths[] = {0, 1, 2, 3, 15, 16, 17, 18};
    struct solar s = plain_solar;
    for (int curve = 0; curve < CURVE_LISTS; curve += 2)
        for (size_t i = 0; i < 8; i++)
            for (size_t j = 0; j < 8; j++) {
                s = plain_solar;
                s.length[curve] = lengths[i];
                s.length[curve + 1] = lengths[j];
                for (int32_t point = 0; point < POINTS; point++) {
                    s.list[curve][point] = 1000 * point;
                    s.list[curve + 1][point] = 10000;
                }
                if (lengths[i] == lengths[j] && lengths[i] >= 2 && lengths[i] <= 16) {
                    check_solar(&s, 1, 10000, 0, 10000);
                    continue;
                }
                refused_solar(&s, 10);
                s.array = 0;
                s.on = 2;
                s.list[curve][0] = INT32_MIN;
                refused_solar(&s, 10);
                s.irradiance = NAN;
                refused_solar(&s, 10);
            }
    /* None, lent by no address. */
    for (int list = 0; list < CURVE_LISTS; list++) {
        s = plain_solar;
        s.length[list & ~1] = s.length[list | 1] = 0;
        check_lent(&s, list, NULL, 10, 0, 0, 0, 0);
    }
}

/* Each list in turn at the start and the end of memory that can only be read. */
static void test_lent_lists(void)
{
    static const size_t lengths[] = {2, 3, 16};
    for (int list = 0; list < CURVE_LISTS; list++)
        for (int i = 0; i < 3; i++)
            for (int at_end = 0; at_end < 2; at_end++) {
                struct solar s = plain_solar;
                s.length[list & ~1] = s.length[list | 1] = lengths[i];
                for (int32_t point = 0; point < POINTS; point++) {
                    s.list[list & ~1][point] = 1000 * point;
                    s.list[list | 1][point] = 10000;
                }
                const uint8_t *lent = lend((const uint8_t *)s.list[list], lengths[i] * sizeof(int32_t), at_end);
                check_lent(&s, list, (const int32_t *)(const void *)lent, 0, 1, 10000, 0, 10000);
                s.on = 2;
                check_lent(&s, list, (const int32_t *)(const void *)lent, 5, 0, 0, 0, 0);
            }
    /* One list may be lent twice. */
    struct solar s = plain_solar;
    memcpy(s.list[WARM_X], s.list[EFF_X], sizeof s.list[WARM_X]);
    check_lent(&s, WARM_X, s.list[EFF_X], 0, 1, 10000, 0, 10000);
}

const struct test curve_tests[] = {
    {"yb_solar: the temperature curve", test_warm_curve},
    {"yb_solar: the efficiency curve", test_eff_curve},
    {"yb_solar: curves of 16 points", test_most_points},
    {"yb_solar: points outside their ranges or out of order", test_curve_values},
    {"yb_solar: lists of other lengths", test_curve_lengths},
    {"yb_solar: lists at the edge of their memory", test_lent_lists},
    {NULL, NULL},
};
