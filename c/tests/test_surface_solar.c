/* The tests of yb_solar: on and off, the powers and the weather. */
#include <inttypes.h>
#include <math.h>
#include <stdio.h>
#include <string.h>

#include "test_surface.h"
#include "test_surface_solar.h"
#include "yesbrulka.h"

const struct solar plain_solar = {
    10000, 10000, 200, 100, 10000, 0, 0,
    {{0, 50000}, {10000, 10000}, {0, 1000}, {10000, 10000}}, {2, 2, 2, 2}, 1, 25, 0,
};

/* Everything as large as it can be. */
static const struct solar largest = {
    100000000, 100000000, 10000, 10000, 10000, 0, 0,
    {{-100000000, 100000000}, {20000, 20000}, {0, 100000000}, {10000, 10000}}, {2, 2, 2, 2}, 100000, 100000, 0,
};

/* The call, with one list lent from other memory, or NULL. */
static uint32_t call_solar(const struct solar *s, int other, const int32_t *lent, uint8_t *on, int32_t *watts,
    int32_t *vars, uint64_t *dc)
{
    const int32_t *list[CURVE_LISTS];
    for (int k = 0; k < CURVE_LISTS; k++)
        list[k] = k == other ? lent : s->list[k];
    return yb_solar(s->array, s->kva, s->cut_in, s->cut_out, s->limit, s->var_request, s->priority, list[WARM_X],
        s->length[WARM_X], list[WARM_Y], s->length[WARM_Y], list[EFF_X], s->length[EFF_X], list[EFF_Y],
        s->length[EFF_Y], s->irradiance, s->temperature, s->on, on, watts, vars, dc);
}

static void tell(const struct solar *s)
{
    fprintf(stderr,
        "yb_solar(%" PRIu32 ", %" PRIu32 ", %u, %u, %u, %" PRId32 ", %u, lists of %zu, %zu, %zu, %zu, %a, %a, %u): ",
        s->array, s->kva, (unsigned)s->cut_in, (unsigned)s->cut_out, (unsigned)s->limit, s->var_request,
        (unsigned)s->priority, s->length[WARM_X], s->length[WARM_Y], s->length[EFF_X], s->length[EFF_Y],
        s->irradiance, s->temperature, (unsigned)s->on);
}

void check_lent(const struct solar *s, int other, const int32_t *lent, uint32_t number, uint8_t on,
    int32_t watts, int32_t vars, uint64_t dc)
{
    for (int i = 0; i < 2; i++) {
        struct {
            uint8_t on[3];
            int32_t watts[3], vars[3];
            uint64_t dc[3];
        } got, due;
        struct solar before = *s, call = *s;
        memset(&got, i == 0 ? 0x5A : 0xFF, sizeof got);
        memcpy(&due, &got, sizeof due);
        if (number == 0) {
            due.on[1] = on;
            due.watts[1] = watts;
            due.vars[1] = vars;
            due.dc[1] = dc;
        }
        uint32_t answer = call_solar(&call, other, lent, &got.on[1], &got.watts[1], &got.vars[1], &got.dc[1]);
        int same_lists = memcmp(call.list, before.list, sizeof before.list) == 0;
        if (answer != number || memcmp(&got, &due, sizeof due) != 0 || !same_lists) {
            wrong++;
            tell(s);
            fprintf(stderr,
                "number %" PRIu32 ", %u, %" PRId32 " W, %" PRId32 " var, DC %" PRIu64 " W; expected %" PRIu32
                ", %u, %" PRId32 ", %" PRId32 ", %" PRIu64 "%s\n",
                answer, (unsigned)got.on[1], got.watts[1], got.vars[1], got.dc[1], number, (unsigned)on, watts, vars,
                dc, same_lists ? "" : "; a list changed");
        }
    }
}

void check_solar(const struct solar *s, uint8_t on, int32_t watts, int32_t vars, uint64_t dc)
{
    check_lent(s, CURVE_LISTS, NULL, 0, on, watts, vars, dc);
}

void refused_solar(const struct solar *s, uint32_t number)
{
    check_lent(s, CURVE_LISTS, NULL, number, 0, 0, 0, 0);
}

/* DC power at cut-in, between the two and at cut-out leaves the inverter as it was; a watt beyond turns it. */
static void test_on_and_off(void)
{
    static const struct {
        uint32_t array;
        double irradiance;
        int32_t dc;
        int turns;
    } due[] = {{10000, 0.020, 200, 0}, {10050, 0.020, 201, 1}, {10000, 0.015, 150, 0}, {10000, 0.010, 100, 0},
        {9900, 0.010, 99, -1}, {10000, 0, 0, -1}, {10000, 1, 10000, 1}, {10000, 0.019, 190, 0}, {10000, 0.021, 210, 1}};
    for (size_t i = 0; i < sizeof due / sizeof due[0]; i++)
        for (uint8_t on = 0; on <= 1; on++) {
            struct solar s = plain_solar;
            uint8_t after = due[i].turns == 0 ? on : due[i].turns > 0;
            s.array = due[i].array;
            s.irradiance = due[i].irradiance;
            s.on = on;
            check_solar(&s, after, after ? due[i].dc : 0, 0, (uint64_t)due[i].dc);
            /* One that is off gives no vars either, and with no cut-out it never turns off. */
            s.var_request = -3000;
            check_solar(&s, after, after ? due[i].dc : 0, !after ? 0 : due[i].dc == 10000 ? 0 : -3000,
                (uint64_t)due[i].dc);
            s.cut_out = 0;
            if (on)
                check_solar(&s, 1, due[i].dc, due[i].dc == 10000 ? 0 : -3000, (uint64_t)due[i].dc);
        }
}

/* Neither side of the two is rounded: half of 3 VA is above 1 W and below 2 W. */
static void test_on_exactly(void)
{
    struct solar s = plain_solar;
    s.kva = 3;
    s.cut_in = s.cut_out = 5000;
    for (s.on = 0; s.on <= 1; s.on++) {
        s.array = 1;
        check_solar(&s, 0, 0, 0, 1);
        s.array = 2;
        check_solar(&s, 1, 2, 0, 2);
    }
    /* Cut-in and cut-out at S and at nothing. */
    for (s.on = 0; s.on <= 1; s.on++) {
        s.cut_in = s.cut_out = 10000;
        s.array = 3;
        check_solar(&s, s.on, s.on ? 3 : 0, 0, 3);
        s.array = 4;
        check_solar(&s, 1, 3, 0, 4);
        s.array = 2;
        check_solar(&s, 0, 0, 0, 2);
        s.cut_in = s.cut_out = 0;
        s.irradiance = 0;
        check_solar(&s, s.on, 0, 0, 0);
        s.irradiance = 1;
        s.array = 1;
        check_solar(&s, 1, 1, 0, 1);
    }
}

static void test_limit(void)
{
    struct solar s = plain_solar;
    s.limit = 7000;
    check_solar(&s, 1, 7000, 0, 10000);
    s.irradiance = 0.7;
    check_solar(&s, 1, 7000, 0, 7000);
    s.irradiance = 0.699;
    check_solar(&s, 1, 6990, 0, 6990);
    /* Half a watt is cut. */
    s = plain_solar;
    s.array = 9999;
    s.limit = 5000;
    check_solar(&s, 1, 4999, 0, 9999);
    /* A limit of nothing leaves the inverter on, and its vars. */
    s.limit = 0;
    s.var_request = 11000;
    check_solar(&s, 1, 0, 10000, 9999);
    s.on = 1;
    check_solar(&s, 1, 0, 10000, 9999);
}

static void test_solar_circle(void)
{
    struct solar s = plain_solar;
    for (int sign = -1; sign <= 1; sign += 2)
        for (int32_t v = 4; v <= 6; v++) {
            s = plain_solar;
            s.kva = 5;
            s.array = 3;
            s.var_request = sign * v;
            check_solar(&s, 1, 3, sign * 4, 3);
            s.kva = 10;
            s.array = 7;
            s.var_request = sign * (v + 3);
            check_solar(&s, 1, 7, sign * 7, 7);
        }
    for (int sign = -1; sign <= 1; sign += 2) {
        s = plain_solar;
        s.kva = 1000;
        s.array = 900;
        s.var_request = sign * 600;
        check_solar(&s, 1, 900, sign * 435, 900);
        s.priority = 1;
        check_solar(&s, 1, 800, sign * 600, 900);
        for (int32_t v = 1000; v <= 100000000; v *= 10) {
            s.var_request = sign * v;
            check_solar(&s, 1, 0, sign * 1000, 900);
        }
        s.priority = 0;
        s.array = 2000;
        check_solar(&s, 1, 1000, 0, 2000);
        /* The limit cuts the watts before the vars are limited. */
        s.array = 1000;
        s.limit = 9000;
        s.var_request = sign * 600;
        check_solar(&s, 1, 900, sign * 435, 1000);
    }
}

static void test_solar_largest(void)
{
    struct solar s = largest;
    check_solar(&s, 1, 100000000, 0, UINT64_C(20000000000000));
    s.var_request = -100000000;
    check_solar(&s, 1, 100000000, 0, UINT64_C(20000000000000));
    s.priority = 1;
    check_solar(&s, 1, 0, -100000000, UINT64_C(20000000000000));
    s = largest;
    s.kva = 1;
    s.var_request = 1;
    check_solar(&s, 1, 1, 0, UINT64_C(20000000000000));
    s.temperature = -100000;
    s.array = 1;
    s.irradiance = 0.001;
    for (s.on = 0; s.on <= 1; s.on++)
        check_solar(&s, 0, 0, 0, 0);
    /* The half of a watt is cut before the factor doubles it. */
    s = plain_solar;
    s.array = 1999;
    s.irradiance = 0.5;
    s.list[WARM_Y][0] = s.list[WARM_Y][1] = 20000;
    check_solar(&s, 1, 1998, 0, 1998);
}

/* The weather in thousandths: the nearest, midway the even one; an irradiance of next to nothing below 0 is 0.
**
*/
static void test_weather(void)
{
    static const struct {
        double irradiance;
        int32_t dc;
    } due[] = {{0, 0}, {-0.0, 0}, {0x1p-1074, 0}, {-0x1p-1074, 0}, {-0.0001, 0}, {-0.00049, 0}, {0.0004, 0},
        {0.0006, 1000}, {0.0625, 62000}, {0x1.fffffffffffffp-5, 62000}, {0.1875, 188000}};
    static const double bad[] = {-0.0006, -0.001, -1, -100000, 100000.0006, 100001, 1e300, -1e300, INFINITY, -INFINITY,
        NAN};
    static const double hot[] = {100000.0006, -100000.0006, 131072, -131072, 1e300, -1e300, INFINITY, -INFINITY, NAN};
    struct solar s = plain_solar;
    s.array = 1000000;
    s.kva = 1000000;
    s.cut_in = s.cut_out = 0;
    s.on = 1;
    for (size_t i = 0; i < sizeof due / sizeof due[0]; i++) {
        s.irradiance = due[i].irradiance;
        check_solar(&s, 1, due[i].dc, 0, (uint64_t)due[i].dc);
    }
    s.array = 1;
    s.irradiance = 100000.0004;
    check_solar(&s, 1, 1, 0, 100000);
    for (size_t i = 0; i < sizeof bad / sizeof bad[0]; i++) {
        s.irradiance = bad[i];
        refused_solar(&s, 6);
    }
    s = plain_solar;
    for (int sign = -1; sign <= 1; sign += 2) {
        s.temperature = sign * 100000.0004;
        check_solar(&s, 1, 10000, 0, 10000);
    }
    for (size_t i = 0; i < sizeof hot / sizeof hot[0]; i++) {
        s.temperature = hot[i];
        refused_solar(&s, 6);
        /* The dark makes no difference. */
        s.irradiance = 0;
        refused_solar(&s, 6);
        s.irradiance = 1;
    }
}

void out_of_range(const struct solar *s)
{
    struct solar call = *s;
    refused_solar(&call, 5);
    call.irradiance = -1;
    refused_solar(&call, 5);
    call.irradiance = NAN;
    call.temperature = INFINITY;
    refused_solar(&call, 5);
}

static void test_solar_values(void)
{
    static const uint32_t power[] = {0, 100000001, UINT32_C(1) << 31, UINT32_MAX};
    static const uint16_t parts[] = {10001, 1 << 15, UINT16_MAX};
    static const int32_t var[] = {INT32_MIN, -100000001, 100000001, INT32_MAX};
    static const uint8_t choice[] = {2, 3, 128, UINT8_MAX};
    struct solar s;
    for (int i = 0; i < 4; i++) {
        s = plain_solar, s.array = power[i], out_of_range(&s);
        s = plain_solar, s.kva = power[i], out_of_range(&s);
        s = plain_solar, s.var_request = var[i], out_of_range(&s);
        s = plain_solar, s.priority = choice[i], out_of_range(&s);
        s = plain_solar, s.on = choice[i], out_of_range(&s);
    }
    for (int i = 0; i < 3; i++) {
        s = plain_solar, s.cut_in = parts[i], out_of_range(&s);
        s = plain_solar, s.cut_out = parts[i], out_of_range(&s);
        s = plain_solar, s.cut_in = s.cut_out = parts[i], out_of_range(&s);
        s = plain_solar, s.limit = parts[i], out_of_range(&s);
    }
    /* A cut-out above its cut-in. */
    s = plain_solar, s.cut_out = 201, out_of_range(&s);
    s = plain_solar, s.cut_in = 0, s.cut_out = 1, out_of_range(&s);
    s = plain_solar, s.cut_out = 200;
    check_solar(&s, 1, 10000, 0, 10000);
}

const struct test solar_tests[] = {
    {"yb_solar: on and off", test_on_and_off},
    {"yb_solar: on and off without rounding", test_on_exactly},
    {"yb_solar: the limit", test_limit},
    {"yb_solar: the kVA circle and the priority", test_solar_circle},
    {"yb_solar: the largest numbers", test_solar_largest},
    {"yb_solar: the weather", test_weather},
    {"yb_solar: values outside their ranges", test_solar_values},
    {NULL, NULL},
};
