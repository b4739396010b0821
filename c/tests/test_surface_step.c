/* The tests of yb_step and yb_step_as. */
#include <inttypes.h>
#include <stdio.h>

#include "test_surface.h"
#include "test_surface_file.h"
#include "yesbrulka.h"

/* A unit, the length of its step and its request, in the order of the call. */
struct step {
    uint32_t seconds;
    uint64_t rated, reserve, stored;
    uint32_t rating, kva, idle_loss;
    int32_t var_request;
    uint16_t weight, inverter, charge, discharge;
    uint8_t priority;
    int32_t request;
};

/* What yb_step_as takes beside it. */
struct as {
    uint8_t edition;
    uint32_t provide, absorb;
};

/* The unit of the figures D1 to D3, with 500,000 J above its reserve. */
static const struct step unit = {
    60, 1000000, 100000, 600000, 5000, 5000, 10, 0, 1, 9000, 8000, 8000, 0, 0,
};

/* The unit with everything as large as it can be, and no losses. */
static const struct step largest = {
    86400, UINT64_C(10000000000000), 0, UINT64_C(10000000000000), 100000000, 100000000, 0, 0, 10000, 10000, 10000,
    10000, 0, 0,
};

static uint32_t make_step(const struct as *as, const struct step *s, int32_t *watts, int32_t *vars, uint64_t *after,
    uint64_t *loss)
{
    if (as == NULL)
        return yb_step(s->seconds, s->rated, s->reserve, s->stored, s->rating, s->kva, s->idle_loss, s->var_request,
            s->weight, s->inverter, s->charge, s->discharge, s->priority, s->request, watts, vars, after, loss);
    return yb_step_as(as->edition, s->seconds, s->rated, s->reserve, s->stored, s->rating, s->kva, s->idle_loss,
        s->var_request, s->weight, s->inverter, s->charge, s->discharge, s->priority, as->provide, as->absorb,
        s->request, watts, vars, after, loss);
}

static void tell_call(const struct as *as, const struct step *s)
{
    if (as == NULL)
        fprintf(stderr, "yb_step(");
    else
        fprintf(stderr, "yb_step_as in edition %u, limits %" PRIu32 " and %" PRIu32 " (", (unsigned)as->edition,
            as->provide, as->absorb);
    fprintf(stderr, "%" PRIu32 ", %" PRIu64 ", %" PRIu64 ", %" PRIu64 ", %" PRIu32 ", %" PRIu32 ", %" PRIu32
        ", %" PRId32 ", %u, %u, %u, %u, %u, %" PRId32 "): ",
        s->seconds, s->rated, s->reserve, s->stored, s->rating, s->kva, s->idle_loss, s->var_request,
        (unsigned)s->weight, (unsigned)s->inverter, (unsigned)s->charge, (unsigned)s->discharge,
        (unsigned)s->priority, s->request);
}

/* One step, made twice over different memory: the number, what it stores, and the words around it. It is a call of
** yb_step, or else of yb_step_as.
*/
static void check_call(const struct as *as, const struct step *s, uint32_t number, int32_t watts, int32_t vars,
    uint64_t after, uint64_t loss)
{
    for (int i = 0; i < 2; i++) {
        int32_t fill = i == 0 ? 0x5A5A5A5A : -1;
        uint64_t long_fill = i == 0 ? UINT64_C(0x5A5A5A5A5A5A5A5A) : UINT64_MAX;
        int32_t w[3] = {fill, fill, fill}, v[3] = {fill, fill, fill};
        uint64_t a[3] = {long_fill, long_fill, long_fill}, l[3] = {long_fill, long_fill, long_fill};
        uint32_t got = make_step(as, s, &w[1], &v[1], &a[1], &l[1]);
        int stored = number == 0
            ? w[1] == watts && v[1] == vars && a[1] == after && l[1] == loss
            : w[1] == fill && v[1] == fill && a[1] == long_fill && l[1] == long_fill;
        int around = w[0] == fill && w[2] == fill && v[0] == fill && v[2] == fill && a[0] == long_fill &&
            a[2] == long_fill && l[0] == long_fill && l[2] == long_fill;
        if (got != number || !stored || !around) {
            wrong++;
            tell_call(as, s);
            fprintf(stderr, "number %" PRIu32 ", %" PRId32 " W, %" PRId32 " var, %" PRIu64 " J, lost %" PRIu64
                " J; expected %" PRIu32 ", %" PRId32 ", %" PRId32 ", %" PRIu64 ", %" PRIu64 "%s\n",
                got, w[1], v[1], a[1], l[1], number, watts, vars, after, loss,
                around ? "" : "; memory beside them changed");
        }
    }
}

/* The step of a unit without limits in the newer model, which has the idle loss on the DC side: yb_step; in edition 1
** limits of any size, which are not looked at; and in edition 2 limits of S.
*/
static void check_newer(const struct step *s, uint32_t number, int32_t watts, int32_t vars, uint64_t after,
    uint64_t loss)
{
    const struct as ways[] = {{1, 0, 0}, {1, 7, s->kva}, {1, s->kva + 1, 3}, {1, UINT32_MAX, UINT32_MAX},
        {2, s->kva, s->kva}};
    check_call(NULL, s, number, watts, vars, after, loss);
    for (size_t i = 0; i < sizeof ways / sizeof ways[0]; i++)
        check_call(&ways[i], s, number, watts, vars, after, loss);
}

/* The same in the older model, which is edition 3's and has it at the grid, again with limits of S. */
static void check_older(const struct step *s, uint32_t number, int32_t watts, int32_t vars, uint64_t after,
    uint64_t loss)
{
    struct as as = {3, s->kva, s->kva};
    check_call(&as, s, number, watts, vars, after, loss);
}

/* In both, where there is no idle loss or the step is refused. */
static void check_step(const struct step *s, uint32_t number, int32_t watts, int32_t vars, uint64_t after,
    uint64_t loss)
{
    check_newer(s, number, watts, vars, after, loss);
    if (s->idle_loss == 0 || number != 0)
        check_older(s, number, watts, vars, after, loss);
}

static const int32_t any_requests[] = {0, 1, -1, 5001, INT32_MAX, INT32_MIN};
enum { ANY_REQUESTS = sizeof any_requests / sizeof any_requests[0] };

/* Refused with 5, whatever the request. */
static void refused_step(const struct step *s)
{
    struct step step = *s;
    for (int i = 0; i < ANY_REQUESTS; i++) {
        step.request = any_requests[i];
        check_step(&step, 5, 0, 0, 0, 0);
    }
}

/* The same in the newer model alone, for the idle draw is above S. */
static void refused_draw(const struct step *s)
{
    struct step step = *s;
    for (int i = 0; i < ANY_REQUESTS; i++) {
        step.request = any_requests[i];
        check_newer(&step, 5, 0, 0, 0, 0);
    }
}

/* The same where it is the edition or a limit that is refused, with either priority. */
static void refused_as(uint8_t edition, uint32_t provide, uint32_t absorb, const struct step *s)
{
    struct as as = {edition, provide, absorb};
    struct step step = *s;
    for (int i = 0; i < ANY_REQUESTS; i++)
        for (step.priority = 0; step.priority <= 1; step.priority++) {
            step.request = any_requests[i];
            check_call(&as, &step, 5, 0, 0, 0, 0);
        }
}

/* The unit with a request and a store. */
static struct step asked(int32_t request, uint64_t stored)
{
    struct step step = unit;
    step.request = request;
    step.stored = stored;
    return step;
}

static void test_step_figures(void)
{
    struct step s = asked(900, 175750);
    check_step(&s, 0, 900, 0, 100000, 21750);
    s.stored = 175749;
    check_step(&s, 0, 899, 0, 100074, 21735);
    s = asked(-1000, 100000);
    check_step(&s, 0, -1000, 0, 142720, 17280);

    s = unit;
    s.idle_loss = 0;
    for (int sign = -1; sign <= 1; sign += 2)
        for (int32_t v = 4; v <= 6; v++) {
            s.kva = 5;
            s.var_request = sign * v;
            s.request = 3;
            check_step(&s, 0, 3, sign * 4, 599700, 120);
            s.request = -3;
            check_step(&s, 0, -3, sign * 4, 600096, 84);
            s.kva = 10;
            s.var_request = sign * (v + 3);
            s.request = 7;
            check_step(&s, 0, 7, sign * 7, 599400, 180);
            s.request = -7;
            check_step(&s, 0, -7, sign * 7, 600288, 132);
        }
}

static void test_step_idling(void)
{
    struct step s = largest;
    s.seconds = 60;
    s.rated = s.stored = 3600000;
    s.idle_loss = 1000;
    check_step(&s, 0, -1000, 0, 3600000, 60000);
    /* Full and asked to take; at its reserve or below it and asked to give. */
    s.request = -100000000;
    check_step(&s, 0, -1000, 0, 3600000, 60000);
    s.request = 100000000;
    s.reserve = 3600000;
    check_step(&s, 0, -1000, 0, 3600000, 60000);
    for (uint64_t stored = 0; stored < 3600000; stored = 2 * stored + 1) {
        s.stored = stored;
        check_step(&s, 0, -1000, 0, stored, 60000);
    }
    /* The draw at S leaves no room for vars. */
    s = largest;
    s.inverter = 1000;
    s.idle_loss = 10000000;
    s.var_request = 100000000;
    for (s.priority = 0; s.priority <= 1; s.priority++)
        check_step(&s, 0, -100000000, 0, UINT64_C(10000000000000), UINT64_C(8640000000000));
}

static void test_step_last_joule(void)
{
    struct step s = asked(1, 100899);
    check_step(&s, 0, -12, 0, 100899, 720);
    s = asked(1, 100900);
    check_step(&s, 0, 1, 0, 100000, 840);
    s = asked(1, 100901);
    check_step(&s, 0, 1, 0, 100001, 840);
    s = asked(-1000, 1000000 - 42720);
    check_step(&s, 0, -1000, 0, 1000000, 17280);
    s = asked(-1000, 1000000 - 42719);
    check_step(&s, 0, -999, 0, 999953, 17268);
    s = asked(-1000, 1000000 - 48);
    check_step(&s, 0, -13, 0, 1000000, 732);
    s = asked(-1000, 1000000 - 47);
    check_step(&s, 0, -12, 0, 999953, 720);
    /* Part of a joule more is a joule from the store, and none to it. */
    s = asked(900, 186572);
    s.discharge = 7000;
    check_step(&s, 0, 900, 0, 100000, 32572);
    s.stored--;
    check_step(&s, 0, 899, 0, 100085, 32546);
    s = asked(-1000, 1000000 - 41529);
    s.charge = 7777;
    check_step(&s, 0, -1000, 0, 1000000, 18471);
    s.stored++;
    check_step(&s, 0, -999, 0, 999954, 18458);
    /* What passes the inverter does not cover the idle loss. */
    for (int32_t watts = 1; watts <= 12; watts++) {
        s = asked(-watts, 0);
        check_step(&s, 0, -12, 0, 0, 720);
    }
    s = asked(-13, 0);
    check_step(&s, 0, -13, 0, 48, 732);
}

static void test_step_circle(void)
{
    struct step s = unit;
    s.kva = 50;
    s.request = 5000;
    check_step(&s, 0, 50, 0, 595050, 1950);
    s.request = -5000;
    check_step(&s, 0, -50, 0, 601680, 1320);

    /* The stored energy cuts the watts before the vars are limited. */
    s = asked(900, 175749);
    s.kva = 900;
    s.var_request = 900;
    check_step(&s, 0, 899, 42, 100074, 21735);

    for (int sign = -1; sign <= 1; sign += 2) {
        s = unit;
        s.kva = 1000;
        s.var_request = sign * 600;
        s.request = 900;
        check_step(&s, 0, 900, sign * 435, 524250, 21750);
        s.request = -900;
        check_step(&s, 0, -900, sign * 435, 638400, 15600);
        s.priority = 1;
        check_step(&s, 0, -800, sign * 600, 634080, 13920);
        s.request = 900;
        check_step(&s, 0, 800, sign * 600, 532575, 19425);
        /* Vars at S or beyond it leave no watts. */
        for (int32_t v = 1000; v <= 100000000; v *= 10) {
            s.var_request = sign * v;
            check_step(&s, 0, -12, sign * 999, 600000, 720);
        }
    }
}

static void test_step_largest(void)
{
    struct step s = largest;
    s.request = 100000000;
    s.var_request = INT32_C(-100000000);
    check_step(&s, 0, 100000000, 0, UINT64_C(1360000000000), 0);
    s.inverter = s.charge = s.discharge = 1000;
    check_step(&s, 0, 1157407, -99993301, 3520000, UINT64_C(9899996515200));
    s.seconds = 1;
    check_step(&s, 0, 100000000, 0, UINT64_C(9990000000000), UINT64_C(9900000000));
    s.request = -100000000;
    s.stored = 0;
    check_step(&s, 0, -100000000, 0, 1000000, 99000000);
    s.seconds = 86400;
    check_step(&s, 0, -100000000, 0, UINT64_C(86400000000), UINT64_C(8553600000000));
    s.inverter = s.charge = s.discharge = 10000;
    check_step(&s, 0, -100000000, 0, UINT64_C(8640000000000), 0);
}

static void test_step_values(void)
{
    static const uint32_t seconds[] = {0, 86401, UINT32_C(1) << 31, UINT32_MAX};
    static const uint64_t rated[] = {0, UINT64_C(10000000000001), UINT64_C(1) << 63, UINT64_MAX};
    static const uint64_t energy[] = {1000001, UINT64_C(1) << 32, UINT64_C(1) << 63, UINT64_MAX};
    static const uint32_t power[] = {0, 100000001, UINT32_C(1) << 31, UINT32_MAX};
    static const uint32_t idle[] = {10000001, 10004501, UINT32_C(1) << 31, UINT32_MAX};
    static const int32_t var[] = {INT32_MIN, -100000001, 100000001, INT32_MAX};
    static const uint16_t weight[] = {0, 10001, 1 << 15, UINT16_MAX};
    static const uint16_t efficiency[] = {0, 999, 10001, UINT16_MAX};
    static const uint8_t priority[] = {2, 3, 128, UINT8_MAX};
    struct step s;
    for (int i = 0; i < 4; i++) {
        s = unit, s.seconds = seconds[i], refused_step(&s);
        s = unit, s.rated = rated[i], refused_step(&s);
        s = unit, s.reserve = energy[i], refused_step(&s);
        s = unit, s.stored = energy[i], refused_step(&s);
        s = unit, s.rating = power[i], refused_step(&s);
        s = unit, s.kva = power[i], refused_step(&s);
        s = unit, s.idle_loss = idle[i], refused_step(&s);
        s = unit, s.var_request = var[i], refused_step(&s);
        s = unit, s.weight = weight[i], refused_step(&s);
        s = unit, s.inverter = efficiency[i], refused_step(&s);
        s = unit, s.charge = efficiency[i], refused_step(&s);
        s = unit, s.discharge = efficiency[i], refused_step(&s);
        s = unit, s.priority = priority[i], refused_step(&s);
    }
    s = unit, s.rated = s.reserve = s.stored = 0, refused_step(&s);
    /* An idle draw of S, and above it by rounding up alone. */
    s = unit, s.idle_loss = 4500;
    check_step(&s, 0, -5000, 0, 600000, 300000);
    s.idle_loss = 4501, refused_draw(&s);
    s = unit, s.idle_loss = s.kva = 10, s.inverter = 10000;
    check_step(&s, 0, -10, 0, 600000, 600);
    s.inverter = 9999, refused_draw(&s);
    s = largest, s.idle_loss = 10000000, s.inverter = 1000, s.kva = 99999999, refused_draw(&s);
}

static void test_step_requests(void)
{
    static const int32_t beyond[] = {5001, -5001, 100000001, INT32_MAX, INT32_MIN, -INT32_MAX};
    for (size_t i = 0; i < sizeof beyond / sizeof beyond[0]; i++) {
        struct step s = asked(beyond[i], 600000);
        check_step(&s, 10, 0, 0, 0, 0);
        /* It is the power rating that counts, not S. */
        s.kva = 100000000;
        check_step(&s, 10, 0, 0, 0, 0);
    }
}

/* The unit of figure D4, without losses and with limits of its own. */
static const struct step limited = {
    1, 1000000, 0, 500000, 5000, 1000, 0, 0, 1, 10000, 10000, 10000, 0, 0,
};

/* One step of it in editions 2 and 3, asked watts and vars: what it gives of both. */
static void check_limited(struct limits limits, uint8_t priority, int32_t request, int32_t var_request, int32_t watts,
    int32_t vars)
{
    struct as as = {2, limits.provide, limits.absorb};
    struct step s = limited;
    s.priority = priority;
    s.request = request;
    s.var_request = var_request;
    for (; as.edition <= 3; as.edition++)
        check_call(&as, &s, 0, watts, vars, (uint64_t)(500000 - watts), 0);
}

/* Figure D4, and each direction with its own limit. */
static void test_step_limits(void)
{
    static const struct limits d4 = {600, 300};
    static const int32_t beyond[] = {700, 1000, 1001, 100000000};
    for (uint8_t priority = 0; priority <= 1; priority++) {
        for (int i = 0; i < 4; i++) {
            check_limited(d4, priority, 0, beyond[i], 0, 600);
            check_limited(d4, priority, 0, -beyond[i], 0, -300);
        }
        for (int32_t v = 598; v <= 602; v++)
            check_limited(d4, priority, 0, v, 0, v < 600 ? v : 600);
        for (int32_t v = -302; v <= 1; v++)
            check_limited(d4, priority, 0, v, 0, v > -300 ? v : -300);
    }
    for (int sign = -1; sign <= 1; sign += 2) {
        check_limited(d4, 1, sign * 1000, 700, sign * 800, 600);
        check_limited(d4, 1, sign * 1000, -700, sign * 953, -300);
        check_limited(d4, 1, sign * 1000, 300, sign * 953, 300);
        check_limited(d4, 1, sign * 799, 700, sign * 799, 600);
        check_limited(d4, 1, sign * 801, 700, sign * 800, 600);
        /* Watts first: what the circle leaves, where it is less than the limit. */
        check_limited(d4, 0, sign * 1000, 700, sign * 1000, 0);
        check_limited(d4, 0, sign * 900, 700, sign * 900, 435);
        check_limited(d4, 0, sign * 801, 700, sign * 801, 598);
        check_limited(d4, 0, sign * 800, 700, sign * 800, 600);
        check_limited(d4, 0, sign * 900, -700, sign * 900, -300);
        check_limited(d4, 0, sign * 999, -700, sign * 999, -44);
    }
}

/* Limits of nothing, of which one is enough to shut a direction; and limits of S, which leave the circle alone. */
static void test_step_limit_ends(void)
{
    static const struct limits none = {0, 0}, provide = {1000, 0}, absorb = {0, 1000}, both = {1000, 1000};
    for (int32_t v = 1; v <= 100000000; v *= 10)
        for (int sign = -1; sign <= 1; sign += 2)
            for (uint8_t priority = 0; priority <= 1; priority++) {
                int32_t all = v < 1000 ? v : 1000;
                check_limited(none, priority, sign * 1000, v, sign * 1000, 0);
                check_limited(none, priority, sign * 1000, -v, sign * 1000, 0);
                check_limited(absorb, priority, sign * 1000, v, sign * 1000, 0);
                check_limited(provide, priority, sign * 1000, -v, sign * 1000, 0);
                check_limited(none, priority, 0, sign * v, 0, 0);
                check_limited(provide, priority, 0, v, 0, all);
                check_limited(absorb, priority, 0, -v, 0, -all);
                check_limited(both, priority, 0, sign * v, 0, sign * all);
            }
    check_limited(both, 1, 1000, 700, 714, 700);
    check_limited(both, 1, 1000, 1001, 0, 1000);
}

/* Limits beyond S, and editions that there are not. */
static void test_step_editions(void)
{
    static const uint32_t beyond[] = {1001, 1256, 100000000, 100000001, UINT32_C(1) << 31, UINT32_MAX};
    static const uint8_t editions[] = {0, 4, 5, 127, 128, 255};
    for (int i = 0; i < 6; i++) {
        for (uint8_t edition = 2; edition <= 3; edition++) {
            refused_as(edition, beyond[i], 0, &limited);
            refused_as(edition, 0, beyond[i], &limited);
            refused_as(edition, beyond[i], beyond[i], &limited);
        }
        refused_as(editions[i], 600, 300, &limited);
        refused_as(editions[i], 0, 0, &limited);
        refused_as(editions[i], beyond[i], 1000, &limited);
    }
    for (uint8_t edition = 2; edition <= 3; edition++) {
        /* The largest, and one beyond it. */
        struct as as = {edition, 100000000, 100000000};
        struct step s = largest;
        s.var_request = INT32_C(-100000000);
        check_call(&as, &s, 0, 0, INT32_C(-100000000), UINT64_C(10000000000000), 0);
        refused_as(edition, 100000001, 0, &largest);
        refused_as(edition, 0, 100000001, &largest);
        /* A request beyond the rating comes last. */
        s = limited;
        s.request = 5001;
        as = (struct as){edition, 1000, 0};
        check_call(&as, &s, 10, 0, 0, 0, 0);
    }
}

/* Figure D5, which has D1's discharge, D3's charge and the idling unit; and the last joule either way. */
static void test_step_older_figures(void)
{
    struct step s = asked(900, 175000);
    check_older(&s, 0, 890, 0, 100000, 21600);
    s.stored--;
    check_older(&s, 0, 889, 0, 100074, 21585);
    s = asked(-1000, 100000);
    check_older(&s, 0, -1010, 0, 143200, 17400);
    s.stored = 1000000 - 43200;
    check_older(&s, 0, -1010, 0, 1000000, 17400);
    s.stored++;
    check_older(&s, 0, -1009, 0, 999953, 17388);
    s = asked(1, 100150);
    check_older(&s, 0, -9, 0, 100000, 690);
    /* All that passes the inverter is stored. */
    s = asked(-2, 0);
    check_older(&s, 0, -12, 0, 48, 672);
    s.stored = 1000000 - 48;
    check_older(&s, 0, -12, 0, 1000000, 672);

    /* Asked nothing; at its reserve or below it, or a joule short of a watt, and asked to give; full, without room for
    ** a watt, or asked less than a watt behind the inverter, and asked to take.
    */
    static const struct {
        int32_t request;
        uint64_t stored;
    } idle[] = {{0, 0}, {0, 600000}, {0, 1000000}, {900, 100000}, {900, 99999}, {900, 0}, {1, 100149},
        {-1000, 1000000}, {-1000, 1000000 - 47}, {-1, 0}};
    for (size_t i = 0; i < sizeof idle / sizeof idle[0]; i++) {
        s = asked(idle[i].request, idle[i].stored);
        check_older(&s, 0, -10, 0, idle[i].stored, 600);
    }
}

/* An idle loss of any size, also above what the unit gives and above S: a unit that gives 900 W, takes 1,000 W or idles
** has it at the grid, and the store does not see it.
*/
static void test_step_older_losses(void)
{
    static const int32_t losses[] = {0, 1, 899, 900, 901, 4500, 4501, 5001, 9999999, 10000000};
    for (size_t i = 0; i < sizeof losses / sizeof losses[0]; i++) {
        int32_t loss = losses[i];
        struct step give = asked(900, 175000), take = asked(-1000, 100000), idle = unit;
        uint64_t energy = UINT64_C(60) * (uint32_t)loss;
        give.idle_loss = take.idle_loss = idle.idle_loss = (uint32_t)loss;
        check_older(&give, 0, 900 - loss, 0, 100000, 21000 + energy);
        check_older(&take, 0, -1000 - loss, 0, 143200, 16800 + energy);
        check_older(&idle, 0, -loss, 0, 600000, energy);
        if (loss > 4500) /* the draw is above the S of 5,000 */
            refused_draw(&idle);
    }
}

/* The circle is about the watts of the inverter, which are not those at the grid, with either priority. */
static void test_step_older_circle(void)
{
    static const struct {
        uint8_t priority;
        int32_t request, var_request, watts, vars;
        uint64_t after, loss;
    } rows[] = {
        {0, 900, 600, 600, 435, 525000, 39000}, {0, -900, 600, -1200, 435, 638880, 33120},
        {1, 900, 600, 500, 600, 533325, 36675}, {1, -900, 600, -1100, 600, 634560, 31440},
        {0, 1000, 600, 700, 0, 516600, 41400},
        /* Vars at S or beyond it leave no watts; the inverter of an idling unit leaves all of S to vars. */
        {1, 900, 1000, -300, 1000, 600000, 18000}, {1, -900, 1001, -300, 1000, 600000, 18000},
        {1, 900, 100000000, -300, 1000, 600000, 18000}, {0, 0, 1000, -300, 1000, 600000, 18000},
    };
    struct step s = asked(900, 174999);
    s.kva = s.var_request = 900;
    check_older(&s, 0, 889, 42, 100074, 21585);
    s = unit, s.kva = 1000, s.idle_loss = 300;
    for (size_t i = 0; i < sizeof rows / sizeof rows[0]; i++)
        for (int sign = -1; sign <= 1; sign += 2) {
            s.priority = rows[i].priority;
            s.request = rows[i].request;
            s.var_request = sign * rows[i].var_request;
            check_older(&s, 0, rows[i].watts, sign * rows[i].vars, rows[i].after, rows[i].loss);
        }
    /* Figure E1 in a unit whose idle loss is far above S, which the newer model refuses. */
    s = unit, s.kva = 5, s.idle_loss = 10000000, s.var_request = -6, s.request = 3;
    check_older(&s, 0, 3 - 10000000, -4, 599700, 600000120);
    s.request = -3;
    check_older(&s, 0, -3 - 10000000, -4, 600096, 600000084);
    s.request = 0;
    check_older(&s, 0, -10000000, -5, 600000, 600000000);
    refused_draw(&s);
}

static void test_step_older_largest(void)
{
    struct step s = largest;
    s.idle_loss = 10000000;
    s.request = 100000000;
    check_older(&s, 0, 90000000, 0, UINT64_C(1360000000000), UINT64_C(864000000000));
    s.request = -100000000;
    check_older(&s, 0, -10000000, 0, UINT64_C(10000000000000), UINT64_C(864000000000));
    s.stored = 0;
    check_older(&s, 0, -110000000, 0, UINT64_C(8640000000000), UINT64_C(864000000000));
    s.inverter = s.charge = s.discharge = 1000;
    check_older(&s, 0, -110000000, 0, UINT64_C(86400000000), UINT64_C(9417600000000));
    s.request = 0;
    s.var_request = INT32_C(-100000000);
    check_older(&s, 0, -10000000, INT32_C(-100000000), 0, UINT64_C(864000000000));
    s.kva = 1;
    check_older(&s, 0, -10000000, -1, 0, UINT64_C(864000000000));
}

/* Any unit does in edition 3 what it would do in edition 2 if it had no idle loss, and draws that beside it. */
static void test_step_older_drawn(void)
{
    struct file file;
    for (int times = 0; times < 100; times++) {
        draw_file(&file, MOST_UNITS);
        for (size_t i = 0; i < MOST_UNITS; i++) {
            const struct unit *u = &file.unit[i];
            struct as as = {2, file.limits[i].provide, file.limits[i].absorb};
            struct step s = {file.seconds, u->rated, u->reserve, u->stored, u->rating, u->kva, 0, u->var_request,
                u->weight, u->inverter, u->charge, u->discharge, u->priority,
                (int32_t)draw(UINT64_C(2) * u->rating + 1) - (int32_t)u->rating};
            int32_t watts = 0, vars = 0;
            uint64_t after = 0, loss = 0;
            uint32_t number = make_step(&as, &s, &watts, &vars, &after, &loss);
            s.idle_loss = u->idle_loss;
            as.edition = 3;
            check_call(&as, &s, number, watts - (int32_t)u->idle_loss, vars, after,
                loss + (uint64_t)u->idle_loss * file.seconds);
            wrong += number != 0;
        }
    }
}

const struct test step_tests[] = {
    {"yb_step, yb_step_as: the document's figures D1 to D3 and E1", test_step_figures},
    {"yb_step, yb_step_as: idling", test_step_idling},
    {"yb_step, yb_step_as: the last joule", test_step_last_joule},
    {"yb_step, yb_step_as: the kVA circle and the priority", test_step_circle},
    {"yb_step, yb_step_as: the largest numbers", test_step_largest},
    {"yb_step, yb_step_as: values outside their ranges", test_step_values},
    {"yb_step, yb_step_as: requests beyond the rating", test_step_requests},
    {"yb_step_as: figure D4, and var limits either way", test_step_limits},
    {"yb_step_as: limits of nothing and of S", test_step_limit_ends},
    {"yb_step_as: limits beyond S, and other editions", test_step_editions},
    {"yb_step_as: edition 3, figure D5, the last joule and idling", test_step_older_figures},
    {"yb_step_as: edition 3, idle losses of any size", test_step_older_losses},
    {"yb_step_as: edition 3, the kVA circle and the priority", test_step_older_circle},
    {"yb_step_as: edition 3, the largest numbers", test_step_older_largest},
    {"yb_step_as: edition 3 beside edition 2", test_step_older_drawn},
    {NULL, NULL},
};
