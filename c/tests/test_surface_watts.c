/* The tests of yb_watts. */
#include <float.h>
#include <inttypes.h>
#include <stdio.h>
#include <string.h>

#include "test_surface.h"
#include "yesbrulka.h"

static uint64_t bits_of(double r)
{
    uint64_t bits;
    memcpy(&bits, &r, sizeof bits);
    return bits;
}

static double double_of(uint64_t bits)
{
    double r;
    memcpy(&r, &bits, sizeof r);
    return r;
}

/* The doubles one unit in the last place nearer to zero and further from it; the mathematics library of
** Debian's cross packages does not link, so nextafter is not to be had.
*/
static double nearer(double r)
{
    return double_of(bits_of(r) - 1);
}

static double further(double r)
{
    return double_of(bits_of(r) + 1);
}

/* One conversion, made twice over different memory: the number, what is in *watts, and the words on both
** sides of it. A refusal is told from a result that happens to be what was there before.
*/
static void check_watts(double kw, uint32_t number, int32_t watts)
{
    static const int32_t fills[] = {0x5A5A5A5A, -1};
    for (int i = 0; i < 2; i++) {
        int32_t fill = fills[i];
        int32_t lent[3] = {fill, fill, fill};
        int32_t expected = number == 0 ? watts : fill;
        uint32_t got = yb_watts(kw, &lent[1]);
        int good = got == number && lent[1] == expected && lent[0] == fill && lent[2] == fill;
        if (!good) {
            wrong++;
            fprintf(stderr,
                "yb_watts(%a, bits %016" PRIX64 "): number %" PRIu32 ", memory %" PRId32 " %" PRId32 " %" PRId32
                "; expected %" PRIu32 ", memory %" PRId32 " %" PRId32 " %" PRId32 "\n",
                kw, bits_of(kw), got, lent[0], lent[1], lent[2], number, fill, expected, fill);
        }
    }
}

static void accepted(double kw, int32_t watts)
{
    check_watts(kw, 0, watts);
    check_watts(-kw, 0, -watts);
}

static void refused(double kw)
{
    check_watts(kw, 6, 0);
    check_watts(double_of(bits_of(kw) ^ UINT64_C(1) << 63), 6, 0);
}

static void test_figures(void)
{
    accepted(1.5, 1500);
    accepted(0.0625, 62);
    accepted(0.1875, 188);
    accepted(0x1p-11, 0);
    accepted(0x1p-10, 1);
    accepted(100000, 100000000);
    refused(100000.0625);
}

static void test_less_than_half_a_watt(void)
{
    accepted(0.0, 0);
    accepted(DBL_MIN, 0);
    accepted(nearer(DBL_MIN), 0);
    accepted(DBL_EPSILON, 0);
    for (int k = 0; k < 52; k++)
        accepted(double_of(UINT64_C(1) << k), 0);
}

/* Odd numbers of sixteenths of a kW are the only exact ties. */
static void test_ties(void)
{
    for (int32_t n = 1; n < 1600000; n = 3 * n + 2) {
        double tie = n / 16.0;
        int32_t below = (int32_t)(INT64_C(125) * n / 2);
        accepted(tie, below + below % 2);
        accepted(further(tie), below + 1);
        accepted(nearer(tie), below);
    }
}

/* The last accepted result is reached up to half a watt past it. */
static void test_range_ends(void)
{
    accepted(99999.999, 99999999);
    accepted(99999.9994, 99999999);
    accepted(99999.9996, 100000000);
    accepted(nearer(100000), 100000000);
    accepted(further(100000), 100000000);
    accepted(100000.00049, 100000000);
    accepted(double_of(UINT64_C(0x40F86A00020C49BA)), 100000000);
    refused(double_of(UINT64_C(0x40F86A00020C49BB)));
    refused(100000.00051);
    refused(100000.001);
    refused(131072);
}

/* Powers whose watts come out small, or of the other sign, where they are cut to 32, 53 or 64 bits. */
static void test_wide_results(void)
{
    refused(2147483.647);
    refused(2147483.648);
    refused(4294967.296);
    refused(4294967.297);
    refused(0x1p53);
    refused(0x1p63);
    refused(0x1p64 / 1000);
    refused(0x1p64);
    refused(0x1p1000);
    refused(DBL_MAX);
}

static void test_no_number(void)
{
    refused(double_of(UINT64_C(0x7FF0000000000000)));
    for (int k = 0; k < 52; k++) {
        refused(double_of(UINT64_C(0x7FF0000000000000) | UINT64_C(1) << k));
        refused(double_of(UINT64_C(0x7FF8000000000000) | UINT64_C(1) << k));
        refused(double_of(UINT64_C(0x7FF0000000000000) | UINT64_C(0xFFFFFFFFFFFFF) >> k));
    }
}

static void test_powers_of_two(void)
{
    for (int e = -1022; e <= 1023; e++) {
        double r = double_of((uint64_t)(e + 1023) << 52);
        if (e < -10)
            accepted(r, 0);
        else if (e < 0)
            accepted(r, (1000 + (1 << -e >> 1) - 1 + (1000 >> -e & 1)) >> -e);
        else if (e <= 16)
            accepted(r, 1000 << e);
        else
            refused(r);
    }
}

const struct test watts_tests[] = {
    {"yb_watts: the document's figures A1 to A4", test_figures},
    {"yb_watts: zeros and less than half a watt", test_less_than_half_a_watt},
    {"yb_watts: ties and beside them", test_ties},
    {"yb_watts: ends of the range", test_range_ends},
    {"yb_watts: wide results", test_wide_results},
    {"yb_watts: infinities and NaN", test_no_number},
    {"yb_watts: a power of two at every exponent", test_powers_of_two},
    {NULL, NULL},
};
