/* The files that the bench times, all made here.
**
** Those of the check have 64 units. With 65,535 steps of 27 bytes such a file has 1,772,804 bytes and is the largest
** complete one without weather. Others have a weather and a voltage in each step, or missing readings alone.
**
** Those of the run have a year of hours. Each reading changes the requests, but for some within the band and for one in
** fifty that is missing; units of all kinds are among them, and part of them are empty or full before the year is over.
** Inverters, with curves of 4 and of 16 points, stand in a sun that brings them on and off every day; the weather of
** one hour in forty is missing, and where a function leads the vars, the voltage of one in thirty.
*/
#include <string.h>

#include "bench.h"

#define HOUR 3600

uint8_t file[YB_MOST_FILE_BYTES];
size_t file_len;

size_t step_bytes(struct season season)
{
    return RECORD * (size_t)season.units + SOLAR * (size_t)season.inverters;
}

size_t result_bytes(struct season season)
{
    return step_bytes(season) * season.steps + 7;
}

/* The low bytes of a number, the highest first, after what the file has already. */
static void put(uint64_t n, int width)
{
    while (width-- > 0)
        file[file_len++] = (uint8_t)(n >> 8 * width);
}

static void put_head(uint8_t tag, uint16_t length)
{
    put(tag, 1);
    put(length, 2);
}

/* Edition 1, the units, and the steps' length. */
static void put_fleet(int units, uint32_t seconds)
{
    put_head(0x01, 6);
    put(1, 1);
    put((uint64_t)units, 1);
    put(seconds, 4);
}

/* A unit of 20 kWh, half full. */
static void put_unit(void)
{
    put_head(0x02, 49);
    put(72000000, 8); /* rated, reserve and stored energy */
    put(7200000, 8);
    put(36000000, 8);
    put(10000, 4); /* rating, kVA, idle loss, var request */
    put(12000, 4);
    put(30, 4);
    put(0, 4);
    put(100, 2); /* weight */
    put(9700, 2); /* efficiencies: inverter, charge, discharge */
    put(9800, 2);
    put(9800, 2);
    put(0, 1); /* priority */
}

/* The sum of the phases is the measure. */
static void put_settings(int mode, uint32_t target, uint32_t band, uint32_t factor)
{
    put_head(0x03, 12);
    put((uint64_t)mode, 1);
    put(target, 4);
    put(band, 4);
    put(factor, 2);
    put(0, 1);
}

/* A number below n; always the same row of them. */
static uint32_t draw(uint64_t *state, uint32_t n)
{
    *state = *state * 6364136223846793005u + 1442695040888963407u;
    return (uint32_t)((*state >> 33) % n);
}

/* A number of thousandths as a meter sends it, as a double: watts in kW, mA in A. */
static void put_thousandths(int32_t n)
{
    double whole = n / 1000.0;
    uint64_t bits;
    memcpy(&bits, &whole, sizeof bits);
    put(bits, 8);
}

/* A curve whose x and y change by the same from each point to the next. */
static void put_curve(int points, int32_t x, int32_t x_step, int32_t y, int32_t y_step)
{
    put_head(0x07, 129);
    put((uint64_t)points, 1);
    for (int point = 0; point < 16; point++) {
        int there = point < points;
        put(there ? (uint32_t)(x + point * x_step) : 0, 4);
        put(there ? (uint32_t)(y + point * y_step) : 0, 4);
    }
}

/* A function of a base, with its volt-var curve: vars provided where the voltage is low, absorbed where it is high. */
static void put_function(int base)
{
    put_head(0x0B, 1);
    put((uint64_t)base, 1);
    put_curve(8, 9200, 200, 4900, -1400);
}

static void put_voltage(uint32_t voltage)
{
    put_head(0x0C, 2);
    put(voltage, 2);
}

static void put_weather(int32_t irradiance, int32_t temperature)
{
    put_head(0x08, 16);
    put_thousandths(irradiance);
    put_thousandths(temperature);
}

static void put_missing(void)
{
    put_head(0x05, 0);
}

/* Up to 100 kW either way on each phase. */
static void put_power(uint64_t *state)
{
    put_head(0x04, 24);
    for (int phase = 0; phase < 3; phase++)
        put_thousandths((int32_t)draw(state, 200001) - 100000);
}

static void put_end(uint32_t steps)
{
    put_head(0x7F, 4);
    put(steps, 4);
}

struct answer make_complete(enum kind kind, uint32_t steps)
{
    uint64_t state = 1;
    file_len = 0;
    put_fleet(YB_MOST_UNITS, 60);
    for (int unit = 0; unit < YB_MOST_UNITS; unit++)
        put_unit();
    put_settings(1, 50000, 1000, 500);
    if (kind == ALL_FIELDS)
        put_function(0);
    for (uint32_t step = 0; step < steps; step++) {
        if (kind == ALL_FIELDS) {
            put_weather((int32_t)draw(&state, 1000), (int32_t)draw(&state, 40000));
            put_voltage(9200 + draw(&state, 1600));
        }
        if (kind == MISSING)
            put_missing();
        else
            put_power(&state);
    }
    put_end(steps);
    return (struct answer){0, steps, file_len};
}

struct answer make_overlong(void)
{
    struct answer right = make_complete(POWERS, YB_MOST_STEPS);
    right.number = YB_AFTER_END;
    while (file_len < YB_MOST_FILE_BYTES)
        put(0xFF, 1);
    return right;
}

/* Unit i of a season's fleet: no two neighbours are alike in power, losses, vars or priority. The energies are those of
** many weeks, since no mode brings back what another moved; the smallest store is empty or full in the spring. Where
** vars come first, they leave a fifth of the circle's radius to the watts.
*/
static void put_season_unit(int i, struct season season)
{
    int charging = season.mode == 3;
    uint64_t rated = (charging ? 4000000000u : 9000000000u) * (uint64_t)(4 - i % 4) + 1000000000u * (uint64_t)(i % 7);
    uint32_t rating = 8000 + 500 * (uint32_t)(i % 5);
    uint32_t kva = rating + rating / 10;
    /* None, some, or so many that the circle cuts them. */
    int32_t vars = i % 3 == 0 ? 0 : i % 3 == 1 ? (int32_t)kva / 3 : -(int32_t)kva * 9 / 10;
    if (season.vars_first)
        vars = (int32_t)kva * 98 / 100;
    if (season.deep)
        rated = YB_MOST_RATED;
    put_head(0x02, 49);
    put(rated, 8); /* rated, reserve and stored energy */
    put(rated / 10, 8);
    put(charging ? rated / 10 : rated, 8);
    put(rating, 4); /* rating, kVA, idle loss, var request */
    put(kva, 4);
    put(20 + 10 * (uint64_t)(i % 6), 4);
    put((uint32_t)vars, 4);
    put(40 + 10 * (uint64_t)(i % 7), 2); /* weight */
    put(9400 + 100 * (uint64_t)(i % 5), 2); /* efficiencies: inverter, charge, discharge */
    put(9500 + 100 * (uint64_t)(i % 4), 2);
    put(9500 + 100 * (uint64_t)(i % 3), 2);
    put(season.vars_first || i % 4 == 2, 1); /* priority */
}

/* Each third unit is on three phases. */
static void put_connections(int units)
{
    put_head(0x0A, (uint16_t)(3 * units));
    for (int i = 0; i < units; i++) {
        put(i % 3 == 2 ? 3 : 1, 1);
        put(228 + (uint64_t)(i % 5), 2);
    }
}

/* Inverter i of a season's site: no two neighbours are alike in power, limit, vars, priority or curves. */
static void put_season_inverter(int i)
{
    uint32_t array = 9000 + 700 * (uint32_t)(i % 5);
    uint32_t kva = array * (uint32_t)(80 + 5 * (i % 6)) / 100;
    /* None, some, or so many that the circle cuts them. */
    int32_t vars = i % 3 == 0 ? 0 : i % 3 == 1 ? (int32_t)kva / 3 : -(int32_t)kva * 9 / 10;
    put_head(0x06, 19);
    put(array, 4); /* array power, kVA */
    put(kva, 4);
    put(150 + 50 * (uint64_t)(i % 4), 2); /* cut-in, cut-out, limit */
    put(100, 2);
    put(i % 4 == 3 ? 7000 : 10000, 2);
    put((uint32_t)vars, 4); /* var request, priority */
    put(i % 4 == 2, 1);
    if (i % 2 == 0) {
        put_curve(4, 0, 30000, 11000, -1200);
        put_curve(4, 100, 300, 8600, 350);
    } else {
        put_curve(16, -15000, 6000, 11600, -240);
        put_curve(16, 20, 70, 8000, 110);
    }
}

/* The sun at an hour, in W/m2 less what clouds take, and the panels' temperature. */
static void put_hours_weather(uint32_t step, uint64_t *state)
{
    static const int32_t sun[24] = {0, 0, 0, 0, 0, 20, 110, 250, 430, 610, 770, 890, 950, 940, 870, 740, 570, 380, 190,
        50, 5, 0, 0, 0};
    if (draw(state, 40) == 0)
        return;
    int32_t watts = sun[step % 24] * (int32_t)(30 + draw(state, 71)) / 100;
    put_weather(watts, 8000 + 40 * watts + (int32_t)draw(state, 9001));
}

static void put_hours_voltage(uint64_t *state)
{
    if (draw(state, 30) != 0)
        put_voltage(9300 + draw(state, 1401));
}

/* What a farm draws at an hour, in watts for each unit of the fleet, and anything up to a kW less or more; by current
** in the mA of that at 230 V.
*/
static void put_hour(uint32_t step, struct season season, uint64_t *state)
{
    static const int32_t curve[24] = {2100, 1900, 1800, 1900, 2600, 5200, 7400, 6800, 5300, 4100, 3600, 3300, 3500,
        3400, 3600, 4200, 5600, 7300, 7600, 6100, 4600, 3700, 2900, 2400};
    if (draw(state, 50) == 0) {
        put_missing();
        return;
    }
    int32_t watts = season.units * (curve[step % 24] + (int32_t)draw(state, 2001) - 1000);
    int32_t all = season.mode == 4 ? watts * 100 / 23 : watts;
    put_head(season.mode == 4 ? 0x09 : 0x04, 24);
    put_thousandths(all * 2 / 5);
    put_thousandths(all / 3);
    put_thousandths(all - all * 2 / 5 - all / 3);
}

/* By current, target and band are the mA of those in watts, at 230 V. */
static uint32_t by_mode(int mode, uint32_t watts)
{
    return mode == 4 ? watts * 100 / 23 : watts;
}

uint32_t season_target(struct season season)
{
    return by_mode(season.mode, (season.mode == 3 ? 3200 : 4800) * (uint32_t)season.units);
}

static void put_season_settings(struct season season)
{
    put_settings(season.mode, season_target(season), by_mode(season.mode, 300 * (uint32_t)season.units), 400);
}

void make_season(struct season season)
{
    uint64_t state = 2, sky = 3, grid = 4;
    file_len = 0;
    put_fleet(season.units, HOUR);
    for (int i = 0; i < season.units; i++)
        put_season_unit(i, season);
    put_season_settings(season);
    if (season.mode == 4)
        put_connections(season.units);
    for (int i = 0; i < season.inverters; i++)
        put_season_inverter(i);
    if (season.lead != NOTHING)
        put_function(season.lead == BY_WHAT_WATTS_LEAVE);
    for (uint32_t step = 0; step < season.steps; step++) {
        if (season.inverters != 0)
            put_hours_weather(step, &sky);
        if (season.lead != NOTHING)
            put_hours_voltage(&grid);
        put_hour(step, season, &state);
    }
    put_end(season.steps);
}
