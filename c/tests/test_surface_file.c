/* Complete files of any fleet, with values that are drawn, files of one unit in editions 2 and 3, and files with one
** byte changed.
*/
#include <string.h>

#include "test_surface.h"
#include "test_surface_file.h"

uint64_t draw(uint64_t bound)
{
    static uint64_t state = 1;
    state = state * UINT64_C(6364136223846793005) + UINT64_C(1442695040888963407);
    uint64_t mixed = state ^ state >> 32;
    return mixed % bound;
}

/* A number from the least to the most, and each of the two one time in five. */
static uint64_t draw_between(uint64_t least, uint64_t most)
{
    switch (draw(5)) {
    case 0:
        return least;
    case 1:
        return most;
    default:
        return least + draw(most - least + 1);
    }
}

uint8_t *put(uint8_t *at, uint64_t number, int width)
{
    for (int i = width; i-- > 0; number >>= 8)
        at[i] = (uint8_t)number;
    return at + width;
}

static uint8_t *put_limits(uint8_t *at, uint32_t provide, uint32_t absorb)
{
    return put(put(at, provide, 4), absorb, 4);
}

static uint8_t *put_unit(uint8_t *at, uint8_t edition, const struct unit *unit, const struct limits *limits)
{
    at = put(at, edition == 1 ? 0x020031 : 0x020039, 3);
    at = put(at, unit->rated, 8);
    at = put(at, unit->reserve, 8);
    at = put(at, unit->stored, 8);
    at = put(at, unit->rating, 4);
    at = put(at, unit->kva, 4);
    at = put(at, unit->idle_loss, 4);
    at = put(at, (uint32_t)unit->var_request, 4);
    at = put(at, unit->weight, 2);
    at = put(at, unit->inverter, 2);
    at = put(at, unit->charge, 2);
    at = put(at, unit->discharge, 2);
    at = put(at, unit->priority, 1);
    return edition == 1 ? at : put_limits(at, limits->provide, limits->absorb);
}

static uint8_t *put_settings(uint8_t *at, const struct settings *settings)
{
    at = put(at, 0x03000C, 3);
    at = put(at, settings->mode, 1);
    at = put(at, (uint32_t)settings->target, 4);
    at = put(at, settings->band, 4);
    at = put(at, settings->factor, 2);
    return put(at, settings->phase, 1);
}

/* The ranges of a curve's x and y. */
struct ranges {
    int64_t least_x, most_x, least_y, most_y;
};

/* A curve of 2 to 16 points, whose x rise from any that leaves room for the next; the rest of the field is 0. */
static uint8_t *put_curve(uint8_t *at, struct ranges of)
{
    enum { POINTS = 16 };
    uint8_t *end = at + 132;
    memset(at, 0, 132);
    at = put(at, 0x070081, 3);
    uint64_t points = draw_between(2, POINTS);
    at = put(at, points, 1);
    int64_t x = of.least_x;
    for (uint64_t i = 0; i < points; i++) {
        x += (int64_t)draw_between(i != 0, (uint64_t)(of.most_x - x) - (points - 1 - i));
        at = put(at, (uint32_t)x, 4);
        at = put(at, (uint64_t)of.least_y + draw_between(0, (uint64_t)(of.most_y - of.least_y)), 4);
    }
    return end;
}

static uint8_t *put_inverter(uint8_t *at)
{
    uint64_t cut_in = draw_between(0, 10000);
    at = put(at, 0x060013, 3);
    at = put(at, draw_between(1, 100000000), 4);
    at = put(at, draw_between(1, 100000000), 4);
    at = put(at, cut_in, 2);
    at = put(at, draw_between(0, cut_in), 2);
    at = put(at, draw_between(0, 10000), 2);
    at = put(at, draw_between(0, 200000000) - 100000000, 4);
    at = put(at, draw(2), 1);
    at = put_curve(at, (struct ranges){-100000000, 100000000, 0, 20000});
    return put_curve(at, (struct ranges){0, 100000000, 0, 10000});
}

static uint8_t *put_function(uint8_t *at)
{
    at = put(put(at, 0x0B0001, 3), draw(2), 1);
    return put_curve(at, (struct ranges){0, 20000, -10000, 10000});
}

static uint8_t *put_connections(uint8_t *at, const struct file *file)
{
    at = put(put(at, 0x0A, 1), 3 * file->units, 2);
    for (size_t i = 0; i < file->units; i++)
        at = put(put(at, file->connection[i].phases, 1), file->connection[i].volts, 2);
    return at;
}

/* Three powers or, by current, three currents, none of which is below 0. */
static uint8_t *put_reading(uint8_t *at, uint8_t mode)
{
    enum { SECOND = 11 };
    memcpy(at, complete + 76, 27);
    if (mode >= 4) {
        at[0] = 0x09;
        at[SECOND] &= 0x7F;
    }
    return at + 27;
}

/* 1.5 kW/m2 and minus 2 degrees C. */
static uint8_t *put_weather(uint8_t *at)
{
    memcpy(at, "\x08\0\x10\x3F\xF8\0\0\0\0\0\0\xC0\0\0\0\0\0\0\0", 19);
    return at + 19;
}

void write_file(struct file *file)
{
    uint8_t *at = put(file->bytes, 0x010006, 3);
    at = put(at, file->edition, 1);
    at = put(at, file->units, 1);
    at = put(at, file->seconds, 4);
    for (size_t i = 0; i < file->units; i++)
        at = put_unit(at, file->edition, &file->unit[i], &file->limits[i]);
    at = put_settings(at, &file->settings);
    if (file->is_connected)
        at = put_connections(at, file);
    for (size_t i = 0; i < file->inverters; i++)
        at = put_inverter(at);
    if (file->is_led)
        at = put_function(at);
    at = put_reading(at, file->settings.mode);
    if (file->inverters != 0)
        at = put_weather(at);
    if (file->is_led)
        at = put(put(at, 0x0C0002, 3), draw_between(0, 20000), 2);
    memcpy(at, complete + 76 + 27, 3);
    at = put(at + 3, 0x7F0004, 3);
    at = put(at, 2, 4);
    file->len = (size_t)(at - file->bytes);
}

/* The kVA rating holds the idle draw, which is the idle loss by the efficiency, rounded up. */
static struct unit draw_unit(void)
{
    struct unit unit = {
        .rated = draw_between(1, UINT64_C(10000000000000)),
        .rating = (uint32_t)draw_between(1, 100000000),
        .idle_loss = (uint32_t)draw_between(0, 10000000),
        .var_request = (int32_t)draw_between(0, 200000000) - 100000000,
        .weight = (uint16_t)draw_between(1, 10000),
        .inverter = (uint16_t)draw_between(1000, 10000),
        .charge = (uint16_t)draw_between(1000, 10000),
        .discharge = (uint16_t)draw_between(1000, 10000),
        .priority = (uint8_t)draw(2),
    };
    uint64_t idle_draw = (UINT64_C(10000) * unit.idle_loss + unit.inverter - 1) / unit.inverter;
    unit.reserve = draw_between(0, unit.rated);
    unit.stored = draw_between(0, unit.rated);
    unit.kva = (uint32_t)draw_between(idle_draw == 0 ? 1 : idle_draw, 100000000);
    return unit;
}

void draw_file(struct file *file, size_t units)
{
    file->edition = 1;
    file->units = units;
    file->inverters = 0;
    file->is_led = file->is_connected = 0;
    file->seconds = (uint32_t)draw_between(1, 86400);
    for (size_t i = 0; i < units; i++) {
        file->unit[i] = draw_unit();
        file->limits[i].provide = (uint32_t)draw_between(0, file->unit[i].kva);
        file->limits[i].absorb = (uint32_t)draw_between(0, file->unit[i].kva);
    }
    file->settings = (struct settings){
        .mode = (uint8_t)(1 + draw(3)),
        .target = (int32_t)draw_between(0, 200000000) - 100000000,
        .band = (uint32_t)draw_between(0, 200000000),
        .factor = (uint16_t)draw_between(1, 1000),
        .phase = (uint8_t)draw(6),
    };
    write_file(file);
}

void connect_file(struct file *file, uint8_t mode)
{
    file->is_connected = 1;
    file->settings.mode = mode;
    for (size_t i = 0; i < file->units; i++) {
        file->connection[i].phases = draw(2) == 0 ? 1 : 3;
        file->connection[i].volts = (uint16_t)draw_between(1, 40000);
    }
    write_file(file);
}

void set_edition(struct file *file, uint8_t edition)
{
    file->edition = edition;
    write_file(file);
}

size_t put_limited(uint8_t *to, uint8_t edition, const uint8_t *file, size_t len, uint32_t provide, uint32_t absorb)
{
    enum { EDITION = 3, LENGTH = 11, UNIT_END = 61 };
    memcpy(to, file, UNIT_END);
    to[EDITION] = edition;
    to[LENGTH] += MORE;
    memcpy(put_limits(to + UNIT_END, provide, absorb), file + UNIT_END, len - UNIT_END);
    return len + MORE;
}

void check_changes(const uint8_t *file, size_t len, const struct change *changes, size_t count)
{
    uint8_t changed[MOST_FILE];
    for (size_t i = 0; i < count; i++) {
        memcpy(changed, file, len);
        changed[changes[i].at] = changes[i].byte;
        check_file(changed, len, changes[i].number, changes[i].place, changes[i].steps);
    }
}
