/* Complete files of any fleet, for the calls that say what a file holds, files of one unit in editions 2 and 3, and
** files with one byte changed.
*/
#ifndef TEST_SURFACE_FILE_H
#define TEST_SURFACE_FILE_H

#include <stddef.h>
#include <stdint.h>

enum { MOST_UNITS = 64, MOST_INVERTERS = 64, MOST_HEAD = 9 + 63 * MOST_UNITS + 18 + 286 * MOST_INVERTERS + 136 };
enum { MOST_FILE = MOST_HEAD + 27 + 19 + 5 + 3 + 7 };

/* The values of a unit, its var limits, its connection and the settings, in the order of the calls. */
struct unit {
    uint64_t rated, reserve, stored;
    uint32_t rating, kva, idle_loss;
    int32_t var_request;
    uint16_t weight, inverter, charge, discharge;
    uint8_t priority;
};

struct limits {
    uint32_t provide, absorb;
};

struct connection {
    uint8_t phases;
    uint16_t volts;
};

struct settings {
    uint8_t mode;
    int32_t target;
    uint32_t band;
    uint16_t factor;
    uint8_t phase;
};

/* What a file says, and its bytes: a head, a reading, a missing one with weather, and the end. Of the inverters, whose
** values no call tells, there is only the number, and of a function only whether there is one; the missing reading then
** has a voltage too. The limits do not stand in the bytes of an edition 1 file, and the connections not in those of one
** that is not connected; one by current, of mode 4 or 5, must be.
*/
struct file {
    uint8_t edition;
    size_t units, inverters;
    int is_led;
    uint32_t seconds;
    struct unit unit[MOST_UNITS];
    struct limits limits[MOST_UNITS];
    int is_connected;
    struct connection connection[MOST_UNITS];
    struct settings settings;
    uint8_t bytes[MOST_FILE];
    size_t len;
};

/* Put a number of so many bytes, the highest first. Gives the place behind it. */
uint8_t *put(uint8_t *at, uint64_t number, int width);

/* Write the bytes that say the rest. The values of the inverters and of a function are drawn. */
void write_file(struct file *file);

/* Draw a complete file of edition 1 of so many units, without inverters, weather and function, which is complete in
** every edition. Each value is at its least or its most now and then, and else anything between.
*/
void draw_file(struct file *file, size_t units);

/* The same with connections, which are drawn, and in a mode. */
void connect_file(struct file *file, uint8_t mode);

/* The same in another edition: the bytes are written anew. */
void set_edition(struct file *file, uint8_t edition);

/* Write a file of edition 1, whose fleet has one unit, anew in edition 2 or 3, with these limits of the unit. Gives its
** length, which is MORE bytes more: the fields behind the unit are so much further.
*/
enum { MORE = 8 };
size_t put_limited(uint8_t *to, uint8_t edition, const uint8_t *file, size_t len, uint32_t provide, uint32_t absorb);

/* A byte of a file that is changed, and the check's number, place and steps then. */
struct change {
    size_t at;
    uint8_t byte;
    uint32_t number;
    uint64_t place;
    uint32_t steps;
};

/* Check a file, of at most MOST_FILE bytes, with each of the changes alone. */
void check_changes(const uint8_t *file, size_t len, const struct change *changes, size_t count);

/* A number below a bound, the next of a row that is the same in every run. */
uint64_t draw(uint64_t bound);

#endif
