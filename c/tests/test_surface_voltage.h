/* A complete file of one unit, a function and four steps: field by field, the fleet at 0, the unit at 9, the settings
** at 61, the function at 76 and its curve at 80; the first step, a voltage and a missing reading, at 212; the second, a
** weather, a voltage and a power, at 220; the third, a missing reading, at 271; the last, a voltage and a power, at
** 274; the end at 306.
*/
#ifndef TEST_SURFACE_VOLTAGE_H
#define TEST_SURFACE_VOLTAGE_H

#include <stddef.h>
#include <stdint.h>

enum { LED_LEN = 313 };

/* Write the file. */
void put_led(uint8_t *file);

#endif
