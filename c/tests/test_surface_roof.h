/* A complete file of one unit, one inverter and four steps: field by field, the fleet at 0, the unit at 9, the settings
** at 61, the inverter at 76 and its curves at 98 and 230; the first three steps with weather, at 362, 384 and 430, and
** the last without, at 452; the end at 455.
*/
#ifndef TEST_SURFACE_ROOF_H
#define TEST_SURFACE_ROOF_H

#include <stddef.h>
#include <stdint.h>

enum { ROOF_LEN = 462 };

/* Write the file. */
void put_roof(uint8_t *file);

#endif
