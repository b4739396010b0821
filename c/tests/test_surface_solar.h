/* One step of an inverter, as it is lent to yb_solar. */
#ifndef TEST_SURFACE_SOLAR_H
#define TEST_SURFACE_SOLAR_H

#include <stddef.h>
#include <stdint.h>

/* The lists of an inverter's curves, in the order of the call, with room for more points than a curve has. */
enum { WARM_X, WARM_Y, EFF_X, EFF_Y, CURVE_LISTS, POINTS = 18 };

/* An inverter, its weather and whether it was on, in the order of the call. */
struct solar {
    uint32_t array, kva;
    uint16_t cut_in, cut_out, limit;
    int32_t var_request;
    uint8_t priority;
    int32_t list[CURVE_LISTS][POINTS];
    size_t length[CURVE_LISTS];
    double irradiance, temperature;
    uint8_t on;
};

/* An inverter whose watts are its DC power, 10 W for each thousandth of irradiance, and which is on above 200 W and off
** below 100.
*/
extern const struct solar plain_solar;

/* One step, made twice over different memory: the number, what it stores, the words around it, and the lists, of which
** one may be lent from other memory.
*/
void check_lent(const struct solar *s, int other, const int32_t *lent, uint32_t number, uint8_t on, int32_t watts,
    int32_t vars, uint64_t dc);

/* The same with all lists as they are: accepted; refused; and refused with 5 whatever the weather. */
void check_solar(const struct solar *s, uint8_t on, int32_t watts, int32_t vars, uint64_t dc);
void refused_solar(const struct solar *s, uint32_t number);
void out_of_range(const struct solar *s);

#endif
