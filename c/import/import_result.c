/* The records of a run: what they say. */
#include <inttypes.h>
#include <string.h>

#include "import_result.h"
#include "yesbrulka.h"

size_t step_bytes(unsigned units, unsigned inverters)
{
    return (size_t)RECORD_BYTES * units + (size_t)SOLAR_BYTES * inverters;
}

int32_t signed_at(const uint8_t *bytes)
{
    uint32_t number = (uint32_t)number_at(bytes, 4);
    return number <= INT32_MAX ? (int32_t)number : -(int32_t)(UINT32_MAX - number) - 1;
}

static double double_at(const uint8_t *bytes)
{
    uint64_t bits = number_at(bytes, 8);
    double number;
    memcpy(&number, &bits, sizeof number);
    return number;
}

static const uint8_t *unit_bytes(const struct run *run, uint32_t step, unsigned unit)
{
    return run->bytes + step_bytes(run->units, run->inverters) * (step - run->first) + (size_t)RECORD_BYTES * unit;
}

static const uint8_t *inverter_bytes(const struct run *run, uint32_t step, unsigned inverter)
{
    return unit_bytes(run, step, run->units) + (size_t)SOLAR_BYTES * inverter;
}

/* The kW are watts divided by one thousand and rounded once; the conversion of readings gives the watts back. In the
** older model a unit draws its idle loss beside what it takes, which together can be more than a reading may be. Of
** such a draw the conversion gets what is beyond, a difference without rounding, for neither is twice the other. Gives
** 0 where the kW cannot be shown.
*/
static int watts_at(int32_t *watts, const uint8_t *kw)
{
    enum { MOST_KW = YB_MOST_POWER / 1000 };
    double number = double_at(kw);
    int is_beyond = number < -MOST_KW;
    if (yb_watts(is_beyond ? number + MOST_KW : number, watts) != 0)
        return 0;
    *watts -= is_beyond ? YB_MOST_POWER : 0;
    return *watts >= -(YB_MOST_POWER + YB_MOST_IDLE_LOSS);
}

/* Whether every power of a step can be shown, and no inverter gives more than its array. */
static int has_powers(const struct run *run, uint32_t step)
{
    int32_t watts;
    for (unsigned unit = 0; unit < run->units; unit++)
        if (!watts_at(&watts, unit_bytes(run, step, unit) + RECORD_KW))
            return 0;
    for (unsigned i = 0; i < run->inverters; i++) {
        const uint8_t *at = inverter_bytes(run, step, i);
        if (!watts_at(&watts, at + SOLAR_KW))
            return 0;
        if (watts < 0 || (uint64_t)watts > number_at(at + SOLAR_DC, 8))
            return 0;
    }
    return 1;
}

void see_powers(void *to, const struct run *run)
{
    int *is_showable = to;
    for (uint32_t step = run->first; step < run->first + run->steps && *is_showable; step++)
        *is_showable = has_powers(run, step);
}

struct record record_at(const struct run *run, uint32_t step, unsigned unit)
{
    const uint8_t *at = unit_bytes(run, step, unit);
    struct record record = {
        .request = signed_at(at + RECORD_REQUEST),
        .vars = signed_at(at + RECORD_VARS),
        .stored = number_at(at + RECORD_STORED, 8),
        .loss = number_at(at + RECORD_LOSS, 8),
    };
    watts_at(&record.watts, at + RECORD_KW);
    return record;
}

struct solar solar_at(const struct run *run, uint32_t step, unsigned inverter)
{
    const uint8_t *at = inverter_bytes(run, step, inverter);
    struct solar solar = {
        .on = at[SOLAR_ON],
        .vars = signed_at(at + SOLAR_VARS),
        .dc = number_at(at + SOLAR_DC, 8),
    };
    watts_at(&solar.watts, at + SOLAR_KW);
    return solar;
}

void kw_text(char *text, int64_t watts)
{
    int64_t size = watts < 0 ? -watts : watts;
    snprintf(text, KW_TEXT, "%s%" PRId64 ".%03d", watts < 0 ? "-" : "", size / 1000, (int)(size % 1000));
}

/* A power of a run has just the bits of its watts divided by one thousand. */
void power_text(char *text, const uint8_t *kw)
{
    int32_t watts = 0;
    double number = double_at(kw), whole = watts_at(&watts, kw) ? watts / 1000.0 : 0;
    if (memcmp(&whole, &number, sizeof whole) == 0)
        kw_text(text, watts);
    else if (number != number)
        strcpy(text, "no number");
    else
        snprintf(text, KW_TEXT, "%.17g", number);
}
