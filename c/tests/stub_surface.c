/* A stand-in for the library, for the one test that builds the import tool with the compiler's sanitizers for
** the machine itself, where the archive may be code of another machine. It checks nothing.
**
** A file that begins like a run file is complete, with the units that its fleet says, with a step for each field of
** the tags 04 and 05, and with as many inverters as the highest byte of its seconds says, which is no part of the
** seconds here; its units are all alike, and its run is a row of numbers. Steps of 0 to 14 seconds are for answers that
** the library never gives: such a step itself, a room of another size, a run that is refused, a power that is none,
** settings that are refused, a last unit that is refused, an inverter's power that is none, one above that of its
** array, var limits of the last unit that are refused, a draw that is larger than that of any unit, a room larger than
** any, more bytes written than there is room for, a place beyond what was fed, an end of eight bytes, and a connection
** of the first unit alone.
**
** Any other file is read as seven decimal numbers with blanks between them, and these are the answers, in this
** order: the refusal's number, place and steps, the start and the length of the value part, the units, and the
** inverters. A number that is not there is 0.
**
** Where the variable CANNED_CHECK is set it has number, place and steps of each file that is fed, in turn, in decimal
** numbers with blanks between them; a number of 0 is for an answer as above. A rescue gives a file back as it is, or
** where the variable CANNED_RESCUE is set answers with its numbers: the refusal's, or 0, the room, how many changes,
** the steps, and for each change place, kind and bytes dropped. What it writes is then the file with these changes, as
** far as there are room and bytes. With CANNED_SPOILED set, the byte at that place of what it writes is another.
**
** A result is compared with the row of numbers, or where the variable CANNED_PARTNER is set the answers are its
** numbers: the refusal's, or 0, the verdict, the start and the length of what is shown.
**
** The figures of a season have its steps, a smallest measure of -5 and a largest one of 1,000, and else 0, or where the
** variable CANNED_PEAKS is set they are its numbers, the refusal's or 0 before them. A stick of one step, as a table
** asks for its measures, goes by CANNED_MEASURE.
*/
#include <stdlib.h>
#include <string.h>

#include "yesbrulka.h"

static uint64_t canned(const uint8_t *file, size_t file_len, int which)
{
    uint64_t number = 0;
    for (size_t at = 0; at < file_len && which >= 0; at++)
        if (file[at] >= '0' && file[at] <= '9')
            number = which == 0 ? 10 * number + (file[at] - '0') : 0;
        else
            which--;
    return number;
}

static uint32_t number_at(const uint8_t *bytes)
{
    return (uint32_t)bytes[0] << 24 | (uint32_t)bytes[1] << 16 | (uint32_t)bytes[2] << 8 | bytes[3];
}

/* A number of the row in a variable, counted from 0. */
static uint64_t told(const char *variable, uint64_t which)
{
    const char *row = getenv(variable);
    uint64_t number = 0;
    if (row == NULL)
        return 0;
    for (uint64_t i = 0; i <= which && *row != '\0'; i++) {
        char *rest;
        number = strtoull(row, &rest, 10);
        if (i == which)
            return number;
        row = rest;
    }
    return 0;
}

static int is_stick(const uint8_t *file, size_t file_len)
{
    return file_len >= 9 && file[0] == 0x01;
}

uint64_t yb_value_start(const uint8_t *file, size_t file_len, uint64_t place)
{
    (void)place;
    return is_stick(file, file_len) ? file_len : canned(file, file_len, 3);
}

uint64_t yb_value_len(const uint8_t *file, size_t file_len, uint64_t place)
{
    (void)place;
    return is_stick(file, file_len) ? 0 : canned(file, file_len, 4);
}

uint32_t yb_units(const uint8_t *file, size_t file_len)
{
    return is_stick(file, file_len) ? file[4] : (uint32_t)canned(file, file_len, 5);
}

uint32_t yb_inverters(const uint8_t *file, size_t file_len)
{
    return is_stick(file, file_len) ? file[5] : (uint32_t)canned(file, file_len, 6);
}

uint32_t yb_seconds(const uint8_t *file, size_t file_len)
{
    return is_stick(file, file_len) ? number_at(file + 5) & 0xFFFFFF : 0;
}

uint32_t yb_settings(const uint8_t *file, size_t file_len, uint8_t *mode, int32_t *target, uint32_t *band,
    uint16_t *factor, uint8_t *phase)
{
    if (yb_seconds(file, file_len) == 4)
        return 5;
    *mode = 255;
    *target = -1;
    *band = 2;
    *factor = 3;
    *phase = 4;
    return 0;
}

uint32_t yb_unit(const uint8_t *file, size_t file_len, uint32_t unit, uint64_t *rated, uint64_t *reserve,
    uint64_t *stored, uint32_t *rating, uint32_t *kva, uint32_t *idle_loss, int32_t *var_request, uint16_t *weight,
    uint16_t *inverter, uint16_t *charge, uint16_t *discharge, uint8_t *priority)
{
    if (unit + (yb_seconds(file, file_len) == 5) >= yb_units(file, file_len))
        return 10;
    *rated = *reserve = *stored = 1;
    *rating = *kva = *idle_loss = 2;
    *var_request = -3;
    *weight = *inverter = *charge = *discharge = 4;
    *priority = 0;
    return 0;
}

uint32_t yb_var_limits(const uint8_t *file, size_t file_len, uint32_t unit, uint32_t *provide, uint32_t *absorb)
{
    if (unit + (yb_seconds(file, file_len) == 8) >= yb_units(file, file_len))
        return 10;
    *provide = 1;
    *absorb = 0;
    return 0;
}

uint32_t yb_connection(const uint8_t *file, size_t file_len, uint32_t unit, uint8_t *phases, uint16_t *volts)
{
    if (unit >= yb_units(file, file_len))
        return 10;
    if (unit != 0 && yb_seconds(file, file_len) == 14)
        return 10;
    *phases = 1;
    *volts = 230;
    return 0;
}

/* What a unit's record and an inverter's begin with: tag, length, step and number. All other bytes are the step's
** number.
*/
static void put_record(uint8_t *room, uint8_t tag, uint8_t bytes, uint32_t step, uint32_t number)
{
    memset(room, (int)(step & 0x7F), bytes);
    room[0] = tag;
    room[1] = 0;
    room[2] = (uint8_t)(bytes - 3);
    room[3] = room[4] = 0;
    room[5] = (uint8_t)(step >> 8);
    room[6] = (uint8_t)step;
    room[7] = (uint8_t)number;
}

/* The last is -110,000.001 kW. */
static const char one_kw[] = "\x3F\xF0\0\0\0\0\0", no_kw[] = "\x7F\xF8\0\0\0\0\0";
static const char low_kw[] = "\xC0\xFA\xDB\x00\x04\x18\x93\x75";

static const char *unit_kw(uint32_t seconds)
{
    return seconds == 3 ? no_kw : seconds == 9 ? low_kw : one_kw;
}

/* Records whose kW are 1, and whose energies begin with 0. An inverter is on in every second step, and its array has
** more power than it gives. Gives what is behind the step's.
*/
static uint8_t *put_step(uint8_t *room, uint32_t seconds, uint32_t units, uint32_t inverters, uint32_t step)
{
    for (uint32_t unit = 0; unit < units; unit++, room += 40) {
        put_record(room, 0x11, 40, step, unit);
        memcpy(room + 12, unit_kw(seconds), 8);
        memset(room + 24, 0, 3);
        memset(room + 32, 0, 3);
    }
    for (uint32_t inverter = 0; inverter < inverters; inverter++, room += 29) {
        put_record(room, 0x12, 29, step, inverter);
        room[8] = step % 2;
        memcpy(room + 9, seconds == 6 ? no_kw : one_kw, 8);
        memcpy(room + 21, "\0\0\0\1", 4);
        if (seconds == 7)
            memcpy(room + 21, "\0\0\0\0\0\0\x03\xE7", 8);
    }
    return room;
}

/* The steps among so many bytes. */
static uint32_t steps_in(const uint8_t *file, size_t len)
{
    uint32_t steps = 0;
    size_t field;
    for (size_t at = 0; len - at >= 3; at += field) {
        field = 3 + ((size_t)file[at + 1] << 8 | file[at + 2]);
        if (len - at < field)
            break;
        steps += file[at] == 0x04 || file[at] == 0x05;
    }
    return steps;
}

/* What was fed is all here, and the state is not looked at; how many files were fed before it. */
static uint8_t fed[4 << 20];
static size_t fed_len, fed_before;
static int is_fed;

static uint32_t fed_steps(size_t len)
{
    return steps_in(fed, len);
}

/* Number, place or steps of the file that is fed. */
static uint64_t checked(int which)
{
    return told("CANNED_CHECK", 3 * fed_before + (uint64_t)which);
}

uint64_t yb_feed_size(void)
{
    return 1;
}

uint32_t yb_feed_start(uint8_t *state, size_t state_len)
{
    (void)state, (void)state_len;
    fed_before += is_fed;
    is_fed = 1;
    fed_len = 0;
    return 0;
}

/* A chunk may be looked at before it is fed. */
uint64_t yb_feed_room(const uint8_t *state, size_t state_len, const uint8_t *chunk, size_t chunk_len)
{
    (void)state, (void)state_len;
    memcpy(fed + fed_len, chunk, chunk_len);
    if (!is_stick(fed, fed_len + chunk_len))
        return 0;
    uint32_t seconds = yb_seconds(fed, fed_len + chunk_len);
    uint64_t step = UINT64_C(40) * fed[4] + UINT64_C(29) * fed[5];
    uint64_t room = step * (fed_steps(fed_len + chunk_len) - fed_steps(fed_len));
    return seconds == 10 ? UINT64_C(1) << 62 : seconds == 1 ? room + 1 : room;
}

uint32_t yb_feed(uint8_t *state, size_t state_len, const uint8_t *chunk, size_t chunk_len, uint8_t *room,
    size_t room_len, uint64_t *written)
{
    uint8_t *end = room;
    (void)state, (void)state_len;
    memcpy(fed + fed_len, chunk, chunk_len);
    uint32_t step = fed_steps(fed_len), steps = fed_steps(fed_len + chunk_len);
    fed_len += chunk_len;
    if (checked(0) != 0)
        return (uint32_t)checked(0);
    if (!is_stick(fed, fed_len))
        return (uint32_t)canned(fed, fed_len, 0);
    uint32_t seconds = yb_seconds(fed, fed_len);
    if (seconds == 2)
        return 11;
    for (; step < steps; step++)
        end = put_step(end, seconds, fed[4], fed[5], step);
    *written = seconds == 11 ? (uint64_t)room_len + 1 : (uint64_t)(end - room);
    return 0;
}

uint32_t yb_feed_end(uint8_t *state, size_t state_len, uint8_t *room, size_t room_len, uint64_t *written)
{
    uint32_t steps = yb_feed_steps(state, state_len);
    (void)room_len;
    memcpy(room, "\x1F\0\4\0\0", 5);
    room[5] = (uint8_t)(steps >> 8);
    room[6] = (uint8_t)steps;
    *written = is_stick(fed, fed_len) && yb_seconds(fed, fed_len) == 13 ? 8 : 7;
    return 0;
}

uint64_t yb_feed_place(const uint8_t *state, size_t state_len)
{
    (void)state, (void)state_len;
    if (checked(0) != 0)
        return checked(1);
    if (!is_stick(fed, fed_len))
        return canned(fed, fed_len, 1);
    return fed_len + (yb_seconds(fed, fed_len) == 12);
}

uint32_t yb_feed_steps(const uint8_t *state, size_t state_len)
{
    (void)state, (void)state_len;
    if (checked(0) != 0)
        return (uint32_t)checked(2);
    return is_stick(fed, fed_len) ? fed_steps(fed_len) : (uint32_t)canned(fed, fed_len, 2);
}

/* A rescue's answers. */
static const char rescue[] = "CANNED_RESCUE";

uint64_t yb_rescue_room(const uint8_t *file, size_t file_len)
{
    (void)file;
    return getenv(rescue) == NULL ? file_len : told(rescue, 1);
}

uint64_t yb_rescue_changes(const uint8_t *file, size_t file_len)
{
    (void)file, (void)file_len;
    return told(rescue, 2);
}

uint32_t yb_rescue_steps(const uint8_t *file, size_t file_len)
{
    return getenv(rescue) == NULL ? steps_in(file, file_len) : (uint32_t)told(rescue, 3);
}

/* A room, and how much of it is written. */
struct room {
    uint8_t *at;
    size_t len, used;
};

static void put_bytes(struct room *room, const uint8_t *bytes, size_t len)
{
    len = len < room->len - room->used ? len : room->len - room->used;
    if (len != 0)
        memcpy(room->at + room->used, bytes, len);
    room->used += len;
}

static void put_number(struct room *room, uint64_t number, int width)
{
    while (width-- > 0)
        put_bytes(room, (const uint8_t[]){(uint8_t)(number >> 8 * width)}, 1);
}

/* The file up to a place, if there is one that is not behind it. */
static size_t put_up_to(struct room *out, const uint8_t *file, size_t file_len, size_t from, uint64_t place)
{
    size_t to = place < from ? from : place > file_len ? file_len : (size_t)place;
    put_bytes(out, file + from, to - from);
    return to;
}

uint32_t yb_rescue(const uint8_t *file, size_t file_len, uint8_t *out, size_t out_len, uint8_t *list, size_t list_len)
{
    struct room kept = {out, out_len, 0}, changes = {list, list_len, 0};
    size_t from = 0;
    if (told(rescue, 0) != 0)
        return (uint32_t)told(rescue, 0);
    /* All that is lent can be written. */
    if (out_len != 0)
        memset(out, 0, out_len);
    if (list_len != 0)
        memset(list, 0, list_len);
    for (uint64_t i = 4; i < 4 + 3 * told(rescue, 2) && changes.used < list_len; i += 3) {
        uint64_t place = told(rescue, i), kind = told(rescue, i + 1), dropped = told(rescue, i + 2);
        put_number(&changes, place, 8);
        put_number(&changes, kind, 1);
        put_number(&changes, dropped, 8);
        from = put_up_to(&kept, file, file_len, from, place);
        if (kind == YB_MADE_MISSING)
            put_number(&kept, 0x050000, 3);
        if (kind == YB_ENDED_HERE)
            put_number(&kept, UINT64_C(0x7F000400000000) + told(rescue, 3), 7);
        size_t past = (size_t)dropped + (kind == YB_MADE_MISSING ? 3 : 0);
        from = past < file_len - from ? from + past : file_len;
    }
    put_up_to(&kept, file, file_len, from, file_len);
    if (getenv("CANNED_SPOILED") != NULL && told("CANNED_SPOILED", 0) < out_len)
        out[told("CANNED_SPOILED", 0)] ^= 1;
    return 0;
}

/* The bytes of a field. */
static size_t field_len(const uint8_t *field)
{
    return 3 + ((size_t)field[1] << 8 | field[2]);
}

/* What a stick's run gives, to be freed. */
static uint8_t *whole_run(const uint8_t *run, size_t run_len, size_t *len)
{
    uint32_t steps = steps_in(run, run_len);
    *len = (40 * (size_t)run[4] + 29 * (size_t)run[5]) * steps + 7;
    uint8_t *all = malloc(*len), *end = all;
    if (all == NULL)
        abort();
    for (uint32_t step = 0; step < steps; step++)
        end = put_step(end, yb_seconds(run, run_len), run[4], run[5], step);
    put_number(&(struct room){end, 7, 0}, UINT64_C(0x1F000400000000) + steps, 7);
    return all;
}

/* The place of a step's reading, or of the end. */
static size_t asking_place(const uint8_t *run, size_t run_len, uint32_t step)
{
    size_t at = 0;
    while (run_len - at > 7 && (steps_in(run, at) != step || (run[at] != 0x04 && run[at] != 0x05)))
        at += field_len(run + at);
    return at;
}

/* What is shown of a field that is wrong, or of what is behind all of them. */
static uint8_t show(const uint8_t *run, size_t run_len, const uint8_t *field, size_t size, size_t there,
    uint64_t *start, uint64_t *len)
{
    *len = there < size ? there : size;
    if (there != 0)
        return 1;
    *start = asking_place(run, run_len, field[0] == 0x1F ? UINT32_MAX : number_at(field + 3));
    *len = field_len(run + *start);
    return 2;
}

uint32_t yb_partner(const uint8_t *run, size_t run_len, const uint8_t *result, size_t result_len, uint8_t *verdict,
    uint64_t *start, uint64_t *len)
{
    static const char partner[] = "CANNED_PARTNER";
    size_t all, at = 0;
    if (getenv(partner) != NULL) {
        *verdict = (uint8_t)told(partner, 1);
        *start = told(partner, 2);
        *len = told(partner, 3);
        return (uint32_t)told(partner, 0);
    }
    if (run_len > YB_MOST_FILE_BYTES || !is_stick(run, run_len))
        return run_len > YB_MOST_FILE_BYTES ? 12 : (uint32_t)canned(run, run_len, 0);
    uint8_t *ours = whole_run(run, run_len, &all);
    while (at < all && result_len - at >= field_len(ours + at) &&
        memcmp(ours + at, result + at, field_len(ours + at)) == 0)
        at += field_len(ours + at);
    *start = at;
    if (at < all)
        *verdict = show(run, run_len, ours + at, field_len(ours + at), result_len - at, start, len);
    else
        *verdict = (*len = result_len - at) != 0;
    if (*verdict == 0)
        *start = 0;
    free(ours);
    return 0;
}

uint32_t yb_peaks(const uint8_t *file, size_t file_len, int32_t target, int64_t *figures, size_t figures_len)
{
    const char *variable = steps_in(file, file_len) == 1 ? "CANNED_MEASURE" : "CANNED_PEAKS";
    (void)target;
    if (figures_len != YB_FIGURES)
        return 10;
    memset(figures, 0, YB_FIGURES * sizeof *figures);
    figures[YB_FIGURE_STEPS] = steps_in(file, file_len);
    figures[YB_FIGURE_LEAST] = -5;
    figures[YB_FIGURE_MOST] = 1000;
    for (uint64_t i = 0; i < YB_FIGURES && getenv(variable) != NULL; i++)
        figures[i] = (int64_t)told(variable, i + 1);
    return (uint32_t)told(variable, 0);
}

uint32_t yb_watts(double kw, int32_t *watts)
{
    if (!(kw >= -100000 && kw <= 100000))
        return 6;
    *watts = (int32_t)(1000 * kw);
    return 0;
}

/* Every request is 1 W, and a budget of one pass is too small: also over a load so small that the reading is left below
** the target, which no study does. A load of 77 gets an answer that no study gets.
*/
uint32_t yb_study(const uint8_t *file, size_t file_len, int64_t load, uint32_t budget, int32_t *requests,
    size_t requests_len, uint8_t *settled, uint32_t *passes)
{
    if (requests_len != yb_units(file, file_len))
        return 10;
    if (load < 0 || load > 100000000 || budget < 1 || budget > 10000)
        return 5;
    if (load == 77)
        return 10;
    for (size_t i = 0; i < requests_len; i++)
        requests[i] = 1;
    *settled = budget > 1;
    *passes = 1;
    return 0;
}
