/* The fields of a stick as they go by, by their tags and lengths: what stands before a refused field is counted, and
** the fields before the first step are put aside, as a file by themselves.
*/
#include <string.h>

#include "import_feed.h"
#include "yesbrulka.h"

/* A field that has not come whole waits at the window's start, and the next chunk comes behind it; where a refused one
** is shown, as many bytes follow as its length can say. No field that the library takes is as long as what may wait,
** and no row of them before the first step as long as what is put aside.
*/
enum { WAITING = 1024, ASIDE = 65536 };

static uint8_t window[WAITING + CHUNK + LONGEST];
static uint8_t head[ASIDE];

static const uint8_t end_field[] = {END_TAG, 0, 4, 0, 0, 0, 0};

uint64_t number_at(const uint8_t *bytes, int width)
{
    uint64_t number = 0;
    for (int i = 0; i < width; i++)
        number = number << 8 | bytes[i];
    return number;
}

size_t field_len(const uint8_t *field)
{
    return HEADER + (size_t)number_at(field + 1, 2);
}

const uint8_t *refused_bytes(const struct stick *stick)
{
    return stick->window + (stick->place - stick->window_from);
}

size_t refused_len(const struct stick *stick)
{
    return stick->window_len - (size_t)(stick->place - stick->window_from);
}

unsigned said_length(const struct stick *stick)
{
    return (unsigned)number_at(refused_bytes(stick) + 1, 2);
}

void begin_fields(struct stick *stick)
{
    stick->window = window;
    stick->head = head;
}

size_t read_chunk(struct stick *stick, FILE *in)
{
    size_t count = fread(window + stick->window_len, 1, CHUNK, in);
    stick->window_len += count;
    return count;
}

/* The field's place is in the window, and its longest value goes beyond neither a chunk nor the window's end. */
static void read_refused(struct stick *stick, FILE *in)
{
    size_t there = refused_len(stick);
    if (there < LONGEST)
        stick->window_len += fread(window + stick->window_len, 1, LONGEST - there, in);
}

static int put_aside(struct stick *stick, const uint8_t *field, size_t len)
{
    if (sizeof head - stick->head_len < len)
        return fault(stick->name);
    memcpy(head + stick->head_len, field, len);
    stick->head_len += len;
    return COMPLETE;
}

int is_by_current(unsigned mode)
{
    return mode == YB_I_PEAK_SHAVE || mode == YB_I_PEAK_SHAVE_LOW;
}

int is_reading(uint8_t tag)
{
    return tag == POWER_TAG || tag == CURRENT_TAG || tag == MISSING_TAG;
}

/* From the first step on there are only these. */
static int is_of_steps(uint8_t tag)
{
    return is_reading(tag) || tag == WEATHER_TAG || tag == VOLTAGE_TAG || tag == END_TAG;
}

void count_field(struct before *before, const uint8_t *field)
{
    before->last = field[0];
    if (before->last == SETTINGS_TAG)
        before->mode = field[HEADER];
    before->units += before->last == UNIT_TAG;
    before->inverters += before->last == INVERTER_TAG;
    before->has_function |= before->last == FUNCTION_TAG;
    before->curves = before->last == CURVE_TAG ? before->curves + 1 : 0;
}

/* Counts the whole fields from the window's start up to an end, and gives in *past the bytes that they have. */
static int count_fields(struct stick *stick, size_t end, size_t *past)
{
    for (*past = 0; end - *past >= HEADER;) {
        const uint8_t *field = window + *past;
        size_t len = field_len(field);
        if (end - *past < len)
            break;
        if (!is_of_steps(field[0]) && put_aside(stick, field, len) != COMPLETE)
            return FAILED;
        count_field(&stick->before, field);
        *past += len;
    }
    return COMPLETE;
}

int pass_fields(struct stick *stick)
{
    size_t past;
    if (count_fields(stick, stick->window_len, &past) != COMPLETE)
        return FAILED;
    if (stick->window_len - past > WAITING)
        return fault(stick->name);
    stick->window_from += past;
    stick->window_len -= past;
    memmove(window, window + past, stick->window_len);
    return COMPLETE;
}

/* Whether the value part that the library names is within what is known of the file. */
static int has_value_part(const struct stick *stick)
{
    uint64_t place = stick->place - stick->window_from;
    uint64_t start = yb_value_start(window, stick->window_len, place);
    uint64_t count = yb_value_len(window, stick->window_len, place);
    return start <= stick->window_len && count <= stick->window_len - start &&
        (count == 0 || refused_len(stick) >= HEADER);
}

int find_refused(struct stick *stick, FILE *in)
{
    size_t past;
    if (stick->place < stick->window_from || stick->place - stick->window_from > stick->window_len)
        return fault(stick->name);
    if (count_fields(stick, (size_t)(stick->place - stick->window_from), &past) != COMPLETE)
        return FAILED;
    if (!stick->is_shown)
        return COMPLETE;
    read_refused(stick, in);
    if (ferror(in))
        return failed(stick->name, "cannot be read: ", reading_fault());
    return has_value_part(stick) ? COMPLETE : fault(stick->name);
}

/* The head is closed with an end field before it is asked for the first time. */
int ask_site(struct stick *stick)
{
    if (stick->units != 0)
        return COMPLETE;
    if (put_aside(stick, end_field, sizeof end_field) != COMPLETE)
        return FAILED;
    stick->units = yb_units(stick->head, stick->head_len);
    stick->inverters = yb_inverters(stick->head, stick->head_len);
    if (stick->units < 1 || stick->units > YB_MOST_UNITS || stick->inverters > YB_MOST_INVERTERS)
        return fault(stick->name);
    return COMPLETE;
}
