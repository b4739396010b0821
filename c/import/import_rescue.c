/* import rescue: what can be kept of a damaged stick, as a complete one in another file, and a line for each change.
**
** The library says what is kept and lists the changes. Before anything is written, its list is held against FILE and
** against what it gave, field by field: every byte is FILE's own, or is listed. Why a stick ends where it does is asked
** of the check, of FILE as it is and of FILE with its readings made missing. The lines come when OUT is in its place.
*/
#include <stdlib.h>
#include <string.h>

#include "import_output.h"
#include "yesbrulka.h"

/* A change in the list, by its first bytes; the values of a power reading and of a weather; and the end field, by its
** last four bytes, which count the steps.
*/
enum { CHANGE_KIND = 8, CHANGE_DROPPED = 9, READING_BYTES = 24, WEATHER_BYTES = 16, END_COUNT = 3, END_BYTES = 7 };

/* FILE, or a byte more of it than may be lent; what is kept of it; the list; FILE with its readings made missing. */
static uint8_t file[YB_MOST_FILE_BYTES + 1], kept[YB_MOST_FILE_BYTES];
static uint8_t list[YB_CHANGE_BYTES * (YB_MOST_STEPS + 1)], mended[YB_MOST_FILE_BYTES];

/* FILE's check and its length; what the library answers; and, where an end was put in, the check's number and place of
** what is wrong there.
*/
struct rescue {
    struct stick stick;
    size_t len, room, changes;
    uint32_t number, steps, end_number;
    uint64_t end_place;
};

struct change {
    uint64_t place, dropped;
    uint8_t kind;
};

static struct change change_at(size_t which)
{
    const uint8_t *bytes = list + YB_CHANGE_BYTES * which;
    return (struct change){number_at(bytes, CHANGE_KIND), number_at(bytes + CHANGE_DROPPED, 8), bytes[CHANGE_KIND]};
}

/* The rooms that are lent are those that the library asks for, if a rescue of FILE can need them. */
static int ask_rescue(struct rescue *rescue)
{
    uint64_t room = yb_rescue_room(file, rescue->len), changes = yb_rescue_changes(file, rescue->len);
    rescue->steps = yb_rescue_steps(file, rescue->len);
    if (room > sizeof kept || room > rescue->len + END_BYTES || rescue->steps > YB_MOST_STEPS ||
        changes > (uint64_t)rescue->steps + 1)
        return fault(rescue->stick.name);
    rescue->room = (size_t)room;
    rescue->changes = (size_t)changes;
    rescue->number = yb_rescue(file, rescue->len, kept, rescue->room, list, YB_CHANGE_BYTES * rescue->changes);
    return (rescue->number == 0) == (room != 0) ? COMPLETE : fault(rescue->stick.name);
}

/* How far FILE and what is kept of it have been gone through, and how many readings that were. */
struct walk {
    size_t in, out;
    unsigned readings;
};

/* Goes through FILE up to a place by whole fields, which are kept as they are; gives 0 where that is not so. */
static int pass_kept(struct walk *walk, const struct rescue *rescue, uint64_t place)
{
    size_t from = walk->in;
    if (place < from || place > rescue->len || place - from > rescue->room - walk->out)
        return 0;
    while (walk->in < place) {
        const uint8_t *field = file + walk->in;
        if (place - walk->in < HEADER || place - walk->in < field_len(field))
            return 0;
        walk->readings += is_reading(field[0]);
        walk->in += field_len(field);
    }
    if (memcmp(file + from, kept + walk->out, walk->in - from) != 0)
        return 0;
    walk->out += walk->in - from;
    return 1;
}

/* The same for a reading that was made missing, and for the last change, which takes all that is left. */
static int pass_reading(struct walk *walk, const struct rescue *rescue, uint64_t dropped)
{
    static const uint8_t missing[] = {MISSING_TAG, 0, 0};
    const uint8_t *field = file + walk->in;
    if (dropped != READING_BYTES || rescue->len - walk->in < HEADER + READING_BYTES ||
        rescue->room - walk->out < HEADER || memcmp(kept + walk->out, missing, HEADER) != 0)
        return 0;
    if ((field[0] != POWER_TAG && field[0] != CURRENT_TAG) || field_len(field) != HEADER + READING_BYTES)
        return 0;
    walk->in += HEADER + READING_BYTES;
    walk->out += HEADER;
    walk->readings++;
    return 1;
}

static int pass_end(struct walk *walk, const struct rescue *rescue, const struct change *change)
{
    if (change->kind != YB_ENDED_HERE && (change->kind != YB_LEFT_OUT || change->dropped == 0))
        return 0;
    if (change->dropped != rescue->len - walk->in)
        return 0;
    walk->in = rescue->len;
    walk->out += change->kind == YB_ENDED_HERE ? END_BYTES : 0;
    return walk->out == rescue->room;
}

/* What is kept ends with an end field that counts its readings, and these are the steps. */
static int is_ended(const struct walk *walk, const struct rescue *rescue)
{
    static const uint8_t end[] = {END_TAG, 0, 4};
    if (walk->out != rescue->room || rescue->room < END_BYTES)
        return 0;
    const uint8_t *last = kept + rescue->room - END_BYTES;
    return memcmp(last, end, END_COUNT) == 0 && number_at(last + END_COUNT, 4) == walk->readings &&
        walk->readings == rescue->steps;
}

/* Goes through all of it, with a print of each change, counted from the readings before it, or with none; gives 0 where
** the list is not what came of FILE.
*/
static int walk_changes(const struct rescue *rescue,
    void (*print)(const struct rescue *rescue, const struct change *change, unsigned readings))
{
    struct walk walk = {0, 0, 0};
    for (size_t i = 0; i < rescue->changes; i++) {
        struct change change = change_at(i);
        if (!pass_kept(&walk, rescue, change.place))
            return 0;
        if (print != NULL)
            print(rescue, &change, walk.readings);
        int is_good = change.kind == YB_MADE_MISSING ? pass_reading(&walk, rescue, change.dropped)
            : i + 1 == rescue->changes && pass_end(&walk, rescue, &change);
        if (!is_good)
            return 0;
    }
    return pass_kept(&walk, rescue, rescue->len) && is_ended(&walk, rescue);
}

/* Asks what is wrong where an end was put in: with its readings made missing, FILE is refused there and nowhere before,
** or behind a weather or a voltage that waits for its reading.
*/
static int ask_end(struct rescue *rescue)
{
    if (rescue->changes == 0 || change_at(rescue->changes - 1).kind != YB_ENDED_HERE)
        return COMPLETE;
    size_t place = (size_t)change_at(rescue->changes - 1).place, before = rescue->room - END_BYTES;
    struct stick stick = {.name = rescue->stick.name};
    memcpy(mended, kept, before);
    memcpy(mended + before, file + place, rescue->len - place);
    int outcome = feed_bytes(&stick, mended, before + rescue->len - place);
    if (outcome == FAILED)
        return FAILED;
    rescue->end_number = stick.number;
    rescue->end_place = stick.place + (place - before);
    return outcome == REFUSED && stick.place >= before ? COMPLETE : fault(stick.name);
}

/* The check of FILE, which says complete where nothing is changed; and where the rescue is refused, the same of a field
** before the steps, or anything where what is kept would be too long.
*/
static int ask_check(struct rescue *rescue)
{
    struct stick *stick = &rescue->stick;
    int outcome = feed_bytes(stick, file, rescue->len), is_about;
    if (outcome == FAILED)
        return FAILED;
    if (rescue->number == 0)
        is_about = (outcome == COMPLETE) == (rescue->changes == 0);
    else if (rescue->number == YB_TOO_MANY)
        is_about = outcome == REFUSED && rescue->len > YB_MOST_FILE_BYTES - END_BYTES;
    else
        is_about = rescue->number == stick->number && stick->steps == 0;
    return is_about ? COMPLETE : fault(stick->name);
}

/* All that is asked of the library, before anything is said. Of a file that is too long only its beginning is looked
** at, for it may be no stick.
*/
static int ask_all(struct rescue *rescue)
{
    if (ask_rescue(rescue) != COMPLETE)
        return FAILED;
    if (rescue->len > YB_MOST_FILE_BYTES) {
        rescue->stick.number = rescue->number;
        rescue->stick.window = file;
        rescue->stick.window_len = rescue->len;
        return rescue->number == YB_TOO_MANY ? COMPLETE : fault(rescue->stick.name);
    }
    if (rescue->number == 0 && !walk_changes(rescue, NULL))
        return fault(rescue->stick.name);
    if (rescue->number == 0 && ask_end(rescue) != COMPLETE)
        return FAILED;
    return ask_check(rescue);
}

static int print_refused(const struct rescue *rescue)
{
    const char *why = "what comes before its steps must be good; nothing is written";
    if (rescue->len > YB_MOST_FILE_BYTES)
        why = "it is longer than a rescue takes; nothing is written";
    else if (rescue->number == YB_TOO_MANY)
        why = "refused 12, the rescued stick would be longer than the 2,097,152 bytes that it may have; ask the "
            "manager to divide the season, with a stick for each part; nothing is written";
    print_answer(&rescue->stick);
    failed(rescue->stick.name, "cannot be rescued: ", why);
    return REFUSED;
}

/* What the check finds where an end was put in; the place follows at the mark. */
static const char *const endings[] = {
    "the stick is not good at byte #",
    [YB_CUT_SHORT] = "the stick broke off within the field at byte #",
    [YB_UNKNOWN_TAG] = "no field begins like the bytes at byte #",
    [YB_WRONG_LENGTH] = "the field at byte # has a wrong length",
    [YB_OUT_OF_ORDER] = "the field at byte # is out of order",
    [YB_OUT_OF_RANGE] = "the reading at byte # is of another kind than the mode goes by",
    [YB_NOT_USABLE] = "the weather at byte # could not be used",
    [YB_WRONG_COUNT] = "the end field at byte # counted other steps than there are",
    [YB_END_MISSING] = "the stick broke off at byte #, without its end",
    [YB_TOO_MANY] = "the stick goes on at byte # after as many steps as there can be",
};

/* Of the fields from the steps on a reading and a voltage can be out of range. */
static const char *ending_of(const struct rescue *rescue)
{
    uint32_t number = rescue->end_number < sizeof endings / sizeof endings[0] ? rescue->end_number : 0;
    if (number == YB_OUT_OF_RANGE && rescue->end_place < rescue->len && file[rescue->end_place] == VOLTAGE_TAG)
        return "the voltage at byte # is larger than it may be";
    return endings[number] != NULL ? endings[number] : endings[0];
}

/* What waited for its reading from the place of a change on: a weather, a voltage or both. */
static const char *waiting_of(const struct rescue *rescue, const struct change *change)
{
    if (file[change->place] == VOLTAGE_TAG)
        return "a voltage waited for its reading";
    return rescue->end_place - change->place > HEADER + WEATHER_BYTES
        ? "a weather and a voltage waited for their reading" : "a weather waited for its reading";
}

static void print_ended(const struct rescue *rescue, const struct change *change)
{
    for (const char *at = ending_of(rescue); *at != '\0'; at++)
        if (*at == '#')
            print_commas(rescue->end_place);
        else
            putchar(*at);
    printf(": ");
    print_many(rescue->steps, "step", " before it is", " before it are");
    printf(" kept, with a new end, and ");
    if (change->dropped == 0) {
        printf("nothing was left out\n");
        return;
    }
    print_many(change->dropped, "byte", " was", " were");
    printf(" left out from ");
    if (change->place == rescue->end_place) {
        printf("there on\n");
        return;
    }
    printf("byte ");
    print_commas(change->place);
    printf(" on, where %s\n", waiting_of(rescue, change));
}

static void print_change(const struct rescue *rescue, const struct change *change, unsigned readings)
{
    switch (change->kind) {
    case YB_MADE_MISSING:
        printf("the reading of ");
        print_the_step(readings);
        printf(", could not be used and is now missing: ");
        print_many(change->dropped, "byte", "", "");
        printf(" left out at byte ");
        break;
    case YB_LEFT_OUT:
        print_many(change->dropped, "byte", " behind the end was", " behind the end were");
        printf(" left out at byte ");
        break;
    default:
        print_ended(rescue, change);
        return;
    }
    print_commas(change->place);
    printf("\n");
}

/* The changes are all readings that were made missing, but perhaps for the last. */
static void print_rescued(const struct rescue *rescue, const char *out)
{
    uint64_t missing = rescue->changes;
    print_answer(&rescue->stick);
    walk_changes(rescue, print_change);
    print_name(stdout, out);
    if (rescue->changes == 0) {
        printf(": the same bytes; the stick is complete, and nothing had to be changed\n");
        return;
    }
    missing -= change_at(rescue->changes - 1).kind != YB_MADE_MISSING;
    printf(": ");
    print_many(rescue->steps, "step", "", "");
    printf(" kept, ");
    print_many(missing, "reading", "", "");
    printf(" made missing; a rescued stick has lost data: keep the damaged one too\n");
}

/* Writes what is kept; without a target the bytes go to standard output. */
static int write_kept(const struct rescue *rescue, const char *target)
{
    struct whole whole;
    if (target == NULL)
        return write_output(kept, rescue->room) == COMPLETE ? end_output() : FAILED;
    begin_whole(&whole, target, "OUT");
    write_more(&whole, kept, rescue->room);
    int outcome = end_whole(&whole);
    drop_whole(&whole);
    return outcome;
}

/* Nothing is said to be kept before OUT is in its place. */
static int rescue_into(struct rescue *rescue, const char *out, const char *target)
{
    if (read_input(rescue->stick.name, file, sizeof file, &rescue->len) != COMPLETE || ask_all(rescue) != COMPLETE)
        return FAILED;
    if (rescue->number != 0)
        return print_refused(rescue);
    if (write_kept(rescue, target) != COMPLETE)
        return FAILED;
    print_rescued(rescue, out);
    return tell_written(out);
}

int rescue_command(const char *file_name, const char *out)
{
    struct rescue rescue = {.stick = {.name = file_name}};
    if (is_standard_output(out))
        return begin_output("OUT") == COMPLETE ? rescue_into(&rescue, out, NULL) : FAILED;
    char *target = target_of(file_name, out, "OUT");
    if (target == NULL)
        return FAILED;
    int outcome = rescue_into(&rescue, out, target);
    free(target);
    return outcome;
}
