/* A result file beside the run of its stick: whether it is, byte for byte, what that run gives, and where it is not.
**
** The library says so of a stick that it takes whole. One that is longer can only be fed, and what that gives is
** compared here, field by field as the library does; this is the one thing about a result that is not asked for.
*/
#include <stdlib.h>
#include <string.h>

#include "import_feed.h"
#include "import_result.h"
#include "yesbrulka.h"

static uint64_t result_len(const struct stick *stick)
{
    return (uint64_t)step_bytes(stick->units, stick->inverters) * stick->steps + RESULT_END_BYTES;
}

struct due due_at(const struct stick *stick, uint64_t place)
{
    uint64_t all = step_bytes(stick->units, stick->inverters), units = (uint64_t)RECORD_BYTES * stick->units;
    uint64_t step = place / all, byte = place % all, end = all * stick->steps;
    if (place >= end + RESULT_END_BYTES)
        return (struct due){.from = end + RESULT_END_BYTES, .step = stick->steps};
    if (place >= end)
        return (struct due){RESULT_END_TAG, end, RESULT_END_BYTES, stick->steps, 0};
    if (byte < units)
        return (struct due){RECORD_TAG, place - byte % RECORD_BYTES, RECORD_BYTES, (uint32_t)step,
            (unsigned)(byte / RECORD_BYTES)};
    byte -= units;
    return (struct due){SOLAR_TAG, place - byte % SOLAR_BYTES, SOLAR_BYTES, (uint32_t)step,
        (unsigned)(byte / SOLAR_BYTES)};
}

/* The result's bytes that can stand where a field is due; behind all fields any number can. */
static uint64_t bytes_there(const struct beside *beside, const struct due *due)
{
    uint64_t there = beside->len - due->from;
    return due->tag != 0 && there > due->len ? due->len : there;
}

/* The place of the stick's field that asks for what is due: the reading that closes the step, or the end field. It is
** the stick's length where there is none.
*/
static uint64_t asking_place(const struct stick *stick, const struct due *due)
{
    uint32_t steps = 0;
    for (uint64_t at = 0; stick->len - at >= HEADER;) {
        const uint8_t *field = stick->kept + at;
        if (stick->len - at < field_len(field))
            break;
        if ((is_reading(field[0]) || field[0] == END_TAG) && steps++ == due->step)
            return at;
        at += field_len(field);
    }
    return stick->len;
}

/* Whether the verdict can be about the two files: what is shown begins where a field is due. */
static int is_about(const struct beside *beside)
{
    const struct stick *stick = beside->stick;
    struct due due = due_at(stick, beside->verdict == YB_WRONG ? beside->start : beside->len);
    switch (beside->verdict) {
    case YB_RIGHT:
        return beside->len == result_len(stick) && beside->start == 0 && beside->count == 0;
    case YB_WRONG:
        return beside->start < beside->len && beside->start == due.from && beside->count == bytes_there(beside, &due);
    case YB_LACKING:
        return due.tag != 0 && beside->len == due.from && beside->start == asking_place(stick, &due) &&
            beside->start < stick->len && beside->count == field_len(stick->kept + beside->start);
    default:
        return 0;
    }
}

static int ask_verdict(struct beside *beside)
{
    const struct stick *stick = beside->stick;
    uint32_t number = yb_partner(stick->kept, (size_t)stick->len, beside->bytes, beside->len, &beside->verdict,
        &beside->start, &beside->count);
    return number == 0 && is_about(beside) ? COMPLETE : fault(beside->result);
}

/* How many of the result's first bytes are those of a run that is fed. */
struct same {
    const struct beside *beside;
    uint64_t bytes;
};

static void compare(void *to, const struct run *run)
{
    struct same *same = to;
    const struct beside *beside = same->beside;
    if (same->bytes != (uint64_t)step_bytes(run->units, run->inverters) * run->first)
        return;
    for (size_t at = 0; at < run->len && same->bytes < beside->len; at++, same->bytes++)
        if (beside->bytes[same->bytes] != run->bytes[at])
            return;
}

/* The verdict on the result of a stick that is too long to be lent. */
static int feed_verdict(struct beside *beside)
{
    struct same same = {.beside = beside};
    int outcome = feed_again(beside->stick, &(struct taker){compare, &same});
    if (outcome != COMPLETE)
        return outcome;
    struct due due = due_at(beside->stick, same.bytes);
    beside->start = due.from;
    beside->count = bytes_there(beside, &due);
    beside->verdict = beside->count != 0 ? YB_WRONG : due.tag != 0 ? YB_LACKING : YB_RIGHT;
    if (beside->verdict == YB_RIGHT)
        beside->start = 0;
    if (beside->verdict != YB_LACKING)
        return COMPLETE;
    beside->start = asking_place(beside->stick, &due);
    beside->count = field_len(beside->stick->kept + beside->start);
    return COMPLETE;
}

/* Reads the file until it ends, or up to so many bytes. */
static int read_up_to(struct beside *beside, FILE *in, size_t most)
{
    size_t room = 0;
    do {
        room = 2 * room + CHUNK < most ? 2 * room + CHUNK : most;
        uint8_t *moved = realloc(beside->bytes, room);
        if (moved == NULL)
            return no_memory(beside->result, "no memory for it; ");
        beside->bytes = moved;
        beside->len += fread(moved + beside->len, 1, room - beside->len, in);
    } while (beside->len == room && room < most);
    return ferror(in) ? failed(beside->result, "cannot be read: ", reading_fault()) : COMPLETE;
}

/* A file may be of any length, and a pipe need not end. What is wrong, and that something follows, is known from as
** many bytes as the run gives, which are 289 MB at most, and a chunk more.
*/
static int read_result(struct beside *beside)
{
    size_t most = (size_t)result_len(beside->stick) + CHUNK;
    FILE *in = open_input(beside->result);
    if (in == NULL)
        return failed(beside->result, "cannot be read: ", reading_fault());
    int outcome = read_up_to(beside, in, most);
    uint64_t size = beside->len < most ? beside->len : input_size(in);
    beside->is_longer = size < beside->len;
    beside->size = beside->is_longer ? beside->len : size;
    close_input(in);
    return outcome;
}

int judge_result(struct beside *beside)
{
    int outcome = read_result(beside);
    if (outcome == COMPLETE)
        outcome = beside->stick->len <= YB_MOST_FILE_BYTES ? ask_verdict(beside) : feed_verdict(beside);
    if (outcome != COMPLETE)
        free_result(beside);
    return outcome;
}

void free_result(struct beside *beside)
{
    free(beside->bytes);
    beside->bytes = NULL;
}

int is_input_twice(const char *file, const char *result)
{
    if (!is_standard_input(file) || !is_standard_input(result))
        return 0;
    failed(result, "cannot be read: ", "FILE is standard input already; give RESULT the name of a file");
    return 1;
}

int open_result(struct stick *stick, const char *file, const char *result)
{
    int is_showable = 1;
    struct taker taker = {see_powers, &is_showable};
    struct beside beside = {.result = result, .stick = stick};
    *stick = (struct stick){.name = file, .result = result, .is_kept = 1};
    if (is_input_twice(file, result))
        return FAILED;
    int outcome = ask_complete(stick, &taker, "nothing is shown");
    if (outcome == COMPLETE)
        outcome = judge_result(&beside);
    if (outcome == COMPLETE && beside.verdict != YB_RIGHT)
        outcome = print_wrong(&beside);
    if (outcome == REFUSED && stick->number == 0)
        failed(result, "not shown; ", "it is not what the run gives");
    if (outcome == COMPLETE && !is_showable)
        outcome = fault(file);
    free_result(&beside);
    if (outcome != COMPLETE)
        free_kept(stick);
    return outcome;
}
