/* Feeding a stick to the library, chunk by chunk, and handing on what its run gives. This is how every command reads a
** stick, from a file or a pipe, of any length: the library itself says when it is enough.
**
** There is memory for a chunk and for what its steps give, never for all of a stick or of its result. A step has at
** least three bytes, and gives at most the records of 64 units and 64 inverters: a chunk's results are at most 97 MB,
** and those of a chunk of readings with weather, for three of each, 300 KB. A stick that is kept, because it is fed
** again, is kept as far as the library has taken it, which today is 3.4 MB at most.
*/
#define _POSIX_C_SOURCE 200809L /* for fileno, fstat and fmemopen */
#include <errno.h>
#include <inttypes.h>
#include <stdlib.h>
#include <string.h>
#include <sys/stat.h>

#include "import_feed.h"
#include "import_result.h"
#include "yesbrulka.h"

/* The most that the results of a chunk can be, with a field before it that had not come whole. */
enum { MOST_STEP = RECORD_BYTES * YB_MOST_UNITS + SOLAR_BYTES * YB_MOST_INVERTERS };
enum { MOST_ROOM = (CHUNK / HEADER + 1) * MOST_STEP };

/* What the library keeps between two calls, and the room that is lent for results. */
static uint8_t state[65536];
static size_t state_len;
static uint8_t *room;
static size_t room_len;

int is_standard_input(const char *name)
{
    return strcmp(name, "-") == 0;
}

FILE *open_input(const char *name)
{
    return is_standard_input(name) ? stdin : fopen(name, "rb");
}

void close_input(FILE *in)
{
    if (in != stdin)
        fclose(in);
}

const char *reading_fault(void)
{
    return errno == EISDIR ? "it is a folder" : strerror(errno);
}

int no_memory(const char *name, const char *what)
{
    return failed(name, what, "close other programs and call again");
}

int read_input(const char *name, uint8_t *room, size_t room_len, size_t *len)
{
    FILE *in = open_input(name);
    if (in == NULL)
        return failed(name, "cannot be read: ", reading_fault());
    *len = fread(room, 1, room_len, in);
    int outcome = ferror(in) ? failed(name, "cannot be read: ", reading_fault()) : COMPLETE;
    close_input(in);
    return outcome;
}

static int make_room(const char *name, uint64_t asked)
{
    if (asked > MOST_ROOM)
        return fault(name);
    if (asked <= room_len)
        return COMPLETE;
    free(room);
    room = malloc((size_t)asked);
    room_len = room == NULL ? 0 : (size_t)asked;
    return room == NULL ? no_memory(name, "no memory for its result; ") : COMPLETE;
}

static int start_feed(const char *name)
{
    uint64_t size = yb_feed_size();
    if (size > sizeof state)
        return fault(name);
    state_len = (size_t)size;
    return yb_feed_start(state, state_len) == 0 ? make_room(name, RESULT_END_BYTES) : fault(name);
}

/* Takes the answer to a call. Neither the state nor the room can be what is refused, and what was taken without a
** refusal is all that was fed.
*/
static int take_answer(struct stick *stick, uint32_t number)
{
    uint32_t steps = stick->steps;
    stick->number = number;
    stick->place = yb_feed_place(state, state_len);
    stick->steps = yb_feed_steps(state, state_len);
    if (number == YB_DOES_NOT_FIT || number == YB_ROOM_TOO_SHORT || stick->steps > YB_MOST_STEPS)
        return fault(stick->name);
    if (number != 0)
        return REFUSED;
    return stick->place == stick->len && stick->steps >= steps ? COMPLETE : fault(stick->name);
}

/* Feeds a chunk; gives in *written the bytes that are then in the room. */
static int feed_chunk(struct stick *stick, const uint8_t *chunk, size_t len, uint64_t *written)
{
    uint64_t asked = yb_feed_room(state, state_len, chunk, len);
    if (make_room(stick->name, asked) != COMPLETE)
        return FAILED;
    *written = 0;
    stick->len += len;
    int outcome = take_answer(stick, yb_feed(state, state_len, chunk, len, room, room_len, written));
    return outcome == COMPLETE && *written != asked ? fault(stick->name) : outcome;
}

/* Hands on what a chunk gave, which is whole steps, from the first that came with it. */
static int hand_on(struct stick *stick, const struct taker *taker, uint32_t first, uint64_t written)
{
    if (written == 0 && stick->steps == first)
        return COMPLETE;
    if (ask_site(stick) != COMPLETE)
        return FAILED;
    struct run run = {room, (size_t)written, stick->units, stick->inverters, first, stick->steps - first};
    if (written != (uint64_t)step_bytes(run.units, run.inverters) * run.steps)
        return fault(stick->name);
    if (taker != NULL)
        taker->take(taker->to, &run);
    return COMPLETE;
}

/* Says that the file has ended, and hands the end on. */
static int feed_end(struct stick *stick, const struct taker *taker)
{
    uint64_t written = 0;
    uint32_t steps = stick->steps;
    int outcome = take_answer(stick, yb_feed_end(state, state_len, room, room_len, &written));
    if (outcome != COMPLETE)
        return outcome;
    if (written != RESULT_END_BYTES || stick->steps != steps)
        return fault(stick->name);
    struct run run = {room, RESULT_END_BYTES, stick->units, stick->inverters, steps, 0};
    if (taker != NULL)
        taker->take(taker->to, &run);
    return COMPLETE;
}

static int keep(struct stick *stick, const uint8_t *chunk, size_t len)
{
    if (stick->kept_room < stick->len) {
        size_t larger = 2 * stick->kept_room + CHUNK;
        uint8_t *moved = realloc(stick->kept, larger);
        if (moved == NULL)
            return no_memory(stick->name, "no memory for it; ");
        stick->kept = moved;
        stick->kept_room = larger;
    }
    memcpy(stick->kept + stick->len - len, chunk, len);
    return COMPLETE;
}

void free_kept(struct stick *stick)
{
    free(stick->kept);
    stick->kept = NULL;
    stick->kept_room = 0;
}

/* The progress of a stick that is long, by its size, or by what has come. */
static void tell_progress(const struct stick *stick)
{
    char text[PROGRESS], of[PROGRESS / 2] = "";
    if (stick->size <= YB_MOST_FILE_BYTES && stick->len <= YB_MOST_FILE_BYTES)
        return;
    if (stick->size >= stick->len)
        snprintf(of, sizeof of, " of %" PRIu64, stick->size);
    snprintf(text, sizeof text, "%" PRIu64 "%s bytes, %" PRIu32 " steps", stick->len, of, stick->steps);
    show_progress(text);
}

uint64_t input_size(FILE *in)
{
    struct stat there;
    return fstat(fileno(in), &there) == 0 && S_ISREG(there.st_mode) ? (uint64_t)there.st_size : 0;
}

/* The next chunk, from the file to the taker; gives in *count its bytes, which are fewer where the file ends. */
static int next_chunk(struct stick *stick, const struct taker *taker, FILE *in, size_t *count)
{
    uint64_t written;
    uint32_t first = stick->steps;
    *count = read_chunk(stick, in);
    if (ferror(in))
        return failed(stick->name, "cannot be read: ", reading_fault());
    if (*count == 0)
        return COMPLETE;
    const uint8_t *chunk = stick->window + stick->window_len - *count;
    int outcome = feed_chunk(stick, chunk, *count, &written);
    if (outcome == COMPLETE && stick->is_kept)
        outcome = keep(stick, chunk, *count);
    if (outcome == COMPLETE)
        outcome = pass_fields(stick);
    return outcome == COMPLETE ? hand_on(stick, taker, first, written) : outcome;
}

static int feed_all(struct stick *stick, const struct taker *taker, FILE *in)
{
    size_t count = CHUNK;
    int outcome = start_feed(stick->name);
    while (outcome == COMPLETE && count == CHUNK) {
        outcome = next_chunk(stick, taker, in, &count);
        if (outcome == COMPLETE)
            tell_progress(stick);
    }
    if (count < CHUNK)
        stick->size = stick->len;
    return outcome == COMPLETE ? feed_end(stick, taker) : outcome;
}

/* Feeds what was opened, and closes it. */
static int feed_input(struct stick *stick, const struct taker *taker, FILE *in)
{
    if (in == NULL)
        return failed(stick->name, "cannot be read: ", reading_fault());
    begin_fields(stick);
    stick->size = input_size(in);
    int outcome = feed_all(stick, taker, in);
    if (outcome == REFUSED && find_refused(stick, in) != COMPLETE)
        outcome = FAILED;
    end_progress();
    close_input(in);
    if (outcome != COMPLETE)
        free_kept(stick);
    return outcome;
}

int feed_file(struct stick *stick, const struct taker *taker)
{
    return feed_input(stick, taker, open_input(stick->name));
}

int feed_bytes(struct stick *stick, uint8_t *bytes, size_t len)
{
    int outcome = feed_input(stick, NULL, fmemopen(bytes, len, "rb"));
    stick->size = len;
    return outcome;
}

int feed_again(const struct stick *stick, const struct taker *taker)
{
    struct stick again = *stick;
    uint64_t written;
    int outcome = start_feed(stick->name);
    again.len = again.steps = 0;
    while (outcome == COMPLETE && again.len < stick->len) {
        uint64_t left = stick->len - again.len;
        uint32_t first = again.steps;
        outcome = feed_chunk(&again, stick->kept + again.len, left < CHUNK ? (size_t)left : CHUNK, &written);
        if (outcome == COMPLETE)
            outcome = hand_on(&again, taker, first, written);
    }
    if (outcome == COMPLETE)
        outcome = feed_end(&again, taker);
    return outcome == REFUSED ? fault(stick->name) : outcome;
}
