/* feed IN OUT [CHUNK]: the result of a stick that is read and run piece by piece, so that it may be of any length.
**
** IN is a file, or - for standard input. It is read CHUNK bytes at a time, 65,536 where nothing is said. OUT appears
** whole or not at all: until then the result is in OUT.unfinished, and on any failure that is removed. Only a signal
** that ends the program leaves it; delete it then.
**
** Exit status 0 if the stick was complete, 1 if it was refused, 2 for a wrong call, or where something cannot be read,
** written or kept.
*/
#define _POSIX_C_SOURCE 200809L /* for stat */
#include <inttypes.h>
#include <stdint.h>
#include <stdio.h>
#include <stdlib.h>
#include <string.h>
#include <sys/stat.h>

#include "yesbrulka.h"

enum { USUAL_CHUNK = 65536, MOST_CHUNK = 1 << 28, LAST = 7 };

/* The unfinished result, once there is one. */
static const char *unfinished;

static _Noreturn void stop(int status, const char *what, const char *why)
{
    if (unfinished != NULL)
        remove(unfinished);
    fprintf(stderr, "feed: %s: %s\n", what, why);
    exit(status);
}

/* Memory of a length, which is not 0; what is in the old memory may be lost. */
static uint8_t *memory(uint8_t *old, uint64_t len)
{
    free(old);
    uint8_t *got = len > SIZE_MAX ? NULL : malloc((size_t)len);
    if (got == NULL)
        stop(2, "the run", "no memory for it; close other programs and call again");
    return got;
}

static void put(FILE *out, const uint8_t *bytes, uint64_t len)
{
    if (len != 0 && fwrite(bytes, 1, (size_t)len, out) != len)
        stop(2, unfinished, "cannot be written; nothing is under the name of OUT that was not there before");
}

/* The feeding loop: all that in has, chunk by chunk, and the results to out. Gives 0 or the number of the refusal; its
** place and steps are then in the state.
*/
static uint32_t feed_all(FILE *in, FILE *out, size_t chunk_len, uint8_t *state, size_t state_len)
{
    uint8_t *chunk = memory(NULL, chunk_len), *room = NULL, last[LAST];
    uint64_t room_len = 0, written;
    size_t got;
    uint32_t number = yb_feed_start(state, state_len);
    while (number == 0 && (got = fread(chunk, 1, chunk_len, in)) != 0) {
        number = yb_feed(state, state_len, chunk, got, room, (size_t)room_len, &written);
        if (number == YB_ROOM_TOO_SHORT) {
            /* Nothing of the chunk was taken: the same call again, with as much room as it needs. */
            room_len = yb_feed_room(state, state_len, chunk, got);
            room = memory(room, room_len);
            number = yb_feed(state, state_len, chunk, got, room, (size_t)room_len, &written);
        }
        if (number == 0)
            put(out, room, written);
    }
    /* Where the reading failed the file has not ended. */
    if (number == 0 && !ferror(in)) {
        number = yb_feed_end(state, state_len, last, sizeof last, &written);
        if (number == 0)
            put(out, last, written);
    }
    free(room);
    free(chunk);
    return number;
}

/* The bytes of a chunk that an argument says, 0 if it says none. */
static size_t chunk_of(const char *text)
{
    char *end;
    unsigned long long chunk = strtoull(text, &end, 10);
    return text[0] >= '0' && text[0] <= '9' && *end == '\0' && chunk <= MOST_CHUNK ? (size_t)chunk : 0;
}

/* OUT.unfinished, a name that no file may have yet. If anything has the name of OUT, it is a file that can be
** replaced.
*/
static FILE *open_unfinished(const char *out)
{
    static const char more[] = ".unfinished";
    struct stat there;
    if (stat(out, &there) == 0 && !S_ISREG(there.st_mode))
        stop(2, out, "is a folder, a device or a pipe; give OUT the name of a file");
    size_t len = strlen(out);
    char *name = (char *)memory(NULL, len + sizeof more);
    memcpy(name, out, len);
    memcpy(name + len, more, sizeof more);
    FILE *opened = fopen(name, "wbx");
    if (opened == NULL)
        stop(2, name, "cannot be made for the result; see that its folder is there and has no such file");
    unfinished = name;
    return opened;
}

int main(int argc, char **argv)
{
    size_t chunk_len = argc == 4 ? chunk_of(argv[3]) : USUAL_CHUNK, state_len = (size_t)yb_feed_size();
    if (argc < 3 || argc > 4 || chunk_len == 0) {
        fprintf(stderr, "usage: feed IN OUT [CHUNK], where IN is a file or -, and CHUNK 1 to %d bytes\n", MOST_CHUNK);
        return 2;
    }
    const char *name = strcmp(argv[1], "-") == 0 ? "standard input" : argv[1];
    FILE *in = strcmp(argv[1], "-") == 0 ? stdin : fopen(argv[1], "rb");
    if (in == NULL)
        stop(2, name, "cannot be opened");
    FILE *out = open_unfinished(argv[2]);
    uint8_t *state = memory(NULL, state_len);
    uint32_t number = feed_all(in, out, chunk_len, state, state_len);
    uint64_t place = yb_feed_place(state, state_len);
    uint32_t steps = yb_feed_steps(state, state_len);
    free(state);
    if (ferror(in))
        stop(2, name, "cannot be read to its end");
    if (number != 0) {
        char why[150];
        snprintf(why, sizeof why,
            "refused %" PRIu32 " (%s) at byte %" PRIu64 ", after %" PRIu32 " steps; there is no result", number,
            yb_refusal_words(number), place, steps);
        stop(1, name, why);
    }
    if (fclose(out) != 0 || rename(unfinished, argv[2]) != 0)
        stop(2, argv[2], "cannot be written; what was there before still is");
    /* OUT is in its place, and nothing was said before. */
    unfinished = NULL;
    printf("%s: complete, %" PRIu32 " steps in %" PRIu64 " bytes\n", name, steps, place);
    if (fflush(stdout) != 0 || ferror(stdout))
        stop(2, argv[2], "written whole; only the line about it is lost");
    return 0;
}
