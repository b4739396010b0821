/* Commands that take many sticks: each is run by itself, and one that is bad stops no other. */
#define _POSIX_C_SOURCE 200809L /* for stat */
#include <string.h>
#include <sys/stat.h>

#include "import_files.h"
#include "import_json.h"
#include "import_result.h"
#include "yesbrulka.h"

/* From this number of files on there is a progress line. */
enum { MANY = 10 };

int is_stick_file(const char *name)
{
    uint8_t first[HEADER];
    struct stat there;
    if (is_standard_input(name) || stat(name, &there) != 0 || !S_ISREG(there.st_mode))
        return 0;
    FILE *in = fopen(name, "rb");
    size_t len = in == NULL ? 0 : fread(first, 1, sizeof first, in);
    if (in != NULL)
        fclose(in);
    return begins_like_a_stick(first, len);
}

int feed_once(struct stick *stick, const struct taker *taker)
{
    static int is_read;
    if (!is_standard_input(stick->name))
        return feed_file(stick, taker);
    if (is_read)
        return failed(stick->name, "cannot be read: ", "standard input was read already");
    is_read = 1;
    return feed_file(stick, taker);
}

/* Runs a stick and keeps it. One that is too long for the job is refused as the library would. */
static int run_file(struct stick *stick, const struct job *job)
{
    int is_showable = 1;
    int outcome = feed_once(stick, &(struct taker){see_powers, &is_showable});
    if (outcome == COMPLETE)
        outcome = ask_site(stick);
    if (outcome == COMPLETE && !is_showable)
        outcome = fault(stick->name);
    if (outcome != COMPLETE || !job->is_of_whole || stick->len <= YB_MOST_FILE_BYTES)
        return outcome;
    stick->number = YB_TOO_MANY;
    stick->place = stick->window_from = 0;
    stick->window_len = 0;
    stick->steps = 0;
    return REFUSED;
}

static void json_failure(const struct stick *stick, int outcome)
{
    begin_json(stick->name);
    json_answer(stick, outcome);
    end_json();
}

/* The lines of a file are parted from those of the one before it by an empty line; an object has its own. */
static int show_file(struct stick *stick, const struct job *job, int is_after)
{
    int outcome = run_file(stick, job);
    if (is_after && outcome != FAILED && !job->is_json)
        putchar('\n');
    if (outcome == COMPLETE)
        outcome = job->show(job, stick);
    else if (outcome == REFUSED && !job->is_json)
        refused(stick, "nothing is shown");
    if (outcome != COMPLETE && job->is_json)
        json_failure(stick, outcome);
    free_kept(stick);
    return outcome;
}

void files_progress(int done, int all)
{
    char text[PROGRESS];
    if (all < MANY)
        return;
    snprintf(text, sizeof text, "%d of %d files", done, all);
    show_progress(text);
}

/* Of a single file its own line says it all. */
static int tell_counts(int count, int refused, int not_shown)
{
    end_progress();
    if (fflush(stdout) != 0)
        return FAILED;
    if (count > 1 && refused != 0)
        fprintf(stderr, "import: %d of %d files refused\n", refused, count);
    if (count > 1 && not_shown != 0)
        fprintf(stderr, "import: %d of %d files not shown\n", not_shown, count);
    return not_shown != 0 ? FAILED : refused != 0 ? REFUSED : COMPLETE;
}

int each_file(int count, char **names, const struct job *job)
{
    int refused = 0, not_shown = 0;
    for (int i = 0; i < count && !ferror(stdout); i++) {
        struct stick stick = {.name = names[i], .is_kept = 1};
        int outcome = show_file(&stick, job, i > not_shown);
        refused += outcome == REFUSED;
        not_shown += outcome == FAILED;
        files_progress(i + 1, count);
    }
    return tell_counts(count, refused, not_shown);
}
