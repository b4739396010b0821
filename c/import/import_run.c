/* import run: a stick to its result file, which is written as the run goes on. */
#include <stdlib.h>

#include "import_output.h"

static void write_records(void *to, const struct run *run)
{
    write_more(to, run->bytes, run->len);
}

/* The line comes when RESULT is in its place, and not before: it says that the command is done. */
static int run_into(const char *file, const char *target)
{
    struct stick stick = {.name = file};
    struct whole whole;
    struct taker taker = {write_records, &whole};
    begin_whole(&whole, target, "RESULT");
    int outcome = ask_complete(&stick, &taker, "no result is written");
    if (outcome == COMPLETE)
        outcome = end_whole(&whole);
    drop_whole(&whole);
    if (outcome != COMPLETE)
        return outcome;
    print_answer(&stick);
    return tell_written(target);
}

static void put_records(void *to, const struct run *run)
{
    int *outcome = to;
    if (*outcome == COMPLETE)
        *outcome = write_output(run->bytes, run->len);
}

/* All of the stick is accepted before anything goes to standard output; so it is run twice. The line comes behind the
** last byte.
*/
static int run_to_output(const char *file)
{
    struct stick stick = {.name = file, .is_kept = 1};
    int written = COMPLETE, outcome = begin_output("RESULT");
    if (outcome == COMPLETE)
        outcome = ask_complete(&stick, NULL, "no result is written");
    if (outcome == COMPLETE)
        outcome = feed_again(&stick, &(struct taker){put_records, &written});
    if (outcome == COMPLETE)
        outcome = written == COMPLETE ? end_output() : written;
    if (outcome == COMPLETE) {
        print_answer(&stick);
        outcome = tell_written("-");
    }
    free_kept(&stick);
    return outcome;
}

int run_command(const char *file, const char *result)
{
    if (is_standard_output(result))
        return run_to_output(file);
    char *target = target_of(file, result, "RESULT");
    if (target == NULL)
        return FAILED;
    int outcome = run_into(file, target);
    free(target);
    return outcome;
}
