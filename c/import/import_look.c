/* import check and import show: what the library says of each stick. */
#include "import_files.h"
#include "import_look.h"

const char about_complete[] =
    "Complete is about a file's marks, not contents: a changed byte in a reading can still be a number.";

/* The lines of a complete stick: the range of its readings, so that one is seen that cannot be right. */
static int print_complete(const struct stick *stick)
{
    struct measured measured;
    if (ask_measured(&measured, stick) != COMPLETE)
        return FAILED;
    print_answer(stick);
    print_measured(&measured);
    return COMPLETE;
}

static int look_for_programs(struct stick *stick, int outcome)
{
    struct measured measured;
    if (outcome == COMPLETE)
        outcome = ask_measured(&measured, stick);
    begin_json(stick->name);
    json_answer(stick, outcome);
    if (outcome == COMPLETE)
        json_readings(&measured.season, has_figures(stick) ? measured.figures : NULL);
    end_json();
    return outcome;
}

/* How a file is looked at: for people, with all that it says, or for programs. */
enum look { CHECK, SHOW, PROGRAMS };

/* The lines of one file, or its object; gives what came of it. */
static int look(const char *name, enum look how)
{
    struct stick stick = {.name = name, .is_shown = how == SHOW, .is_kept = 1};
    int outcome = feed_once(&stick, NULL);
    if (outcome == COMPLETE)
        outcome = ask_site(&stick);
    if (how == PROGRAMS)
        outcome = look_for_programs(&stick, outcome);
    else if (outcome == REFUSED)
        print_answer(&stick);
    else if (outcome == COMPLETE)
        outcome = how == SHOW ? print_contents(&stick) : print_complete(&stick);
    free_kept(&stick);
    return outcome;
}

static const char *files(int count)
{
    return count == 1 ? "file" : "files";
}

static int look_at_all(int count, char **names, enum look how)
{
    int refused = 0, not_checked = 0;
    for (int i = 0; i < count; i++) {
        int outcome = look(names[i], how);
        refused += outcome == REFUSED;
        not_checked += outcome == FAILED;
        files_progress(i + 1, count);
    }
    end_progress();
    if (how != PROGRAMS && refused + not_checked < count)
        printf("%s\n", about_complete);
    if (fflush(stdout) != 0)
        return FAILED;
    if (refused != 0)
        fprintf(stderr, "import: %d of %d %s refused\n", refused, count, files(count));
    if (not_checked != 0)
        fprintf(stderr, "import: %d of %d %s not checked\n", not_checked, count, files(count));
    return not_checked != 0 ? FAILED : refused != 0 ? REFUSED : COMPLETE;
}

int check_command(int count, char **words, int is_json)
{
    return look_at_all(count, words, is_json ? PROGRAMS : CHECK);
}

int show_command(int count, char **words)
{
    return look_at_all(count, words, SHOW);
}
