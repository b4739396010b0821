/* import: checks the run files of sticks, in bulk, and shows what is wrong with one; keeps what can be kept of a
** damaged one; runs a season, shows what came out, at other targets too, and judges a result that a partner made;
** studies where a fleet settles.
**
** The file's bytes are fed to the library; this program only reads, asks, writes and prints. Exit status 0 if
** all files are complete and what was asked for is done, 1 if something was refused or a result is wrong, 2 for a wrong
** call, a file that cannot be read or written, or lines that cannot be written.
*/
#include <string.h>

#include "import.h"
#include "import_help.h"
#include "import_options.h"

static int check_words(const struct call *call)
{
    return check_command(call->count, call->words, (call->options & JSON) != 0);
}

static int show_words(const struct call *call)
{
    return show_command(call->count, call->words);
}

static int run_words(const struct call *call)
{
    return run_command(call->words[0], call->words[1]);
}

static int rescue_words(const struct call *call)
{
    return rescue_command(call->words[0], call->words[1]);
}

static int partner_words(const struct call *call)
{
    return partner_command(call->words[0], call->words[1]);
}

static int settle_words(const struct call *call)
{
    return settle_command(call->words[0], call->words[1], call->count > 2 ? call->words[2] : "10000");
}

static int help_words(const struct call *call)
{
    return print_help(call->count != 0 ? call->words[0] : NULL);
}

/* The commands: how many words each has, the options that it takes, and what is said where that is not so. */
static const struct command {
    const char *name;
    int least, most;
    unsigned options;
    int (*call)(const struct call *call);
    const char *needs;
} commands[] = {
    {"check", 1, -1, JSON, check_words, "check needs a FILE or several"},
    {"show", 1, 1, 0, show_words, "show needs one FILE"},
    {"run", 2, 2, 0, run_words, "run needs a FILE and a RESULT"},
    {"rescue", 2, 2, 0, rescue_words, "rescue needs a FILE and an OUT"},
    {"partner", 2, 2, 0, partner_words, "partner needs a FILE and a RESULT"},
    {"settle", 2, 3, 0, settle_words, "settle needs a FILE, a LOAD and perhaps a BUDGET"},
    {"table", 2, 2, CSV, table_command, "table needs a FILE and its RESULT"},
    {"summary", 1, -1, JSON, summary_command, "summary needs a FILE or several, or a FILE and its RESULT"},
    {"peak", 1, -1, JSON, peak_command, "peak needs a FILE or several, and perhaps FROM, TO and STEP"},
    {"help", 0, 1, 0, help_words, "help needs one COMMAND or none"},
};

static int call_command(const struct command *command, int count, char **words)
{
    struct call call;
    const char *unknown = take_call(&call, count, words);
    if (unknown != NULL)
        return wrong_option(command->name, unknown);
    if (call.options & HELP)
        return print_help(command->name);
    if (call.options & VERSION)
        return print_version();
    for (unsigned option = 1; option <= call.options; option <<= 1)
        if (call.options & option & ~command->options)
            return wrong_option(command->name, option_name(option));
    if (call.count < command->least || (command->most >= 0 && call.count > command->most))
        return wrong_call(command->needs);
    return command->call(&call);
}

static int call(int count, char **words)
{
    const char *name = words[0];
    if (strcmp(name, "--version") == 0)
        return print_version();
    if (strcmp(name, "--help") == 0 || strcmp(name, "-h") == 0)
        name = "help";
    for (size_t i = 0; i < sizeof commands / sizeof commands[0]; i++)
        if (strcmp(name, commands[i].name) == 0)
            return call_command(&commands[i], count - 1, words + 1);
    return wrong_call("there is no such command");
}

int main(int argc, char **argv)
{
    if (argc < 2)
        return no_words();
    int outcome = call(argc - 1, argv + 1);
    /* A full disk may show only now. */
    int unwritten = ferror(stdout);
    if (fclose(stdout) != 0 || unwritten) {
        fprintf(stderr, "import: the lines cannot be written\n");
        return FAILED;
    }
    return outcome;
}
