/* The words of a call: its options, and those that are left. */
#include <stddef.h>
#include <string.h>

#include "import_options.h"

static const struct {
    const char *name;
    unsigned option;
} options[] = {
    {"--json", JSON},
    {"--csv", CSV},
    {"--help", HELP},
    {"-h", HELP},
    {"--version", VERSION},
};

enum { OPTIONS = sizeof options / sizeof options[0] };

int is_whole_number(const char *word)
{
    const char *digits = word[0] == '-' ? word + 1 : word;
    return *digits != '\0' && strspn(digits, "0123456789") == strlen(digits);
}

/* The option that a word is, or 0. */
static unsigned option_of(const char *word)
{
    for (int i = 0; i < OPTIONS; i++)
        if (strcmp(word, options[i].name) == 0)
            return options[i].option;
    return 0;
}

const char *option_name(unsigned option)
{
    for (int i = 0; i < OPTIONS; i++)
        if (options[i].option == option)
            return options[i].name;
    return "";
}

/* A dash by itself is a file, standard input or standard output. */
static int looks_like_an_option(const char *word)
{
    return word[0] == '-' && word[1] != '\0' && !is_whole_number(word);
}

const char *take_call(struct call *call, int count, char **words)
{
    int i = 0;
    *call = (struct call){.words = words};
    for (; i < count && strcmp(words[i], "--") != 0; i++) {
        unsigned option = option_of(words[i]);
        if (option == 0 && looks_like_an_option(words[i]))
            return words[i];
        call->options |= option;
        if (option == 0)
            words[call->count++] = words[i];
    }
    call->plain = call->count;
    for (i++; i < count; i++)
        words[call->count++] = words[i];
    return NULL;
}
