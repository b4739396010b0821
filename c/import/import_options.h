/* The words of a call: its options, and those that are left. */
#ifndef IMPORT_OPTIONS_H
#define IMPORT_OPTIONS_H

/* The options. Help and version go with every command, and each command says which of the others it takes. */
enum { JSON = 1, CSV = 2, HELP = 4, VERSION = 8 };

/* A command's options, and its words without them. Those from the number of the plain ones on stood behind a --, and
** are names whatever they look like.
*/
struct call {
    unsigned options;
    int count, plain;
    char **words;
};

/* Take the words behind a command apart, which then are in another order in memory. Gives NULL, or the first word that
** looks like an option and is none.
**
** An option begins with a dash and has more than that; a whole number below 0 is none. Options may stand among the
** words, and end with a --.
*/
const char *take_call(struct call *call, int count, char **words);

/* What an option is called. */
const char *option_name(unsigned option);

/* Whether a word is a whole number: digits, and perhaps a minus before them. */
int is_whole_number(const char *word);

#endif
