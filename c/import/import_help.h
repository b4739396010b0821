/* What the tool says of itself. */
#ifndef IMPORT_HELP_H
#define IMPORT_HELP_H

/* Say on standard error what is wrong with a call, and how each command is called; give FAILED. */
int wrong_call(const char *why);
int wrong_option(const char *command, const char *option);
int no_words(void);

/* Print what is to be known of one command, or of all where there is no name. Gives COMPLETE, or FAILED where there is
** no such command, which is told.
*/
int print_help(const char *command);

int print_version(void);

#endif
