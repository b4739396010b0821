/* The progress line. Where standard error is no terminal there is none. */
#define _POSIX_C_SOURCE 200809L /* for isatty */
#include <signal.h>
#include <unistd.h>

#include "import.h"

static volatile sig_atomic_t is_there;

int has_progress(void)
{
    return is_there;
}

void show_progress(const char *text)
{
    if (!isatty(STDERR_FILENO))
        return;
    fflush(stdout);
    is_there = 1;
    fprintf(stderr, "\r%s", text);
    fflush(stderr);
}

void end_progress(void)
{
    if (!is_there)
        return;
    fprintf(stderr, "\r%*s\r", PROGRESS, "");
    fflush(stderr);
    is_there = 0;
}
