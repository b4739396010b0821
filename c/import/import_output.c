/* Standard output in the place of a file. What a command says goes to standard error then, so that the bytes have
** standard output to themselves. Nothing is taken back from there: a command writes once all of it is sure.
*/
#define _POSIX_C_SOURCE 200809L /* for dup, dup2, fsync and isatty */
#include <errno.h>
#include <string.h>
#include <unistd.h>

#include "import_output.h"

static int output = -1;

int is_standard_output(const char *name)
{
    return strcmp(name, "-") == 0;
}

int begin_output(const char *word)
{
    char why[100];
    if (isatty(STDOUT_FILENO)) {
        snprintf(why, sizeof why, "standard output is the terminal; give %s the name of a file, or use a pipe", word);
        return failed("-", "cannot be written: ", why);
    }
    fflush(stdout);
    output = dup(STDOUT_FILENO);
    if (output < 0 || dup2(STDERR_FILENO, STDOUT_FILENO) < 0)
        return failed("-", "cannot be written: ", strerror(errno));
    return COMPLETE;
}

static int not_whole(void)
{
    return failed("-", "cannot be written whole; throw away what is there: ", strerror(errno));
}

int write_output(const uint8_t *bytes, size_t len)
{
    while (len != 0) {
        ssize_t written = write(output, bytes, len);
        if (written > 0) {
            bytes += written;
            len -= (size_t)written;
        } else if (written == 0 || errno != EINTR) {
            return not_whole();
        }
    }
    return COMPLETE;
}

/* A disk may say only now that it has not taken all of it. Of a pipe nobody can ask. */
int end_output(void)
{
    if (fsync(output) != 0 && errno != EINVAL && errno != ENOTSUP && errno != EROFS)
        return not_whole();
    return close(output) == 0 ? COMPLETE : not_whole();
}
