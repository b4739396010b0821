/* Where a command may write: a file that appears whole takes the place of a plain file or of none, and never that of
** the stick itself.
*/
#define _XOPEN_SOURCE 700 /* for lstat and realpath */
#include <errno.h>
#include <stdlib.h>
#include <string.h>
#include <sys/stat.h>
#include <unistd.h>

#include "import.h"

static int is_same(const struct stat *one, const struct stat *other)
{
    return one->st_dev == other->st_dev && one->st_ino == other->st_ino;
}

static int stat_input(const char *name, struct stat *there)
{
    return is_standard_input(name) ? fstat(STDIN_FILENO, there) : stat(name, there);
}

/* Why something that is there cannot be replaced, or NULL. In all these texts # is the word that the name is given
** for.
*/
static const char *not_replaceable(const char *file, const char *name, const struct stat *there)
{
    struct stat other;
    if (S_ISDIR(there->st_mode))
        return "it is a folder; give the name of a file in it";
    if (stat_input(file, &other) == 0 && is_same(there, &other))
        return "it is FILE itself; give # another name";
    if (!S_ISREG(there->st_mode))
        return "it is a device or a pipe, and cannot be replaced whole; give # the name of a file";
    for (int lines = STDOUT_FILENO; lines <= STDERR_FILENO; lines++)
        if (fstat(lines, &other) == 0 && is_same(there, &other))
            return "it is the file that the lines go to; give # another name";
    if (access(name, W_OK) == 0)
        return NULL;
    if (errno == EROFS)
        return "the disk can only be read; give # a name on another disk";
    return errno == EACCES ? "it is protected against writing; give # another name" : strerror(errno);
}

/* Why there can be no file under a name, or NULL. */
static const char *no_target(const char *file, const char *name)
{
    struct stat there;
    size_t len = strlen(name);
    if (len == 0)
        return "it is no name; give # the name of a file";
    if (stat(name, &there) == 0)
        return not_replaceable(file, name, &there);
    if (lstat(name, &there) == 0 && S_ISLNK(there.st_mode))
        return "it is a link to a file that is not there; give # another name";
    if (name[len - 1] == '/')
        return "it is the name of a folder; give the name of a file in it";
    return NULL;
}

/* Tells why, with the word in its place. */
static void tell_why(const char *name, const char *why, const char *word)
{
    char text[200];
    int before = (int)strcspn(why, "#");
    const char *after = why + before;
    if (*after == '\0')
        snprintf(text, sizeof text, "%s", why);
    else
        snprintf(text, sizeof text, "%.*s%s%s", before, why, word, after + 1);
    failed(name, "cannot be written: ", text);
}

char *target_of(const char *file, const char *name, const char *word)
{
    struct stat there;
    const char *why = no_target(file, name);
    if (why != NULL) {
        tell_why(name, why, word);
        return NULL;
    }
    int is_link = lstat(name, &there) == 0 && S_ISLNK(there.st_mode);
    char *target = is_link ? realpath(name, NULL) : strdup(name);
    if (target == NULL)
        failed(name, "cannot be written: ", strerror(errno));
    return target;
}
