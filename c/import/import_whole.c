/* Writing a file whole or not at all: the bytes go to an unfinished file in the same folder as they come, and only
** when the disk has all of them does that take the name. What had the name before stays until then. On a failure, and
** where a signal ends the program, the unfinished file is removed.
*/
#define _POSIX_C_SOURCE 200809L /* for openat, fsync and sigaction */
#include <errno.h>
#include <fcntl.h>
#include <signal.h>
#include <stdlib.h>
#include <string.h>
#include <sys/stat.h>
#include <unistd.h>

#include "import.h"

/* The signals that end a program from outside, one of them where nobody reads its lines any more. */
static const int endings[] = {SIGINT, SIGTERM, SIGHUP, SIGQUIT, SIGPIPE};
enum { ENDINGS = sizeof endings / sizeof endings[0] };

/* The unfinished file, for the handler, and what that says; there is one as long as is_unfinished is not 0. */
static char unfinished[64], said[100];
static size_t said_len;
static int folder = -1;
static volatile sig_atomic_t is_unfinished;

/* Ends the program as the signal would have: its action is the usual one again, and it comes when this returns. */
static void interrupted(int number)
{
    if (is_unfinished) {
        unlinkat(folder, unfinished, 0);
        size_t from = has_progress() ? 0 : 1; /* the line is longer than one of progress, and goes over it */
        ssize_t told = write(STDERR_FILENO, said + from, said_len - from);
        (void)told;
    }
    raise(number);
}

/* A signal that the caller has switched off stays so. A file above the caller's limit is a failed write. */
static void watch_signals(void)
{
    struct sigaction action = {.sa_handler = interrupted, .sa_flags = SA_RESETHAND | SA_RESTART}, old;
    sigemptyset(&action.sa_mask);
    for (int i = 0; i < ENDINGS; i++)
        if (sigaction(endings[i], NULL, &old) == 0 && old.sa_handler != SIG_IGN)
            sigaction(endings[i], &action, NULL);
    signal(SIGXFSZ, SIG_IGN);
}

/* Lets the signals wait, so that a file and what is known of it change together. */
static void hold_signals(sigset_t *before)
{
    sigset_t held;
    sigemptyset(&held);
    for (int i = 0; i < ENDINGS; i++)
        sigaddset(&held, endings[i]);
    sigprocmask(SIG_BLOCK, &held, before);
}

/* Opens the folder that a name is in, and gives the name in it; -1 where it cannot be opened. */
static int open_folder(const char *name, const char **last)
{
    const char *slash = strrchr(name, '/');
    *last = slash == NULL ? name : slash + 1;
    size_t len = (size_t)(*last - name);
    char *path = malloc(len + 2);
    if (path == NULL)
        return -1;
    memcpy(path, name, len);
    memcpy(path + len, len == 0 ? "." : "", len == 0 ? 2 : 1);
    int opened = open(path, O_RDONLY | O_DIRECTORY | O_CLOEXEC);
    free(path);
    return opened;
}

/* Makes a file under a name that no file has. The mode is as for any new file. */
static int open_unfinished(void)
{
    int opened = -1;
    sigset_t before;
    hold_signals(&before);
    for (int i = 0; i < 100 && opened < 0 && (i == 0 || errno == EEXIST); i++) {
        snprintf(unfinished, sizeof unfinished, ".import-unfinished-%ld-%d", (long)getpid(), i);
        opened = openat(folder, unfinished, O_WRONLY | O_CREAT | O_EXCL | O_CLOEXEC, 0666);
    }
    is_unfinished = opened >= 0;
    sigprocmask(SIG_SETMASK, &before, NULL);
    return opened;
}

/* A file that is replaced hands on its permissions, which some disks cannot change. Gives 0, or -1. */
static int keep_mode(int to, const char *last)
{
    struct stat there, here;
    if (fstatat(folder, last, &there, 0) != 0)
        return 0;
    if (fstat(to, &here) == 0 && (here.st_mode & 0777) == (there.st_mode & 0777))
        return 0;
    return fchmod(to, there.st_mode & 0777);
}

static int write_all(int to, const uint8_t *bytes, size_t len)
{
    while (len != 0) {
        ssize_t written = write(to, bytes, len);
        if (written > 0) {
            bytes += written;
            len -= (size_t)written;
        } else if (written == 0 || errno != EINTR) {
            return -1;
        }
    }
    return 0;
}

/* Gives the unfinished file its name if it is good, and else removes it. Gives 0, or -1. */
static int settle_name(int is_good, const char *last)
{
    sigset_t before;
    hold_signals(&before);
    int done = is_good && renameat(folder, unfinished, folder, last) == 0;
    int why = errno;
    if (!done)
        unlinkat(folder, unfinished, 0);
    is_unfinished = 0;
    sigprocmask(SIG_SETMASK, &before, NULL);
    errno = why;
    return done ? 0 : -1;
}

/* What the system's error is to the person, where that has better words; and what to do, in which # is the word that
** the name is given for.
*/
static const struct {
    int error;
    const char *why, *then;
} failures[] = {
    {ENOENT, "there is no such folder", "Make the folder or give # a name in one that is there"},
    {ENOTDIR, NULL, "Give # a name in a folder"},
    {EACCES, "there is no permission to write in its folder",
        "Ask for that permission or give # a name in another folder"},
    {EPERM, "there is no permission to write in its folder",
        "Ask for that permission or give # a name in another folder"},
    {EROFS, "the disk can only be read", "Give # a name on another disk"},
    {ENOSPC, NULL, "Make room or give # a name on another disk"},
    {EDQUOT, NULL, "Make room or give # a name on another disk"},
    {EFBIG, NULL, "Give # a name on a disk that takes files of that size"},
    {ENAMETOOLONG, NULL, "Give # a shorter name"},
    {0, NULL, "Give # another name"},
};

static int unwritten(const struct whole *whole, int error)
{
    size_t i = 0;
    while (failures[i].error != 0 && failures[i].error != error)
        i++;
    const char *then = failures[i].then;
    int before = (int)strcspn(then, "#");
    failed(whole->name, "cannot be written: ", failures[i].why != NULL ? failures[i].why : strerror(error));
    fprintf(stderr, "    Nothing under that name has changed. %.*s%s%s, and call again.\n", before, then, whole->word,
        then + before + 1);
    return FAILED;
}

/* The name itself is on the disk only when the folder is; not every disk can be asked for that. */
static int keep_name(const char *name)
{
    if (fsync(folder) == 0 || errno == EINVAL || errno == ENOTSUP)
        return COMPLETE;
    return failed(name, "written, but the disk did not confirm its name; call again: ", strerror(errno));
}

void begin_whole(struct whole *whole, const char *name, const char *word)
{
    *whole = (struct whole){.name = name, .word = word, .to = -1};
}

void drop_whole(struct whole *whole)
{
    if (whole->to >= 0) {
        close(whole->to);
        settle_name(0, whole->last);
    }
    if (folder >= 0)
        close(folder);
    whole->to = folder = -1;
}

/* What goes wrong is told at the end: only then is it known whether there was to be a file at all. */
static void give_up(struct whole *whole)
{
    whole->why = errno != 0 ? errno : EIO;
    drop_whole(whole);
}

static void open_whole(struct whole *whole)
{
    said_len = (size_t)snprintf(said, sizeof said, "\rimport: interrupted; nothing under the name of %s has changed\n",
        whole->word);
    watch_signals();
    folder = open_folder(whole->name, &whole->last);
    whole->to = folder < 0 ? -1 : open_unfinished();
    if (whole->to < 0 || keep_mode(whole->to, whole->last) != 0)
        give_up(whole);
}

void write_more(struct whole *whole, const uint8_t *bytes, size_t len)
{
    if (whole->why == 0 && whole->to < 0)
        open_whole(whole);
    if (whole->why == 0 && write_all(whole->to, bytes, len) != 0)
        give_up(whole);
}

int tell_written(const char *name)
{
    if (fflush(stdout) == 0 && !ferror(stdout))
        return COMPLETE;
    return failed(name, "written whole; ", "only the lines about it are lost");
}

/* The disk has the bytes before they have the name. */
int end_whole(struct whole *whole)
{
    if (whole->why == 0 && fsync(whole->to) != 0)
        give_up(whole);
    if (whole->why != 0)
        return unwritten(whole, whole->why);
    int is_good = close(whole->to) == 0;
    int outcome = settle_name(is_good, whole->last) == 0 ? keep_name(whole->name) : unwritten(whole, errno);
    close(folder);
    whole->to = folder = -1;
    return outcome;
}
