/* Faults for the test of the import tool's reading and writing: linked with the linker's --wrap, these stand between
** the tool and the calls that read a stick, make room for one and write a result. The variable IMPORT_FAULTS says which
** of them goes wrong, and how, as a list of CALL:TIME:WHAT parted by blanks: of that call's first, second.. time,
** counted from 1,
**
**     a number     it fails with that error
**     half         it is made for half of the bytes (write)
**     -NUMBER      the program gets that signal, and then it is made
*/
#define _GNU_SOURCE
#include <errno.h>
#include <fcntl.h>
#include <signal.h>
#include <stdio.h>
#include <stdlib.h>
#include <string.h>
#include <sys/types.h>

size_t __real_fread(void *to, size_t size, size_t count, FILE *from);
int __real_ferror(FILE *of);
void *__real_realloc(void *of, size_t len);
int __real_openat(int folder, const char *name, int how, ...);
ssize_t __real_write(int to, const void *bytes, size_t len);
int __real_fsync(int of);
int __real_close(int of);
int __real_renameat(int from, const char *name, int to, const char *new_name);

enum { HALF = 100000 };

/* What goes wrong now: 0 nothing, an error, HALF, or less than 0 a signal, which is sent here. */
static int fault_of(const char *call, int time)
{
    const char *faults = getenv("IMPORT_FAULTS");
    char key[32];
    int len = snprintf(key, sizeof key, "%s:%d:", call, time);
    const char *found = faults == NULL ? NULL : strstr(faults, key);
    if (found == NULL)
        return 0;
    if (strncmp(found + len, "half", 4) == 0)
        return HALF;
    int what = atoi(found + len);
    if (what < 0)
        raise(-what);
    return what;
}

static int fails(const char *call, int time)
{
    int what = fault_of(call, time);
    if (what > 0)
        errno = what;
    return what > 0;
}

/* What failed to be read stays so. */
static FILE *unreadable;

size_t __wrap_fread(void *to, size_t size, size_t count, FILE *from)
{
    static int time;
    if (!fails("fread", ++time))
        return __real_fread(to, size, count, from);
    unreadable = from;
    return 0;
}

int __wrap_ferror(FILE *of)
{
    return of == unreadable || __real_ferror(of);
}

void *__wrap_realloc(void *of, size_t len)
{
    static int time;
    return fails("realloc", ++time) ? NULL : __real_realloc(of, len);
}

int __wrap_openat(int folder, const char *name, int how, mode_t mode)
{
    static int time;
    return fails("openat", ++time) ? -1 : __real_openat(folder, name, how, mode);
}

ssize_t __wrap_write(int to, const void *bytes, size_t len)
{
    static int time;
    int what = fault_of("write", ++time);
    if (what == HALF)
        return __real_write(to, bytes, len / 2);
    errno = what > 0 ? what : errno;
    return what > 0 ? -1 : __real_write(to, bytes, len);
}

int __wrap_fsync(int of)
{
    static int time;
    return fails("fsync", ++time) ? -1 : __real_fsync(of);
}

/* What fails to be closed is closed all the same. */
int __wrap_close(int of)
{
    static int time;
    int closed = __real_close(of);
    return fails("close", ++time) ? -1 : closed;
}

int __wrap_renameat(int from, const char *name, int to, const char *new_name)
{
    static int time;
    return fails("renameat", ++time) ? -1 : __real_renameat(from, name, to, new_name);
}
