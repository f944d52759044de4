/*
 * Lets what a program asks of the system fail. Loaded before a program (LD_PRELOAD):
 *
 * - FAILED_WAIT is a number: so many calls of epoll_wait return as usual, and each after them fails with EIO.
 * - CHANGED_FILE is a path, and CHANGED_OPEN a number: the file there loses its last octet before it is opened for that
 *   time, counted from 1.
 */
#define _GNU_SOURCE
#include <errno.h>
#include <fcntl.h>
#include <stdarg.h>
#include <stdlib.h>
#include <string.h>
#include <sys/epoll.h>
#include <sys/stat.h>
#include <sys/syscall.h>
#include <unistd.h>

static long number_of(const char *name)
{
    const char *number = getenv(name);
    return number ? strtol(number, NULL, 10) : -1;
}

int epoll_pwait(int place, struct epoll_event *events, int most, int milliseconds, const sigset_t *mask)
{
    static long waits;
    long good = number_of("FAILED_WAIT");
    if (good >= 0 && waits++ >= good) {
        errno = EIO;
        return -1;
    }
    return (int)syscall(SYS_epoll_pwait, place, events, most, milliseconds, mask, sizeof(long));
}

int epoll_wait(int place, struct epoll_event *events, int most, int milliseconds)
{
    return epoll_pwait(place, events, most, milliseconds, NULL);
}

static void change(const char *path)
{
    static long opened;
    const char *changed = getenv("CHANGED_FILE");
    struct stat found;
    if (!changed || strcmp(path, changed) != 0 || ++opened != number_of("CHANGED_OPEN"))
        return;
    if (stat(path, &found) != 0 || truncate(path, found.st_size - 1) != 0)
        abort();
}

int openat(int folder, const char *path, int flags, ...)
{
    va_list more;
    va_start(more, flags);
    mode_t mode = flags & (O_CREAT | O_TMPFILE) ? va_arg(more, mode_t) : 0;
    va_end(more);
    change(path);
    return (int)syscall(SYS_openat, folder, path, flags, mode);
}

int open(const char *path, int flags, ...)
{
    va_list more;
    va_start(more, flags);
    mode_t mode = flags & (O_CREAT | O_TMPFILE) ? va_arg(more, mode_t) : 0;
    va_end(more);
    return openat(AT_FDCWD, path, flags, mode);
}

int open64(const char *path, int flags, ...) __attribute__((alias("open")));
