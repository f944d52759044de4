/*
 * A slow disk for one program. Loaded before it (LD_PRELOAD), it waits SLOW_MILLISECONDS before each open, write, fsync,
 * rename and unlink of a file below SLOW_FOLDER.
 */
#define _GNU_SOURCE
#include <fcntl.h>
#include <limits.h>
#include <stdarg.h>
#include <stdbool.h>
#include <stdio.h>
#include <stdlib.h>
#include <string.h>
#include <sys/syscall.h>
#include <time.h>
#include <unistd.h>

static void wait_once(void)
{
    const char *text = getenv("SLOW_MILLISECONDS");
    long milliseconds = text ? strtol(text, NULL, 10) : 0;
    struct timespec time = {milliseconds / 1000, milliseconds % 1000 * 1000000};
    nanosleep(&time, NULL);
}

static bool is_slow_path(const char *path)
{
    const char *folder = getenv("SLOW_FOLDER");
    return folder && path && strncmp(path, folder, strlen(folder)) == 0 && path[strlen(folder)] == '/';
}

static bool is_slow_file(int file)
{
    char link[64], path[PATH_MAX];
    snprintf(link, sizeof link, "/proc/self/fd/%d", file);
    ssize_t size = readlink(link, path, sizeof path - 1);
    if (size <= 0)
        return false;
    path[size] = '\0';
    return is_slow_path(path);
}

static int opened(int folder, const char *path, int flags, mode_t mode)
{
    if (is_slow_path(path))
        wait_once();
    return (int)syscall(SYS_openat, folder, path, flags, mode);
}

static mode_t mode_of(int flags, va_list rest)
{
    return flags & (O_CREAT | O_TMPFILE) ? (mode_t)va_arg(rest, int) : 0;
}

int open(const char *path, int flags, ...)
{
    va_list rest;
    va_start(rest, flags);
    mode_t mode = mode_of(flags, rest);
    va_end(rest);
    return opened(AT_FDCWD, path, flags, mode);
}

int open64(const char *path, int flags, ...)
{
    va_list rest;
    va_start(rest, flags);
    mode_t mode = mode_of(flags, rest);
    va_end(rest);
    return opened(AT_FDCWD, path, flags, mode);
}

int openat(int folder, const char *path, int flags, ...)
{
    va_list rest;
    va_start(rest, flags);
    mode_t mode = mode_of(flags, rest);
    va_end(rest);
    return opened(folder, path, flags, mode);
}

ssize_t write(int file, const void *octets, size_t size)
{
    if (is_slow_file(file))
        wait_once();
    return syscall(SYS_write, file, octets, size);
}

int fsync(int file)
{
    if (is_slow_file(file))
        wait_once();
    return (int)syscall(SYS_fsync, file);
}

int rename(const char *from, const char *to)
{
    if (is_slow_path(from) || is_slow_path(to))
        wait_once();
    return (int)syscall(SYS_renameat2, AT_FDCWD, from, AT_FDCWD, to, 0);
}

int unlink(const char *path)
{
    if (is_slow_path(path))
        wait_once();
    return (int)syscall(SYS_unlinkat, AT_FDCWD, path, 0);
}
