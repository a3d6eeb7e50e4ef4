/* Preloaded before a program: gives at most READ_MOST bytes of standard input a call and fails the call number READ_FAILS,
   counted from 1; takes at most WRITE_MOST bytes for standard output a call, and fails when it has taken WRITE_ROOM bytes. Where
   READ_OF or WRITE_OF is set, it does so with the file whose path ends with that, in the place of standard input or output.
   A variable that is not set changes nothing. A call that fails makes the file FAILED. */
#define _GNU_SOURCE
#include <dlfcn.h>
#include <errno.h>
#include <fcntl.h>
#include <stdio.h>
#include <stdlib.h>
#include <string.h>
#include <unistd.h>

static long reads;
static size_t taken;

static int fail(int error)
{
    const char *mark = getenv("FAILED");
    int file = mark == NULL ? -1 : open(mark, O_CREAT | O_WRONLY, 0600);

    if (file >= 0)
        close(file);
    errno = error;
    return -1;
}

static size_t at_most(const char *name, size_t size)
{
    const char *text = getenv(name);
    size_t most = text == NULL ? size : (size_t)atol(text);
    return size < most ? size : most;
}

static int is_meant(int file, const char *name, int stream)
{
    const char *end = getenv(name);
    char link[32], path[4096];
    ssize_t size;

    if (end == NULL)
        return file == stream;
    snprintf(link, sizeof link, "/proc/self/fd/%d", file);
    size = readlink(link, path, sizeof path);
    return size >= (ssize_t)strlen(end) && memcmp(path + size - strlen(end), end, strlen(end)) == 0;
}

ssize_t read(int from, void *bytes, size_t size)
{
    static ssize_t (*next)(int, void *, size_t);
    const char *number = getenv("READ_FAILS");

    if (next == NULL)
        next = (ssize_t (*)(int, void *, size_t))dlsym(RTLD_NEXT, "read");
    if (!is_meant(from, "READ_OF", STDIN_FILENO))
        return next(from, bytes, size);
    if (number != NULL && ++reads == atol(number))
        return fail(EIO);
    return next(from, bytes, at_most("READ_MOST", size));
}

ssize_t write(int to, const void *bytes, size_t size)
{
    static ssize_t (*next)(int, const void *, size_t);
    const char *room = getenv("WRITE_ROOM");
    ssize_t written;

    if (next == NULL)
        next = (ssize_t (*)(int, const void *, size_t))dlsym(RTLD_NEXT, "write");
    if (!is_meant(to, "WRITE_OF", STDOUT_FILENO))
        return next(to, bytes, size);
    size = at_most("WRITE_MOST", size);
    if (room != NULL) {
        size_t left = (size_t)atol(room) - taken;
        if (left == 0)
            return fail(ENOSPC);
        size = size < left ? size : left;
    }
    written = next(to, bytes, size);
    if (written > 0)
        taken += (size_t)written;
    return written;
}
