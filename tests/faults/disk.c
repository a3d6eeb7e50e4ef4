/* Preloaded before a program: counts the writes, changes of the length and syncs of the file whose path ends with DISK_OF, from 1.
   The call number DISK_FAILS fails with EIO, or with ENOSPC after half of a write if DISK_FULL is set; with it each later one fails.
   Each call that is made is appended to the file DISK_LOG: `w OFFSET SIZE` and the bytes, `l LENGTH`, or `s`, each with a newline.
   Each sync first sleeps for DISK_SLEEPS microseconds. A variable that is not set changes nothing. */
#define _GNU_SOURCE
#include <dlfcn.h>
#include <errno.h>
#include <fcntl.h>
#include <stdio.h>
#include <stdlib.h>
#include <string.h>
#include <unistd.h>

static long calls;

static int is_meant(int file)
{
    const char *end = getenv("DISK_OF");
    char link[32], path[4096];
    ssize_t size;

    if (end == NULL)
        return 0;
    snprintf(link, sizeof link, "/proc/self/fd/%d", file);
    size = readlink(link, path, sizeof path);
    return size >= (ssize_t)strlen(end) && memcmp(path + size - strlen(end), end, strlen(end)) == 0;
}

static int fails(void)
{
    const char *number = getenv("DISK_FAILS");

    calls++;
    return number != NULL && calls >= atol(number);
}

static void note(const char *head, const void *bytes, size_t size)
{
    const char *name = getenv("DISK_LOG");
    static ssize_t (*next)(int, const void *, size_t);
    int log = name == NULL ? -1 : open(name, O_CREAT | O_WRONLY | O_APPEND, 0600);

    if (log < 0)
        return;
    if (next == NULL)
        next = (ssize_t (*)(int, const void *, size_t))dlsym(RTLD_NEXT, "write");
    if (next(log, head, strlen(head)) < 0 || (size > 0 && next(log, bytes, size) < 0) || next(log, "\n", 1) < 0)
        abort();
    close(log);
}

ssize_t pwrite(int file, const void *bytes, size_t size, off_t at)
{
    static ssize_t (*next)(int, const void *, size_t, off_t);
    char head[64];
    ssize_t done;

    if (next == NULL)
        next = (ssize_t (*)(int, const void *, size_t, off_t))dlsym(RTLD_NEXT, "pwrite");
    if (!is_meant(file))
        return next(file, bytes, size, at);
    if (fails()) {
        if (getenv("DISK_FULL") != NULL && size > 1 && calls == atol(getenv("DISK_FAILS")))
            return next(file, bytes, size / 2, at);
        errno = getenv("DISK_FULL") != NULL ? ENOSPC : EIO;
        return -1;
    }
    done = next(file, bytes, size, at);
    if (done > 0) {
        snprintf(head, sizeof head, "w %lld %zd\n", (long long)at, done);
        note(head, bytes, (size_t)done);
    }
    return done;
}

int ftruncate(int file, off_t length)
{
    static int (*next)(int, off_t);
    char head[64];
    int done;

    if (next == NULL)
        next = (int (*)(int, off_t))dlsym(RTLD_NEXT, "ftruncate");
    if (!is_meant(file))
        return next(file, length);
    if (fails()) {
        errno = EIO;
        return -1;
    }
    done = next(file, length);
    if (done == 0) {
        snprintf(head, sizeof head, "l %lld", (long long)length);
        note(head, NULL, 0);
    }
    return done;
}

static int synced(int file, const char *name)
{
    int (*next)(int) = (int (*)(int))dlsym(RTLD_NEXT, name);
    const char *sleeps = getenv("DISK_SLEEPS");
    int done;

    if (!is_meant(file))
        return next(file);
    if (fails()) {
        errno = EIO;
        return -1;
    }
    if (sleeps != NULL)
        usleep((useconds_t)atol(sleeps));
    done = next(file);
    if (done == 0)
        note("s", NULL, 0);
    return done;
}

int fdatasync(int file)
{
    return synced(file, "fdatasync");
}

int fsync(int file)
{
    return synced(file, "fsync");
}
