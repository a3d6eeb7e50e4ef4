/* Preloaded before a program: refuses its request for memory number REFUSE, counted from 1 over all its threads, and then
   makes the file REFUSED. Every other request is passed on. Where REFUSE_BEHIND is set, requests are counted behind each write to
   standard output that ends with that text, up to the next write there, from 1 each time; so one is refused behind each of them that has
   so many, and the file REFUSED gets a byte for each. */
#define _GNU_SOURCE
#include <dlfcn.h>
#include <errno.h>
#include <fcntl.h>
#include <stdlib.h>
#include <string.h>
#include <unistd.h>

static long asked;
static int is_behind;

static int refuses(void)
{
    const char *number = getenv("REFUSE");
    const char *mark = getenv("REFUSED");
    int file;

    if (number == NULL || mark == NULL || (getenv("REFUSE_BEHIND") != NULL && !is_behind))
        return 0;
    if (__atomic_add_fetch(&asked, 1, __ATOMIC_SEQ_CST) != atol(number))
        return 0;
    file = open(mark, O_CREAT | O_WRONLY | O_APPEND, 0600);
    if (file >= 0) {
        if (write(file, "x", 1) != 1)
            abort();
        close(file);
    }
    errno = ENOMEM;
    return 1;
}

ssize_t write(int to, const void *bytes, size_t size)
{
    static ssize_t (*next)(int, const void *, size_t);
    const char *behind = getenv("REFUSE_BEHIND");
    size_t length = behind == NULL ? 0 : strlen(behind);
    ssize_t written;

    if (next == NULL)
        next = (ssize_t (*)(int, const void *, size_t))dlsym(RTLD_NEXT, "write");
    if (behind == NULL || to != STDOUT_FILENO)
        return next(to, bytes, size);
    is_behind = 0;
    written = next(to, bytes, size);
    asked = 0;
    is_behind = size >= length && memcmp((const char *)bytes + size - length, behind, length) == 0;
    return written;
}

void *malloc(size_t size)
{
    static void *(*next)(size_t);
    if (next == NULL)
        next = (void *(*)(size_t))dlsym(RTLD_NEXT, "malloc");
    return refuses() ? NULL : next(size);
}

void *realloc(void *old, size_t size)
{
    static void *(*next)(void *, size_t);
    if (next == NULL)
        next = (void *(*)(void *, size_t))dlsym(RTLD_NEXT, "realloc");
    return refuses() ? NULL : next(old, size);
}

int posix_memalign(void **place, size_t alignment, size_t size)
{
    static int (*next)(void **, size_t, size_t);
    if (next == NULL)
        next = (int (*)(void **, size_t, size_t))dlsym(RTLD_NEXT, "posix_memalign");
    return refuses() ? ENOMEM : next(place, alignment, size);
}

void *aligned_alloc(size_t alignment, size_t size)
{
    static void *(*next)(size_t, size_t);
    if (next == NULL)
        next = (void *(*)(size_t, size_t))dlsym(RTLD_NEXT, "aligned_alloc");
    return refuses() ? NULL : next(alignment, size);
}
