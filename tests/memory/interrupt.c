/*
 * A preloaded library in which a signal seems to interrupt calls: every other call of read, pread and write fails with
 * EINTR, the first one included, and moves no byte.
 */
#define _GNU_SOURCE
#include <dlfcn.h>
#include <errno.h>
#include <stddef.h>
#include <sys/types.h>

/* Counts a call in `calls`. Returns whether a signal interrupts it, and sets errno then. */
static int interrupted(unsigned long *calls) {
    *calls += 1;
    if (*calls % 2 == 0)
        return 0;
    errno = EINTR;
    return 1;
}

ssize_t read(int file, void *bytes, size_t count) {
    static unsigned long calls;
    static ssize_t (*next)(int, void *, size_t);
    if (next == NULL)
        next = (ssize_t (*)(int, void *, size_t))dlsym(RTLD_NEXT, "read");
    return interrupted(&calls) ? -1 : next(file, bytes, count);
}

ssize_t pread(int file, void *bytes, size_t count, off_t at) {
    static unsigned long calls;
    static ssize_t (*next)(int, void *, size_t, off_t);
    if (next == NULL)
        next = (ssize_t (*)(int, void *, size_t, off_t))dlsym(RTLD_NEXT, "pread");
    return interrupted(&calls) ? -1 : next(file, bytes, count, at);
}

ssize_t write(int file, const void *bytes, size_t count) {
    static unsigned long calls;
    static ssize_t (*next)(int, const void *, size_t);
    if (next == NULL)
        next = (ssize_t (*)(int, const void *, size_t))dlsym(RTLD_NEXT, "write");
    return interrupted(&calls) ? -1 : next(file, bytes, count);
}
