/* Loaded before the C library by program/test: every other read is interrupted, a read or write moves few bytes, a read fails in the
   middle, and each write to standard output is told of on standard error. */
#define _GNU_SOURCE
#include <dlfcn.h>
#include <errno.h>
#include <stdio.h>
#include <stdlib.h>
#include <unistd.h>

static size_t least(size_t n, const char *name) {
    const char *text = getenv(name);
    size_t most = text ? (size_t)atoi(text) : n;
    return n < most ? n : most;
}

ssize_t read(int fd, void *bytes, size_t n) {
    static ssize_t (*next)(int, void *, size_t);
    static int calls;
    if (!next)
        next = (ssize_t(*)(int, void *, size_t))dlsym(RTLD_NEXT, "read");
    if (calls++ % 2 == 0) {
        errno = EINTR;
        return -1;
    }
    const char *after = getenv("READ_FAILS_AFTER");
    if (after && calls / 2 > atoi(after)) {
        errno = EIO;
        return -1;
    }
    return next(fd, bytes, least(n, "READ_AT_MOST"));
}

ssize_t write(int fd, const void *bytes, size_t n) {
    static ssize_t (*next)(int, const void *, size_t);
    static int calls;
    if (!next)
        next = (ssize_t(*)(int, const void *, size_t))dlsym(RTLD_NEXT, "write");
    if (fd != STDOUT_FILENO)
        return next(fd, bytes, n);
    if (getenv("WRITE_INTERRUPTED") && calls++ % 2 == 0) {
        errno = EINTR;
        return -1;
    }
    n = least(n, "WRITE_AT_MOST");
    next(STDERR_FILENO, "w", 1);
    return next(fd, bytes, n);
}
