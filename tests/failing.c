/* Put before the C library (LD_PRELOAD): on standard input and output, read and write that fail as the environment says. INTERRUPT=1: every other call is
 * interrupted by a signal. CUT=N: reading fails with EIO once N bytes have been read. PIECES=N: a call moves at most N bytes. STALL=N: the first N writes move
 * nothing. SIGNALS=N: the first N writes are interrupted. */
#define _GNU_SOURCE
#include <dlfcn.h>
#include <errno.h>
#include <stdlib.h>
#include <unistd.h>

typedef ssize_t call(int, void *, size_t);

static long setting(const char *name, long otherwise)
{
    const char *value = getenv(name);
    return value ? atol(value) : otherwise;
}

/* The call of the C library, interrupted every other time, on at most so many bytes. */
static ssize_t through(const char *name, int fd, void *buffer, size_t n)
{
    static int turn;
    call *real;
    *(void **)&real = dlsym(RTLD_NEXT, name);
    if (fd > 1)
        return real(fd, buffer, n);
    if (setting("INTERRUPT", 0) && ++turn % 2) {
        errno = EINTR;
        return -1;
    }
    size_t most = (size_t)setting("PIECES", (long)n);
    return real(fd, buffer, n < most ? n : most);
}

ssize_t read(int fd, void *buffer, size_t n)
{
    static size_t before;
    size_t left = (size_t)setting("CUT", 1L << 40) - before;
    if (fd == 0 && left == 0) {
        errno = EIO;
        return -1;
    }
    ssize_t got = through("read", fd, buffer, fd == 0 && left < n ? left : n);
    if (fd == 0 && got > 0)
        before += (size_t)got;
    return got;
}

ssize_t write(int fd, const void *buffer, size_t n)
{
    static long writes;
    if (fd == 1 && ++writes <= setting("STALL", 0))
        return 0;
    if (fd == 1 && writes <= setting("SIGNALS", 0)) {
        errno = EINTR;
        return -1;
    }
    return through("write", fd, (void *)buffer, n);
}
