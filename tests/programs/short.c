/*
 * Reads and writes that move at most three bytes at a time, as the C library's may; and reads that fail once FAILS_AFTER bytes
 * have been read. Loaded before the C library (LD_PRELOAD) into a program under test.
 */
#define _GNU_SOURCE
#include <errno.h>
#include <stdlib.h>
#include <sys/syscall.h>
#include <unistd.h>

enum { MOST = 3 };

static size_t least(size_t a, size_t b)
{
    return a < b ? a : b;
}

ssize_t read(int file, void *to, size_t count)
{
    static size_t done = 0;
    size_t left = strtoul(getenv("FAILS_AFTER"), NULL, 10) - done;
    if (left == 0) {
        errno = EIO;
        return -1;
    }
    ssize_t got = syscall(SYS_read, file, to, least(least(count, MOST), left));
    if (got > 0)
        done += (size_t)got;
    return got;
}

ssize_t write(int file, const void *from, size_t count)
{
    return syscall(SYS_write, file, from, least(count, MOST));
}
