/*
 * Faults for the tests of the programs. Loaded before the C library (LD_PRELOAD), it answers a program's reads as the variable READS says, and its
 * writes to standard output as WRITES says, word by word: a number moves at most that many bytes, E and a number fails with that errno. Behind the
 * last word all is as usual, and so is a read of no bytes, which asks whether a descriptor is open. Where READS_OF is set, READS speaks of that
 * descriptor alone.
 */
#define _GNU_SOURCE
#include <errno.h>
#include <stdlib.h>
#include <sys/syscall.h>
#include <unistd.h>

/* The next word: how many bytes to move at most, or -1 with errno set. */
static long turn(const char **at, size_t n)
{
    if (!*at || !**at)
        return (long)n;
    const int fails = **at == 'E';
    char *end;
    const long number = strtol(*at + fails, &end, 10);
    *at = *end ? end + 1 : end;
    if (fails) {
        errno = (int)number;
        return -1;
    }
    return number < (long)n ? number : (long)n;
}

ssize_t read(int fd, void *bytes, size_t n)
{
    static const char *at, *words;
    const char *of = getenv("READS_OF");
    if (n == 0 || (of && fd != atoi(of)))
        return syscall(SYS_read, fd, bytes, n);
    if (!words)
        at = words = getenv("READS") ? getenv("READS") : "";
    const long most = turn(&at, n);
    return most < 0 ? -1 : syscall(SYS_read, fd, bytes, (size_t)most);
}

ssize_t write(int fd, const void *bytes, size_t n)
{
    static const char *at, *words;
    if (fd != 1)
        return syscall(SYS_write, fd, bytes, n);
    if (!words)
        at = words = getenv("WRITES") ? getenv("WRITES") : "";
    const long most = turn(&at, n);
    return most < 0 ? -1 : syscall(SYS_write, fd, bytes, (size_t)most);
}
