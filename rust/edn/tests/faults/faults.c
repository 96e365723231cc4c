/* Stands before the C library's read and write (LD_PRELOAD), for tests of what a program does when they are interrupted, short or fail.
 * FAULTS is a word for each of them: `short` (every other call is interrupted by a signal, the others move at most 7 bytes) or a number
 * (so many bytes are moved, then every call fails with EIO). READ_FAULTS is for descriptor 0, WRITE_FAULTS for descriptor 1. */
#define _GNU_SOURCE
#include <errno.h>
#include <stdlib.h>
#include <string.h>
#include <sys/syscall.h>
#include <unistd.h>

struct stream {
    const char *faults;
    size_t moved;
    unsigned calls;
};

/* How many of `count` bytes the next call may move; -1 where it answers that instead, with errno. */
static long allowed(struct stream *s, const char *variable, size_t count)
{
    s->faults = getenv(variable);
    if (s->faults == NULL)
        return (long)count;
    if (strcmp(s->faults, "short") == 0) {
        if (s->calls++ % 2 == 0) {
            errno = EINTR;
            return -1;
        }
        return (long)(count < 7 ? count : 7);
    }
    {
        size_t most = strtoul(s->faults, NULL, 10);
        if (s->moved >= most) {
            errno = EIO;
            return -1;
        }
        return (long)(count < most - s->moved ? count : most - s->moved);
    }
}

static ssize_t move(struct stream *s, long number, const char *variable, int fd, void *buffer, size_t count)
{
    long most = allowed(s, variable, count);
    long moved;
    if (most < 0)
        return -1;
    moved = syscall(number, fd, buffer, (size_t)most);
    if (moved > 0)
        s->moved += (size_t)moved;
    return moved;
}

ssize_t read(int fd, void *buffer, size_t count)
{
    static struct stream input;
    if (fd != 0)
        return syscall(SYS_read, fd, buffer, count);
    return move(&input, SYS_read, "READ_FAULTS", fd, buffer, count);
}

ssize_t write(int fd, const void *buffer, size_t count)
{
    static struct stream output;
    if (fd != 1)
        return syscall(SYS_write, fd, buffer, count);
    return move(&output, SYS_write, "WRITE_FAULTS", fd, (void *)buffer, count);
}
