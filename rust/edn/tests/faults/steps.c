/* Stands before some functions of the C library (LD_PRELOAD) and writes their names, a line each, to the file that STEPS names: in what order
 * a program makes a file its own, fills it and puts it in its place. */
#define _GNU_SOURCE
#include <fcntl.h>
#include <stdio.h>
#include <stdlib.h>
#include <string.h>
#include <sys/stat.h>
#include <sys/syscall.h>
#include <unistd.h>

static void step(const char *name)
{
    int log = (int)syscall(SYS_openat, AT_FDCWD, getenv("STEPS"), O_WRONLY | O_CREAT | O_APPEND, 0600);
    if (log < 0 || syscall(SYS_write, log, name, strlen(name)) < 0 || syscall(SYS_write, log, "\n", 1UL) < 0)
        abort();
    syscall(SYS_close, log);
}

ssize_t write(int fd, const void *buffer, size_t count)
{
    step("write");
    return syscall(SYS_write, fd, buffer, count);
}

int fchown(int fd, uid_t owner, gid_t group)
{
    step("fchown");
    return (int)syscall(SYS_fchown, fd, owner, group);
}

int fchmod(int fd, mode_t mode)
{
    step("fchmod");
    return (int)syscall(SYS_fchmod, fd, mode);
}

int fsync(int fd)
{
    struct stat file;
    step(fstat(fd, &file) == 0 && S_ISDIR(file.st_mode) ? "fsync of the folder" : "fsync");
    return (int)syscall(SYS_fsync, fd);
}

int rename(const char *from, const char *to)
{
    step("rename");
    return (int)syscall(SYS_rename, from, to);
}
