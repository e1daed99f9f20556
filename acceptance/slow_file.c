/* Loaded before a program: each write to a file of the folder FOLDER takes SLOW seconds. */
#define _GNU_SOURCE
#include <limits.h>
#include <stdio.h>
#include <stdlib.h>
#include <string.h>
#include <sys/syscall.h>
#include <unistd.h>

static int is_of(int fd)
{
    char link[64], path[PATH_MAX];
    const char *folder = getenv("FOLDER");
    snprintf(link, sizeof link, "/proc/self/fd/%d", fd);
    ssize_t size = readlink(link, path, sizeof path - 1);
    if (size < 0 || !folder)
        return 0;
    path[size] = 0;
    return !strncmp(path, folder, strlen(folder));
}

ssize_t write(int fd, const void *bytes, size_t size)
{
    const char *slow = getenv("SLOW");
    if (slow && is_of(fd))
        sleep(atoi(slow));
    return syscall(SYS_write, fd, bytes, size);
}
