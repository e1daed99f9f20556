/* Loaded before a program: appends a line to the file MOVES for each file of the folder FOLDER that is renamed, `rename NAME N`, or
 * removed, `unlink NAME N`, in the order in which that is done; N counts them. A file that was renamed stays as MOVES.N. */
#define _GNU_SOURCE
#include <fcntl.h>
#include <limits.h>
#include <stdatomic.h>
#include <stdio.h>
#include <stdlib.h>
#include <string.h>
#include <sys/syscall.h>
#include <unistd.h>

static atomic_long made;

static void note(const char *what, const char *path)
{
    const char *folder = getenv("FOLDER"), *moves = getenv("MOVES");
    if (!folder || !moves || strncmp(path, folder, strlen(folder)))
        return;
    char line[PATH_MAX + 64], kept[PATH_MAX];
    long number = atomic_fetch_add(&made, 1);
    int size = snprintf(line, sizeof line, "%s %s %ld\n", what, path + strlen(folder) + 1, number);
    snprintf(kept, sizeof kept, "%s.%ld", moves, number);
    syscall(SYS_linkat, AT_FDCWD, path, AT_FDCWD, kept, 0);
    int fd = syscall(SYS_openat, AT_FDCWD, moves, O_WRONLY | O_CREAT | O_APPEND, 0600);
    if (fd >= 0) {
        syscall(SYS_write, fd, line, size);
        syscall(SYS_close, fd);
    }
}

int rename(const char *old, const char *new)
{
    int done = syscall(SYS_renameat, AT_FDCWD, old, AT_FDCWD, new);
    if (!done)
        note("rename", new);
    return done;
}

int unlink(const char *path)
{
    int done = syscall(SYS_unlinkat, AT_FDCWD, path, 0);
    if (!done)
        note("unlink", path);
    return done;
}
