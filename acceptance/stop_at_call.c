/* Loaded before a program: counts what it does to the files of the folder FOLDER (a file made, written, synced, closed, renamed or
 * removed; the folder synced), and at call number AT, counted from 1, does what HOW says. HOW=kill: the process is killed; of a write
 * half is made before. HOW=fill: this call and all later ones that take room fail, as on a full disk; of the first write half is
 * made. HOW=move: the folder is moved to FOLDER.moved. The file MADE has the number of calls so far. */
#define _GNU_SOURCE
#include <dlfcn.h>
#include <errno.h>
#include <fcntl.h>
#include <limits.h>
#include <signal.h>
#include <stdarg.h>
#include <stdatomic.h>
#include <stdio.h>
#include <stdlib.h>
#include <string.h>
#include <sys/syscall.h>
#include <unistd.h>

static atomic_long made;
static atomic_int is_full;

static int is_how(const char *word)
{
    const char *how = getenv("HOW");
    return how && !strcmp(how, word);
}

static int is_inside(const char *path)
{
    const char *folder = getenv("FOLDER");
    return folder && path && !strncmp(path, folder, strlen(folder));
}

static int is_of(int fd)
{
    char link[64], path[PATH_MAX];
    snprintf(link, sizeof link, "/proc/self/fd/%d", fd);
    ssize_t size = readlink(link, path, sizeof path - 1);
    if (size < 0)
        return 0;
    path[size] = 0;
    return is_inside(path);
}

static void tell(long number)
{
    char text[32];
    const char *path = getenv("MADE");
    int fd = path ? syscall(SYS_openat, AT_FDCWD, path, O_WRONLY | O_CREAT | O_TRUNC, 0600) : -1;
    if (fd >= 0) {
        syscall(SYS_write, fd, text, snprintf(text, sizeof text, "%ld\n", number));
        syscall(SYS_close, fd);
    }
}

/* Whether this call is the one. */
static int is_at(void)
{
    const char *at = getenv("AT");
    long number = atomic_fetch_add(&made, 1) + 1;
    tell(number);
    if (number != (at ? atol(at) : 0))
        return 0;
    if (is_how("move")) {
        char moved[PATH_MAX];
        snprintf(moved, sizeof moved, "%s.moved", getenv("FOLDER"));
        syscall(SYS_renameat, AT_FDCWD, getenv("FOLDER"), AT_FDCWD, moved);
    }
    if (is_how("fill"))
        atomic_store(&is_full, 1);
    return 1;
}

static void stop(void)
{
    syscall(SYS_kill, getpid(), SIGKILL);
}

static int refused(void)
{
    errno = ENOSPC;
    return -1;
}

/* Before a call that takes room or, where `takes` is 0, none: whether it's refused. */
static int is_refused(int takes)
{
    if (is_at() && is_how("kill"))
        stop();
    return takes && atomic_load(&is_full);
}

static int open_at(int dir, const char *path, int flags, mode_t mode)
{
    if ((flags & O_CREAT) && is_inside(path) && is_refused(1))
        return refused();
    return syscall(SYS_openat, dir, path, flags, mode);
}

#define OPEN(name)                                  \
    int name(const char *path, int flags, ...)      \
    {                                               \
        va_list more;                               \
        va_start(more, flags);                      \
        mode_t mode = va_arg(more, int);            \
        va_end(more);                               \
        return open_at(AT_FDCWD, path, flags, mode);\
    }
OPEN(open)
OPEN(open64)

#define OPENAT(name)                                         \
    int name(int dir, const char *path, int flags, ...)      \
    {                                                        \
        va_list more;                                        \
        va_start(more, flags);                               \
        mode_t mode = va_arg(more, int);                     \
        va_end(more);                                        \
        return open_at(dir, path, flags, mode);              \
    }
OPENAT(openat)
OPENAT(openat64)

ssize_t write(int fd, const void *bytes, size_t size)
{
    if (!is_of(fd))
        return syscall(SYS_write, fd, bytes, size);
    int was_full = atomic_load(&is_full), at = is_at();
    if (at && is_how("kill")) {
        syscall(SYS_write, fd, bytes, size / 2);
        stop();
    }
    if (atomic_load(&is_full)) {
        if (was_full || size < 2)
            return refused();
        size /= 2;
    }
    return syscall(SYS_write, fd, bytes, size);
}

int close(int fd)
{
    if (is_of(fd))
        is_refused(0);
    return syscall(SYS_close, fd);
}

int fsync(int fd)
{
    return is_of(fd) && is_refused(1) ? refused() : syscall(SYS_fsync, fd);
}

int rename(const char *old, const char *new)
{
    return is_inside(old) && is_refused(1) ? refused() : syscall(SYS_renameat, AT_FDCWD, old, AT_FDCWD, new);
}

int unlink(const char *path)
{
    if (is_inside(path))
        is_refused(0);
    return syscall(SYS_unlinkat, AT_FDCWD, path, 0);
}
