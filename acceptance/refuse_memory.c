/* Loaded before a program: its allocation number REFUSED, counted from 1, is refused, and each second one of LARGE bytes or
 * more in threads other than the first. Where one was refused the file MARK is there. */
#define _GNU_SOURCE
#include <dlfcn.h>
#include <fcntl.h>
#include <stdatomic.h>
#include <stdlib.h>
#include <unistd.h>

static int is_numbered(void)
{
    static atomic_long made;
    const char *refused = getenv("REFUSED");
    return refused && atomic_fetch_add(&made, 1) + 1 == atol(refused);
}

static int is_large(size_t size)
{
    static atomic_ulong made;
    const char *large = getenv("LARGE");
    if (!large || size < strtoul(large, NULL, 10) || gettid() == getpid())
        return 0;
    return atomic_fetch_add(&made, 1) % 2;
}

static int is_refused(size_t size)
{
    if (!is_numbered() && !is_large(size))
        return 0;
    close(creat(getenv("MARK"), 0600));
    return 1;
}

void *malloc(size_t size)
{
    static void *(*next)(size_t);
    if (!next)
        next = dlsym(RTLD_NEXT, "malloc");
    return is_refused(size) ? NULL : next(size);
}

void *realloc(void *old, size_t size)
{
    static void *(*next)(void *, size_t);
    if (!next)
        next = dlsym(RTLD_NEXT, "realloc");
    return is_refused(size) ? NULL : next(old, size);
}
