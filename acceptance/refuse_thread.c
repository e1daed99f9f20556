/* Loaded before a program: its thread number REFUSED_THREAD, counted from 1, can't be started. Where one was refused the
 * file MARK is there. */
#define _GNU_SOURCE
#include <dlfcn.h>
#include <errno.h>
#include <fcntl.h>
#include <pthread.h>
#include <stdatomic.h>
#include <stdlib.h>
#include <unistd.h>

static int is_refused(void)
{
    static atomic_long started;
    const char *refused = getenv("REFUSED_THREAD");
    if (!refused || atomic_fetch_add(&started, 1) + 1 != atol(refused))
        return 0;
    close(creat(getenv("MARK"), 0600));
    return 1;
}

int pthread_create(pthread_t *thread, const pthread_attr_t *attributes, void *(*run)(void *), void *with)
{
    int (*next)(pthread_t *, const pthread_attr_t *, void *(*)(void *), void *) = dlsym(RTLD_NEXT, "pthread_create");
    return is_refused() ? EAGAIN : next(thread, attributes, run, with);
}
