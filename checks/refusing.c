/* Stands before the C library (LD_PRELOAD) and refuses one call for memory: the one whose number GLACIER_REFUSES has, counted from 1. Where it did,
   it makes the file that GLACIER_REFUSED names. */
#define _GNU_SOURCE
#include <dlfcn.h>
#include <errno.h>
#include <fcntl.h>
#include <stdatomic.h>
#include <stddef.h>
#include <stdlib.h>
#include <unistd.h>

static atomic_long calls;

static int refuses(void) {
    static long which = -1;
    if (which < 0) {
        const char *asked = getenv("GLACIER_REFUSES");
        which = asked ? atol(asked) : 0;
    }
    if (which == 0 || atomic_fetch_add(&calls, 1) + 1 != which) return 0;
    const char *mark = getenv("GLACIER_REFUSED");
    if (mark) close(open(mark, O_CREAT | O_WRONLY, 0600));
    errno = ENOMEM;
    return 1;
}

void *malloc(size_t size) {
    static void *(*next)(size_t);
    if (!next) next = dlsym(RTLD_NEXT, "malloc");
    return refuses() ? NULL : next(size);
}

void *realloc(void *old, size_t size) {
    static void *(*next)(void *, size_t);
    if (!next) next = dlsym(RTLD_NEXT, "realloc");
    return refuses() ? NULL : next(old, size);
}

void *aligned_alloc(size_t align, size_t size) {
    static void *(*next)(size_t, size_t);
    if (!next) next = dlsym(RTLD_NEXT, "aligned_alloc");
    return refuses() ? NULL : next(align, size);
}

int posix_memalign(void **out, size_t align, size_t size) {
    static int (*next)(void **, size_t, size_t);
    if (!next) next = dlsym(RTLD_NEXT, "posix_memalign");
    return refuses() ? ENOMEM : next(out, align, size);
}
