/* Lets one allocation of a program fail, or all from one on. It is loaded before the C library by LD_PRELOAD.
   FAIL_AT=K: the K-th call, from 1 on, finds no memory. FAIL_ON=1: so does each call behind it. COUNT_TO=F: at its end the program writes the number of its calls to file descriptor F. */
#define _GNU_SOURCE
#include <dlfcn.h>
#include <errno.h>
#include <stdio.h>
#include <stdlib.h>
#include <unistd.h>

static void *(*next_malloc)(size_t);
static void *(*next_calloc)(size_t, size_t);
static void *(*next_realloc)(void *, size_t);
static void *(*next_aligned_alloc)(size_t, size_t);
static int (*next_posix_memalign)(void **, size_t, size_t);
static long calls, fail_at;
static int fail_on, is_ready;

static void get_ready(void) {
    static int has_begun;
    if (has_begun) return;
    has_begun = 1;
    next_malloc = dlsym(RTLD_NEXT, "malloc");
    next_calloc = dlsym(RTLD_NEXT, "calloc");
    next_realloc = dlsym(RTLD_NEXT, "realloc");
    next_aligned_alloc = dlsym(RTLD_NEXT, "aligned_alloc");
    next_posix_memalign = dlsym(RTLD_NEXT, "posix_memalign");
    fail_at = getenv("FAIL_AT") ? atol(getenv("FAIL_AT")) : 0;
    fail_on = getenv("FAIL_ON") != NULL;
    is_ready = 1;
}

static int fails(void) {
    get_ready();
    if (!is_ready) return 0;
    calls++;
    if (fail_at == 0 || calls < fail_at || (calls > fail_at && !fail_on)) return 0;
    errno = ENOMEM;
    return 1;
}

/* What dlsym itself takes before the next calloc is known: never given back. */
static void *early(size_t size) {
    static _Alignas(16) char room[4096];
    static size_t taken;
    void *found = room + taken;
    taken += (size + 15) & ~(size_t)15;
    return taken <= sizeof room ? found : NULL;
}

void *malloc(size_t size) {
    if (fails()) return NULL;
    return next_malloc ? next_malloc(size) : early(size);
}

void *calloc(size_t count, size_t size) {
    if (fails()) return NULL;
    return next_calloc ? next_calloc(count, size) : early(count * size);
}

void *realloc(void *old, size_t size) { return fails() ? NULL : next_realloc(old, size); }

void *aligned_alloc(size_t alignment, size_t size) { return fails() ? NULL : next_aligned_alloc(alignment, size); }

int posix_memalign(void **found, size_t alignment, size_t size) { return fails() ? ENOMEM : next_posix_memalign(found, alignment, size); }

__attribute__((destructor)) static void tell(void) {
    char *to = getenv("COUNT_TO");
    if (to) dprintf(atoi(to), "%ld\n", calls);
}
