/* Loaded before the C library: makes the allocation whose number FAIL_AT gives fail, counted from 1, and writes the number of
   allocations to the file that COUNT_TO names. */
#define _GNU_SOURCE
#include <dlfcn.h>
#include <errno.h>
#include <stdio.h>
#include <stdlib.h>

static long made, fail_at = -1;

static int fails(void) {
    static int begun;
    if (!begun) {
        begun = 1;
        if (getenv("FAIL_AT")) fail_at = atol(getenv("FAIL_AT"));
    }
    return ++made == fail_at;
}

void *malloc(size_t size) {
    static void *(*next)(size_t);
    if (!next) next = dlsym(RTLD_NEXT, "malloc");
    if (fails()) { errno = ENOMEM; return NULL; }
    return next(size);
}

void *realloc(void *block, size_t size) {
    static void *(*next)(void *, size_t);
    if (!next) next = dlsym(RTLD_NEXT, "realloc");
    if (fails()) { errno = ENOMEM; return NULL; }
    return next(block, size);
}

int posix_memalign(void **block, size_t alignment, size_t size) {
    static int (*next)(void **, size_t, size_t);
    if (!next) next = dlsym(RTLD_NEXT, "posix_memalign");
    if (fails()) return ENOMEM;
    return next(block, alignment, size);
}

void *aligned_alloc(size_t alignment, size_t size) {
    static void *(*next)(size_t, size_t);
    if (!next) next = dlsym(RTLD_NEXT, "aligned_alloc");
    if (fails()) { errno = ENOMEM; return NULL; }
    return next(alignment, size);
}

__attribute__((destructor)) static void tell(void) {
    FILE *file = getenv("COUNT_TO") ? fopen(getenv("COUNT_TO"), "w") : NULL;
    if (file) {
        fprintf(file, "%ld\n", made);
        fclose(file);
    }
}
