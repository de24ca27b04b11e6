/* Lets one request for memory fail: the one whose number FAILING_ALLOCATION names, counted from 1. How many there were is
   written to standard error at the end. */
#define _GNU_SOURCE
#include <dlfcn.h>
#include <stdio.h>
#include <stdlib.h>

static long requests, failing;
static void *(*libc_malloc)(size_t);
static void *(*libc_realloc)(void *, size_t);

__attribute__((constructor)) static void begin(void) {
    const char *number = getenv("FAILING_ALLOCATION");
    libc_malloc = dlsym(RTLD_NEXT, "malloc");
    libc_realloc = dlsym(RTLD_NEXT, "realloc");
    failing = number ? atol(number) : 0;
    requests = 0;
}

__attribute__((destructor)) static void end(void) {
    fprintf(stderr, "%ld\n", requests);
}

void *malloc(size_t size) {
    if (!libc_malloc) libc_malloc = dlsym(RTLD_NEXT, "malloc");
    return ++requests == failing ? NULL : libc_malloc(size);
}

void *realloc(void *block, size_t size) {
    if (!libc_realloc) libc_realloc = dlsym(RTLD_NEXT, "realloc");
    return ++requests == failing ? NULL : libc_realloc(block, size);
}
