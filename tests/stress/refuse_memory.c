/* A library for LD_PRELOAD that refuses one allocation of a program. The environment variable REFUSE has its number, from 1. All other
   allocations go to the C library. When the program ends, the number of allocations is written to standard error. */
#define _GNU_SOURCE
#include <dlfcn.h>
#include <stdio.h>
#include <stdlib.h>

static unsigned long asked;

static int is_refused(void) {
    const char *number = getenv("REFUSE");
    asked++;
    return number && asked == strtoul(number, NULL, 10);
}

void *malloc(size_t size) {
    static void *(*next)(size_t);
    if (!next) *(void **)&next = dlsym(RTLD_NEXT, "malloc");
    return is_refused() ? NULL : next(size);
}

void *realloc(void *place, size_t size) {
    static void *(*next)(void *, size_t);
    if (!next) *(void **)&next = dlsym(RTLD_NEXT, "realloc");
    return is_refused() ? NULL : next(place, size);
}

__attribute__((destructor)) static void tell(void) { fprintf(stderr, "asked %lu\n", asked); }
