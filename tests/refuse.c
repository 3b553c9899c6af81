/* Refuses one growth of memory of the program that it is loaded into: the one of the number REFUSED, counted from 1 over all calls that
   take memory. With the number 0 none is refused. At the end the file GROWTHS gets how many there were. */
#define _GNU_SOURCE
#include <dlfcn.h>
#include <errno.h>
#include <stdio.h>
#include <stdlib.h>

static unsigned long calls, refused;
static int ready;

static int takes(void) {
    if (!ready) {
        const char *number = getenv("REFUSED");
        refused = number ? strtoul(number, NULL, 10) : 0;
        ready = 1;
    }
    calls++;
    return calls != refused;
}

void *malloc(size_t size) {
    static void *(*real)(size_t);
    if (!real) real = (void *(*)(size_t))dlsym(RTLD_NEXT, "malloc");
    if (takes()) return real(size);
    errno = ENOMEM;
    return NULL;
}

void *realloc(void *old, size_t size) {
    static void *(*real)(void *, size_t);
    if (!real) real = (void *(*)(void *, size_t))dlsym(RTLD_NEXT, "realloc");
    if (takes()) return real(old, size);
    errno = ENOMEM;
    return NULL;
}

void *aligned_alloc(size_t alignment, size_t size) {
    static void *(*real)(size_t, size_t);
    if (!real) real = (void *(*)(size_t, size_t))dlsym(RTLD_NEXT, "aligned_alloc");
    if (takes()) return real(alignment, size);
    errno = ENOMEM;
    return NULL;
}

int posix_memalign(void **place, size_t alignment, size_t size) {
    static int (*real)(void **, size_t, size_t);
    if (!real) real = (int (*)(void **, size_t, size_t))dlsym(RTLD_NEXT, "posix_memalign");
    return takes() ? real(place, alignment, size) : ENOMEM;
}

__attribute__((destructor)) static void tell(void) {
    unsigned long growths = calls;
    const char *name = getenv("GROWTHS");
    FILE *file = name ? fopen(name, "w") : NULL;
    if (file) {
        fprintf(file, "%lu\n", growths);
        fclose(file);
    }
}
