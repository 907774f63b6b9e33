/* Loaded before the C library: refuses the allocation whose number is REFUSED, and makes the file MET if there was one. */
#define _GNU_SOURCE
#include <dlfcn.h>
#include <fcntl.h>
#include <stdlib.h>

/* Whether this call is the one to refuse. */
static int is_refused(void) {
    static long left = -1;
    static int known = 0;
    if (!known) {
        const char *text = getenv("REFUSED");
        known = 1;
        left = text ? atol(text) : 0;
    }
    if (left <= 0 || --left > 0) return 0;
    /* says that there was such a call */
    open(getenv("MET"), O_CREAT | O_WRONLY, 0600);
    return 1;
}

void *malloc(size_t size) {
    static void *(*next)(size_t);
    if (!next) next = (void *(*)(size_t))dlsym(RTLD_NEXT, "malloc");
    return is_refused() ? NULL : next(size);
}

void *realloc(void *old, size_t size) {
    static void *(*next)(void *, size_t);
    if (!next) next = (void *(*)(void *, size_t))dlsym(RTLD_NEXT, "realloc");
    return is_refused() ? NULL : next(old, size);
}
