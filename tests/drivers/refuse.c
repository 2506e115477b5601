/*
 * Refuses one growth of a program's memory, so that each can be refused in turn. tests/digest.py loads it before the C library.
 *
 *     cc -shared -fPIC -o refuse.so refuse.c -ldl
 *     LD_PRELOAD=./refuse.so REFUSED=N GROWTHS=FILE PROGRAM ..
 *
 * N counts from 1 on; 0 refuses none. At the program's end FILE has the number of its growths in decimal digits.
 */
#define _GNU_SOURCE
#include <dlfcn.h>
#include <errno.h>
#include <stdio.h>
#include <stdlib.h>
#include <string.h>

static unsigned long growths;

/* Whether this growth is the one. The environment is asked each time: growths begin before any code of ours is called. */
static int is_refused(void) {
    const char *refused = getenv("REFUSED");
    growths++;
    if (!refused || strtoul(refused, NULL, 10) != growths) {
        return 0;
    }
    errno = ENOMEM;
    return 1;
}

void *malloc(size_t length) {
    static void *(*next)(size_t);
    if (!next) {
        void *found = dlsym(RTLD_NEXT, "malloc");
        /* a pointer to an object is no pointer to a function in C99; their bytes are the same under POSIX */
        memcpy(&next, &found, sizeof next);
    }
    return is_refused() ? NULL : next(length);
}

void *realloc(void *old, size_t length) {
    static void *(*next)(void *, size_t);
    if (!next) {
        void *found = dlsym(RTLD_NEXT, "realloc");
        memcpy(&next, &found, sizeof next);
    }
    return is_refused() ? NULL : next(old, length);
}

__attribute__((destructor)) static void tell(void) {
    const unsigned long told = growths; /* without what the file needs */
    const char *name = getenv("GROWTHS");
    FILE *file = name ? fopen(name, "w") : NULL;
    if (file) {
        fprintf(file, "%lu\n", told);
        fclose(file);
    }
}
