/*
 * Two archives in one process. With -DLIBRARY it is a shared object that links an archive; without, a program that loads two of these
 * and prints for each the version of its archive, and what its core answers of bytes that are no image. The status is 1 if a function
 * of either archive can be seen from outside.
 *
 *     versions ONE.so OTHER.so
 */
#define _GNU_SOURCE
#include "bootcore.h"

#include <inttypes.h>

typedef void asked(uint32_t *version, uint32_t *status, uint32_t *number);

#ifdef LIBRARY
asked ask;
void ask(uint32_t *version, uint32_t *status, uint32_t *number) {
    bootcore_seen seen;
    bootcore_refusal fault = {0, 0, 0, 0, 0};
    *version = bootcore_version();
    *status = bootcore_walk("no image", 8, &seen, &fault);
    *number = fault.number;
}
#else
#include <dlfcn.h>
#include <stdio.h>
#include <string.h>

int main(int argc, char **argv) {
    void *loaded[2] = {NULL, NULL};
    int i;
    for (i = 0; i < 2 && argc == 3; i++) {
        loaded[i] = dlopen(argv[i + 1], RTLD_NOW | RTLD_GLOBAL);
        if (!loaded[i]) {
            fprintf(stderr, "%s\n", dlerror());
            return 2;
        }
    }
    for (i = 0; i < 2 && argc == 3; i++) {
        void *found = dlsym(loaded[i], "ask");
        asked *ask;
        uint32_t version, status, number;
        if (!found) {
            return 2;
        }
        memcpy(&ask, &found, sizeof ask);
        ask(&version, &status, &number);
        printf("%" PRIu32 " %" PRIu32 " %" PRIu32 "\n", version, status, number);
        if (dlsym(loaded[i], "bootcore_version") || dlsym(loaded[i], "bootcore_walk")) {
            return 1;
        }
    }
    return dlsym(RTLD_DEFAULT, "bootcore_version") || argc != 3;
}
#endif
