/* A small virtual machine monitor: boots a kernel under KVM by way of bootcore. docs/KVM.md says more.
 *     vmm multiboot2|linux|linux64 MIB PROCESSORS LINE KERNEL [FILE..]
 * The files are modules, or the initial ramdisk; examples/kvm/run has words that are easier to type. */
#include "vmm.h"

#include <pthread.h>
#include <stdarg.h>
#include <stdio.h>
#include <stdlib.h>
#include <string.h>

void end(int status) {
    static pthread_mutex_t ended = PTHREAD_MUTEX_INITIALIZER; /* nobody unlocks it */
    pthread_mutex_lock(&ended);
    exit(status);
}

void fail(int status, const char *format, ...) {
    va_list more;
    va_start(more, format);
    fputs("vmm: ", stderr);
    vfprintf(stderr, format, more);
    fputc('\n', stderr);
    end(status);
}

static uint32_t number_in(const char *word, uint32_t least, uint32_t most, const char *what) {
    char *rest;
    unsigned long number = strtoul(word, &rest, 10);
    if (*rest || number < least || number > most) {
        fail(BAD_WORDS, "%s is from %u to %u, not '%s'", what, least, most, word);
    }
    return (uint32_t)number;
}

int main(int argc, char **argv) {
    const char *name = argc < 6 ? "" : argv[1];
    uint32_t protocol = !strcmp(name, "multiboot2") ? BOOTCORE_PROTOCOL_MULTIBOOT2
                        : !strcmp(name, "linux")    ? BOOTCORE_PROTOCOL_LINUX
                        : !strcmp(name, "linux64")  ? BOOTCORE_PROTOCOL_LINUX64
                                                    : 0;
    if (!protocol) {
        fail(BAD_WORDS, "usage: vmm multiboot2|linux|linux64 MIB PROCESSORS LINE KERNEL [FILE..]");
    }
    uint32_t mebibytes = number_in(argv[2], 2, 1 << 20, "memory in MiB");
    uint32_t count = number_in(argv[3], 1, MAX_PROCESSORS, "the number of processors");

    guest_memory memory = map_memory((uint64_t)mebibytes << 20);
    bootcore_bytes rsdp = lay_tables(&memory, count);
    bootcore_place places[BOOTCORE_MAX_PLACES];
    bootcore_handoff handoff = load_guest(&memory, rsdp, protocol, argv[4], argv + 5, argc - 5, places);
    static processor processors[MAX_PROCESSORS];
    make_machine(&memory);
    for (uint32_t i = 0; i < count; i++) {
        processors[i] = make_processor(i, i ? NULL : &handoff.registers);
    }
    start_serial();
    run_guest(processors, count);
}
