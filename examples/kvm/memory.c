/* The guest's memory: a fresh mapping, which is zero, and of which the host gives what is touched. */
#define _DEFAULT_SOURCE
#include "vmm.h"

#include <errno.h>
#include <string.h>
#include <sys/mman.h>

guest_memory map_memory(uint64_t size) {
    uint8_t *bytes = mmap(NULL, size + TABLES_SIZE, PROT_READ | PROT_WRITE, MAP_PRIVATE | MAP_ANONYMOUS | MAP_NORESERVE, -1, 0);
    if (bytes == MAP_FAILED) {
        fail(FAILED, "no room for the guest's memory: %s", strerror(errno));
    }
    uint64_t low_size = size < LOW_END ? size : LOW_END; /* above are devices, as in a PC */
    return (guest_memory){bytes, bytes + low_size, bytes + size, low_size, size - low_size};
}
