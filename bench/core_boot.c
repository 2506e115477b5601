/*
 * Boots a Linux kernel and an initial ramdisk by bootcore_boot, by way of a pool, in 512 MiB of memory, as often as is told.
 *
 *     core_boot KERNEL INITRD ROUNDS
 */
#define _XOPEN_SOURCE 700
#include "bootcore.h"

#include "files.h"

enum { POOL = 0x2400000, POOL_END = 0x10000000 };

int main(int argc, char **argv)
{
    static bootcore_place places[BOOTCORE_MAX_PLACES];
    const bootcore_region regions[] = {{0, 0x9F000, BOOTCORE_KIND_USABLE, 0}, {0x100000, SIZE - 0x100000, BOOTCORE_KIND_USABLE, 0}};
    const bootcore_machine machine = {
        .size = SIZE, .pool_base = POOL, .pool_length = POOL_END - POOL, .regions = regions, .region_count = 2};
    bootcore_refusal refusal = {0};
    bootcore_outcome outcome = {.places = places, .place_room = BOOTCORE_MAX_PLACES, .refusals = &refusal, .refusal_room = 1};
    bootcore_entry entry = {.protocol = BOOTCORE_PROTOCOL_LINUX};
    const bootcore_menu menu = {.entries = &entry, .entry_count = 1};
    bootcore_memory memory = {.bytes = calloc(SIZE, 1), .length = SIZE};
    input kernel, initrd;
    unsigned char *last;
    long rounds, round;
    if (argc != 4 || memory.bytes == NULL) return 1;
    kernel = open_file(argv[1]);
    initrd = open_file(argv[2]);
    rounds = strtol(argv[3], NULL, 10);
    entry.kernel = (bootcore_bytes){read_file(&kernel), kernel.length};
    entry.initrd = (bootcore_bytes){read_file(&initrd), initrd.length};
    for (round = 0; round < rounds; round++) {
        uint32_t status = bootcore_boot(&memory, &machine, &menu, &outcome);
        if (status != BOOTCORE_STATUS_DONE) {
            fprintf(stderr, "status %u, refusal %u\n", (unsigned)status, (unsigned)refusal.number);
            return 1;
        }
        last = (unsigned char *)memory.bytes + places[outcome.handoff.place_count - 1].address;
        printf("%ld %d\n", round, last[round]);
    }
    return 0;
}
