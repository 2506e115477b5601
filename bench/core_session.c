/*
 * Boots a Multiboot2 kernel with a module by way of a pool, in 3 GiB of memory, as often as is told: by bootcore_boot, or by a
 * session that is asked for one piece after another and told it.
 *
 *     core_session boot|pieces KERNEL MODULE ROUNDS
 */
#define _XOPEN_SOURCE 700
#include "bootcore.h"

#include "files.h"

#include <string.h>

static const uint64_t GUEST = 0xC0000000, POOL = 0x60000000;
static const uint64_t POOL_LENGTH = 0x42000000; /* 1 GiB for the module, 32 MiB for the kernel */

static uint32_t tell_pieces(const bootcore_memory *memory, const bootcore_machine *machine, const bootcore_menu *menu,
                            bootcore_outcome *outcome)
{
    const bootcore_entry *entry = menu->entries;
    bootcore_session session = {NULL};
    bootcore_request request;
    uint32_t status = bootcore_session_make(&session, machine, menu);
    bool is_missing;
    if (status != BOOTCORE_STATUS_DONE) return status;
    status = bootcore_session_start(&session, memory);
    is_missing = bootcore_session_missing(&session, BOOTCORE_PIECE, &request);
    while (status == BOOTCORE_STATUS_WAITING && is_missing) {
        const unsigned char *file = request.file ? entry->modules[0].file.bytes : entry->kernel.bytes;
        status = bootcore_session_pieces(&session, memory, &request, file + (size_t)request.piece * BOOTCORE_PIECE,
                                         (size_t)request.length);
        is_missing = bootcore_session_missing(&session, BOOTCORE_PIECE, &request);
    }
    status = bootcore_session_outcome(&session, outcome);
    bootcore_session_free(&session);
    return status;
}

int main(int argc, char **argv)
{
    static bootcore_place places[BOOTCORE_MAX_PLACES];
    const bootcore_region region = {0x1000, 0xBFFFF000, BOOTCORE_KIND_USABLE, 0};
    const bootcore_machine machine = {
        .size = GUEST, .pool_base = POOL, .pool_length = POOL_LENGTH, .regions = &region, .region_count = 1};
    bootcore_refusal refusal = {0};
    bootcore_outcome outcome = {.places = places, .place_room = BOOTCORE_MAX_PLACES, .refusals = &refusal, .refusal_room = 1};
    bootcore_module module = {.line = {NULL, 0}};
    bootcore_entry entry = {.protocol = BOOTCORE_PROTOCOL_MULTIBOOT2, .modules = &module, .module_count = 1};
    const bootcore_menu menu = {.entries = &entry, .entry_count = 1};
    bootcore_memory memory = {.bytes = calloc(GUEST, 1), .length = GUEST};
    input kernel, file;
    long rounds, round;
    int by_pieces;
    if (argc != 5 || memory.bytes == NULL) return 1;
    by_pieces = !strcmp(argv[1], "pieces");
    kernel = open_file(argv[2]);
    file = open_file(argv[3]);
    rounds = strtol(argv[4], NULL, 10);
    entry.kernel = (bootcore_bytes){read_file(&kernel), kernel.length};
    module.file = (bootcore_bytes){read_file(&file), file.length};
    for (round = 0; round < rounds; round++) {
        uint32_t status = by_pieces ? tell_pieces(&memory, &machine, &menu, &outcome)
                                    : bootcore_boot(&memory, &machine, &menu, &outcome);
        if (status != BOOTCORE_STATUS_DONE) {
            fprintf(stderr, "status %u, refusal %u\n", (unsigned)status, (unsigned)refusal.number);
            return 1;
        }
        printf("%ld %d\n", round, ((unsigned char *)memory.bytes)[places[outcome.handoff.place_count - 1].address + (size_t)round]);
    }
    return 0;
}
