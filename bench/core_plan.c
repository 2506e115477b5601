/*
 * Plans a Linux kernel and an initial ramdisk by bootcore_plan, and carries the plan out in a guest's memory of 512 MiB, as often
 * as is told: the ramdisk is read from its file straight to its place, the kernel is copied from the bytes that were planned for.
 *
 *     core_plan KERNEL INITRD ROUNDS
 */
#define _XOPEN_SOURCE 700
#include "bootcore.h"

#include "files.h"

#include <string.h>

enum { STEPS = 64, OWN = 0x10000 };

static void carry_out(const bootcore_layout *layout, const unsigned char *kernel, const input *initrd, unsigned char *memory)
{
    size_t i;
    for (i = 0; i < layout->step_count; i++) {
        const bootcore_step *step = &layout->steps[i];
        unsigned char *to = memory + step->address;
        if (step->source == BOOTCORE_SOURCE_ZEROS) {
            memset(to, 0, step->length);
        } else if (step->source == BOOTCORE_SOURCE_LAYOUT) {
            memcpy(to, layout->own + step->offset, step->length);
        } else if (step->file == 0) {
            memcpy(to, kernel + step->offset, step->length);
        } else {
            read_at(initrd, step->offset, to, step->length);
        }
    }
}

int main(int argc, char **argv)
{
    static bootcore_place places[BOOTCORE_MAX_PLACES];
    static bootcore_step steps[STEPS];
    static uint8_t own[OWN];
    const bootcore_region regions[] = {{0, 0x9F000, BOOTCORE_KIND_USABLE, 0}, {0x100000, SIZE - 0x100000, BOOTCORE_KIND_USABLE, 0}};
    const bootcore_machine machine = {.size = SIZE, .regions = regions, .region_count = 2};
    bootcore_layout layout = {.places = places, .place_room = BOOTCORE_MAX_PLACES, .steps = steps, .step_room = STEPS,
                              .own = own, .own_room = OWN};
    bootcore_entry entry = {.protocol = BOOTCORE_PROTOCOL_LINUX};
    unsigned char *memory = calloc(SIZE, 1), *kernel_bytes;
    input kernel, initrd;
    long rounds, round;
    if (argc != 4 || memory == NULL) return 1;
    kernel = open_file(argv[1]);
    initrd = open_file(argv[2]);
    rounds = strtol(argv[3], NULL, 10);
    kernel_bytes = read_file(&kernel);
    entry.kernel = (bootcore_bytes){kernel_bytes, kernel.length};
    entry.initrd.length = initrd.length;
    for (round = 0; round < rounds; round++) {
        uint32_t status = bootcore_plan(&machine, &entry, &layout);
        if (status != BOOTCORE_STATUS_DONE) {
            fprintf(stderr, "status %u, refusal %u\n", (unsigned)status, (unsigned)layout.refusal.number);
            return 1;
        }
        carry_out(&layout, kernel_bytes, &initrd, memory);
        printf("%ld %d\n", round, memory[places[layout.handoff.place_count - 1].address + (size_t)round]);
    }
    return 0;
}
