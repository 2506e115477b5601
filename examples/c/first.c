/*
 * The first program of docs/EMBED.md: loads a Linux kernel and its initial ramdisk into a guest's memory,
 * and prints where the kernel is entered.
 *
 *     first KERNEL INITRD
 */
#include "bootcore.h"

#include <inttypes.h>
#include <stdio.h>
#include <stdlib.h>

enum { SIZE = 0x20000000 };

static uint32_t load_guest(void *memory, bootcore_bytes kernel, bootcore_bytes initrd,
                           bootcore_outcome *outcome) {
    const bootcore_region regions[] = {{0, 0x9F000, BOOTCORE_KIND_USABLE, 0},
                                       {0x100000, SIZE - 0x100000, BOOTCORE_KIND_USABLE, 0}};
    const bootcore_machine machine = {.size = SIZE, .regions = regions, .region_count = 2};
    const bootcore_entry entry = {.protocol = BOOTCORE_PROTOCOL_LINUX, .kernel = kernel, .initrd = initrd,
                                  .line = {"console=ttyS0", 13}};
    const bootcore_memory guest = {.bytes = memory, .length = SIZE};
    return bootcore_load(&guest, &machine, &entry, outcome);
}

static void *read_file(const char *path, size_t *length) {
    FILE *file = fopen(path, "rb");
    long end = file && !fseek(file, 0, SEEK_END) ? ftell(file) : -1;
    void *bytes = end < 0 ? NULL : malloc((size_t)end + 1);
    *length = (size_t)end;
    if (bytes) {
        rewind(file);
    }
    if (!bytes || fread(bytes, 1, *length, file) != *length || fclose(file)) {
        fprintf(stderr, "first: %s can't be read\n", path);
        exit(2);
    }
    return bytes;
}

int main(int argc, char **argv) {
    bootcore_place places[BOOTCORE_MAX_PLACES];
    bootcore_refusal refusal;
    bootcore_outcome outcome = {.places = places, .place_room = BOOTCORE_MAX_PLACES,
                                .refusals = &refusal, .refusal_room = 1};
    size_t kernel_length, initrd_length;
    void *memory = calloc(SIZE, 1);
    if (argc != 3 || !memory) {
        fputs(memory ? "first KERNEL INITRD\n" : "first: no memory\n", stderr);
        return 2;
    }
    void *kernel = read_file(argv[1], &kernel_length), *initrd = read_file(argv[2], &initrd_length);
    uint32_t status = load_guest(memory, (bootcore_bytes){kernel, kernel_length},
                                 (bootcore_bytes){initrd, initrd_length}, &outcome);
    if (status == BOOTCORE_STATUS_DONE) {
        const bootcore_registers *registers = &outcome.handoff.registers;
        printf("entered at %" PRIx64 ", boot parameters at %" PRIx64 "\n", registers->rip, registers->rsi);
    } else if (status == BOOTCORE_STATUS_REFUSED) {
        char words[256];
        bootcore_refusal_line(&refusal, words, sizeof words);
        puts(words);
    } else {
        fprintf(stderr, "first: status %" PRIu32 "\n", status);
    }
    free(kernel);
    free(initrd);
    free(memory);
    return status == BOOTCORE_STATUS_DONE ? 0 : status == BOOTCORE_STATUS_REFUSED ? 1 : 2;
}
