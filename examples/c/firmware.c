/*
 * What firmware tells, and what a kernel is told of it: loads an entry on a machine whose firmware tells all that it may,
 * or nothing, writes the image of what is handed over, and prints what a walk of it sees of these facts.
 *
 *     firmware all|none IMAGE PROTOCOL KERNEL LINE MAP TABLES [FILE NAME]
 *
 * PROTOCOL is multiboot2, linux or linux64. MAP is what UEFI's GetMemoryMap gave, TABLES are those of SMBIOS; FILE is a
 * module with the line NAME, or an initial ramdisk. The status is 1 if the entry is refused, or its kernel would see
 * other bytes than were given.
 */
#include "bootcore.h"

#include <inttypes.h>
#include <stdio.h>
#include <stdlib.h>
#include <string.h>

enum { SIZE = 0x400000 };

static void stop(const char *what, const char *why) {
    fprintf(stderr, "firmware: %s: %s\n", what, why);
    exit(2);
}

static void *allocated(size_t length) {
    void *bytes = calloc(length + 1, 1);
    if (!bytes) {
        stop("memory", "it ran out");
    }
    return bytes;
}

static bootcore_bytes read_file(const char *path) {
    FILE *file = fopen(path, "rb");
    long end = file && !fseek(file, 0, SEEK_END) ? ftell(file) : -1;
    bootcore_bytes read = {NULL, 0};
    if (end < 0) {
        stop(path, "it can't be read");
    }
    void *bytes = allocated((size_t)end);
    rewind(file);
    if (fread(bytes, 1, (size_t)end, file) != (size_t)end || fclose(file)) {
        stop(path, "it can't be read");
    }
    read.bytes = bytes;
    read.length = (size_t)end;
    return read;
}

/* What a firmware knows: its tables lie where memory is not usable. What a caller does not know it leaves 0. */
static bootcore_firmware all_facts(bootcore_bytes map, bootcore_bytes tables) {
    return (bootcore_firmware){
        .screen = {.base = 0xFD000000, .pitch = 4096, .width = 1024, .height = 768, .depth = 32,
                   .red = {16, 8}, .green = {8, 8}, .blue = {0, 8}},
        .rsdp = 0xE0000,
        .efi = {.system_table = 0x7E9EC018, .map = map, .map_address = 0xF8000, .bits = 64, .descriptor_size = 48,
                .descriptor_version = 1, .secure_boot = 2},
        .smbios = {.tables = tables, .major = 3},
    };
}

/* ---- the image, in memory and in a file */

static bootcore_bytes make_image(const uint8_t *memory, const bootcore_outcome *outcome) {
    const bootcore_handoff *handoff = &outcome->handoff;
    size_t length = bootcore_image_head(handoff, outcome->places, NULL, 0), at = length;
    for (uint32_t i = 0; i < handoff->place_count; i++) {
        length += outcome->places[i].length;
    }
    uint8_t *image = allocated(length);
    bootcore_image_head(handoff, outcome->places, image, at);
    for (uint32_t i = 0; i < handoff->place_count; i++) {
        memcpy(image + at, memory + outcome->places[i].address, outcome->places[i].length);
        at += outcome->places[i].length;
    }
    return (bootcore_bytes){image, length};
}

static void write_file(const char *path, bootcore_bytes bytes) {
    FILE *file = fopen(path, "wb");
    if (!file || fwrite(bytes.bytes, 1, bytes.length, file) != bytes.length || fclose(file)) {
        stop(path, "it can't be written");
    }
}

/* ---- what its kernel is told */

/* Whether a range of the text that is seen has just these bytes. */
static bool are_copied(const bootcore_seen_arrays *seen, bootcore_range range, bootcore_bytes given) {
    return range.offset != BOOTCORE_ABSENT && range.length == given.length &&
           !memcmp(seen->text + range.offset, given.bytes, given.length);
}

static bool print_efi(const bootcore_seen_arrays *seen, const bootcore_seen_efi *efi, bootcore_bytes map) {
    bool is_copied = are_copied(seen, efi->map, map);
    printf("efi of %" PRIu32 " bits at %" PRIx64 ", secure boot %" PRIu32 "; its map: %" PRIu64
           " descriptors of %" PRIu32 " bytes and version %" PRIu32 ", ",
           efi->bits, efi->system_table, efi->secure_boot, efi->map_length / efi->descriptor_size,
           efi->descriptor_size, efi->descriptor_version);
    if (efi->map.offset == BOOTCORE_ABSENT) { /* Linux reads the map where it lies */
        printf("at %" PRIx64 "\n", efi->map_address);
        return true;
    }
    printf("%s\n", is_copied ? "a copy" : "another one");
    return is_copied;
}

static bool print_told(const bootcore_seen_arrays *seen, bootcore_bytes map, bootcore_bytes tables) {
    const bootcore_seen_firmware *told = seen->firmware;
    const bootcore_screen *screen = &told->screen;
    const bootcore_seen_smbios *smbios = &told->smbios;
    bool holds = true;
    if (screen->base) {
        printf("screen at %" PRIx64 ": %" PRIu32 " by %" PRIu32 " of %d bits, %" PRIu32 " bytes a line,"
               " red %d+%d green %d+%d blue %d+%d\n",
               screen->base, screen->width, screen->height, screen->depth, screen->pitch, screen->red.position,
               screen->red.size, screen->green.position, screen->green.size, screen->blue.position,
               screen->blue.size);
    }
    if (told->rsdp) {
        printf("rsdp at %" PRIx64 "\n", told->rsdp);
    }
    if (told->efi.system_table) {
        holds = print_efi(seen, &told->efi, map);
    }
    if (smbios->tables.offset != BOOTCORE_ABSENT) {
        bool is_copied = are_copied(seen, smbios->tables, tables);
        printf("smbios %d.%d: %s of %" PRIu64 " bytes\n", smbios->major, smbios->minor,
               is_copied ? "a copy" : "others", smbios->tables.length);
        holds = holds && is_copied;
    }
    return holds;
}

/* Walks an image as its kernel would, and prints what it is told; the status of the program. */
static int walk(bootcore_bytes image, bootcore_bytes map, bootcore_bytes tables) {
    bootcore_seen seen;
    bootcore_seen_firmware told;
    bootcore_seen_arrays arrays = {.firmware = &told}; /* without room: how much is wanted? */
    bootcore_refusal fault;
    uint32_t status = bootcore_walk_all(image.bytes, image.length, &seen, &arrays, &fault);
    if (status == BOOTCORE_STATUS_SMALL_ROOM) {
        arrays.kernel_parts = allocated(seen.kernel_part_count * sizeof *arrays.kernel_parts);
        arrays.kernel_part_room = seen.kernel_part_count;
        arrays.modules = allocated(seen.module_count * sizeof *arrays.modules);
        arrays.module_room = seen.module_count;
        arrays.runs = allocated(seen.run_count * sizeof *arrays.runs);
        arrays.run_room = seen.run_count;
        arrays.text = allocated(seen.text_length);
        arrays.text_room = seen.text_length;
        status = bootcore_walk_all(image.bytes, image.length, &seen, &arrays, &fault);
    }
    if (status != BOOTCORE_STATUS_DONE) {
        stop("walk", bootcore_status_text(status));
    }
    bool holds = print_told(&arrays, map, tables);
    free(arrays.kernel_parts), free(arrays.modules), free(arrays.runs), free(arrays.text);
    return holds ? 0 : 1;
}

/* ---- the entry, on either machine */

static uint32_t protocol_of(const char *name) {
    return !strcmp(name, "multiboot2") ? BOOTCORE_PROTOCOL_MULTIBOOT2
           : !strcmp(name, "linux")    ? BOOTCORE_PROTOCOL_LINUX
           : !strcmp(name, "linux64")  ? BOOTCORE_PROTOCOL_LINUX64
                                       : 0;
}

int main(int argc, char **argv) {
    bool has_file = argc == 10, tells = argc > 1 && !strcmp(argv[1], "all");
    if (argc != 8 && !has_file) {
        stop("usage", "firmware all|none IMAGE PROTOCOL KERNEL LINE MAP TABLES [FILE NAME]");
    }
    bootcore_bytes kernel = read_file(argv[4]), map = read_file(argv[6]), tables = read_file(argv[7]);
    bootcore_module module = {.file = {NULL, 0}};
    if (has_file) {
        module.file = read_file(argv[8]);
        module.line = (bootcore_bytes){argv[9], strlen(argv[9])};
    }
    const bootcore_entry entry = {.protocol = protocol_of(argv[3]), .kernel = kernel,
                                  .line = {argv[5], strlen(argv[5])}, .initrd = module.file, /* of Linux */
                                  .modules = &module, .module_count = has_file};
    const bootcore_firmware firmware = all_facts(map, tables);
    const bootcore_region regions[] = {{0, 0x9F000, BOOTCORE_KIND_USABLE, 0},
                                       {0xF0000, 0x10000, BOOTCORE_KIND_RESERVED, 0},
                                       {0x100000, SIZE - 0x100000, BOOTCORE_KIND_USABLE, 0}};
    const bootcore_machine machine = {.size = SIZE, .regions = regions, .region_count = 3,
                                      .firmware = tells ? &firmware : NULL};
    static bootcore_place places[BOOTCORE_MAX_PLACES];
    bootcore_refusal refusal;
    bootcore_outcome outcome = {.places = places, .place_room = BOOTCORE_MAX_PLACES, .refusals = &refusal,
                                .refusal_room = 1};
    uint8_t *memory = allocated(SIZE);
    const bootcore_memory whole = {.bytes = memory, .length = SIZE};
    uint32_t status = bootcore_load(&whole, &machine, &entry, &outcome);
    int answer = 1;
    if (status == BOOTCORE_STATUS_REFUSED) {
        char words[256];
        bootcore_refusal_line(&refusal, words, sizeof words);
        puts(words);
    } else if (status == BOOTCORE_STATUS_DONE) {
        bootcore_bytes image = make_image(memory, &outcome);
        write_file(argv[2], image);
        answer = walk(image, map, tables);
        free((void *)(uintptr_t)image.bytes);
    } else {
        stop("load", bootcore_status_text(status));
    }
    free(memory);
    free((void *)(uintptr_t)kernel.bytes), free((void *)(uintptr_t)map.bytes);
    free((void *)(uintptr_t)tables.bytes), free((void *)(uintptr_t)module.file.bytes);
    return answer;
}
