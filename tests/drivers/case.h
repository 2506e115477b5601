/* A case, as tests/drivers/spelling.py spells it, read from standard input: twelve numbers of 64 bits, as written below, and then arrays:
 * regions and ranges to avoid as they lie in memory; what firmware tells, where it tells something; files, entries, the bytes of all
 * files, lines and tables, and modules, as the structs below; fallbacks of 32 bits. Each array is a block of its own, which ends where
 * it should. */
#ifndef CASE_H
#define CASE_H

#include "bootcore.h"

#include <stdio.h>
#include <stdlib.h>
#include <string.h>

enum { SIZE, POOL_BASE, POOL_LENGTH, FILL, REGIONS, AVOIDED, FIRMWARE, FILES, ENTRIES, DEFAULT, FALLBACKS, BYTES, NUMBERS };
enum { NO_FILE = -1 };

struct range { uint64_t offset, length; };
struct spelled_entry { uint64_t protocol, kernel, initrd, modules; struct range line, rsdp_old, rsdp_new; };
struct spelled_module { uint64_t file; struct range line; };
/* the screen as it lies in memory; what is 0 is not told */
struct spelled_firmware {
    bootcore_screen screen;
    uint64_t rsdp, system_table, map_address, bits, descriptor_size, descriptor_version, secure_boot, major, minor;
    struct range map, tables;
};

static uint64_t numbers[NUMBERS];
static struct range *ranges;
static uint8_t *bytes;
static bootcore_machine machine;
static bootcore_firmware firmware; /* the machine has no pointer to it if it tells nothing */
static bootcore_menu menu;
static bootcore_entry *entries;

static void stop(const char *why) {
    fprintf(stderr, "%s\n", why);
    exit(2);
}

/* So many elements of the input, or null for none. Each array is a block of its own, which ends where it should. */
static void *read_array(uint64_t count, size_t size) {
    void *array;
    if (count == 0) {
        return NULL;
    }
    array = malloc(count * size);
    if (!array || fread(array, size, count, stdin) != count) {
        stop("the case ends early");
    }
    return array;
}

/* A block of its own with these bytes of the case, or null for none. */
static bootcore_bytes in_bytes(struct range range) {
    bootcore_bytes copy = {NULL, range.length};
    if (range.length) {
        void *block = malloc(range.length);
        if (!block) {
            stop("no memory");
        }
        copy.bytes = memcpy(block, bytes + range.offset, range.length);
    }
    return copy;
}

static bootcore_bytes file(uint64_t index) {
    static const uint8_t nothing[1] = {0};
    const bootcore_bytes unreadable = {NULL, BOOTCORE_UNREADABLE}, empty = {nothing, 0}, none = {NULL, 0};
    if (index == (uint64_t)NO_FILE) {
        return none;
    }
    if (ranges[index].offset == UINT64_MAX) {
        return unreadable;
    }
    return ranges[index].length ? in_bytes(ranges[index]) : empty;
}

/* What firmware tells, but for the ranges to avoid. */
static void give_firmware(const struct spelled_firmware *told) {
    firmware.screen = told->screen;
    firmware.rsdp = told->rsdp;
    firmware.efi.system_table = told->system_table;
    firmware.efi.map = in_bytes(told->map);
    firmware.efi.map_address = told->map_address;
    firmware.efi.bits = (uint32_t)told->bits;
    firmware.efi.descriptor_size = (uint32_t)told->descriptor_size;
    firmware.efi.descriptor_version = (uint32_t)told->descriptor_version;
    firmware.efi.secure_boot = (uint32_t)told->secure_boot;
    firmware.smbios.tables = in_bytes(told->tables);
    firmware.smbios.major = (uint8_t)told->major;
    firmware.smbios.minor = (uint8_t)told->minor;
    machine.firmware = &firmware;
}

static void read_case(void) {
    struct spelled_firmware *told;
    struct spelled_entry *spelled;
    size_t i, k;
    if (fread(numbers, 8, NUMBERS, stdin) != NUMBERS) {
        stop("the case ends early");
    }
    machine.size = numbers[SIZE];
    machine.pool_base = numbers[POOL_BASE];
    machine.pool_length = numbers[POOL_LENGTH];
    machine.region_count = numbers[REGIONS];
    machine.regions = read_array(numbers[REGIONS], sizeof(bootcore_region));
    firmware.avoided_count = numbers[AVOIDED];
    firmware.avoided = read_array(numbers[AVOIDED], sizeof(bootcore_avoided));
    told = read_array(numbers[FIRMWARE], sizeof *told);
    ranges = read_array(numbers[FILES], sizeof *ranges);
    spelled = read_array(numbers[ENTRIES], sizeof *spelled);
    bytes = read_array(numbers[BYTES], 1);
    if (told) {
        give_firmware(told);
        free(told);
    }
    menu.entry_count = numbers[ENTRIES];
    menu.entries = entries = calloc(numbers[ENTRIES], sizeof *entries);
    menu.first = (uint32_t)numbers[DEFAULT];
    for (i = 0; i < menu.entry_count; i++) {
        struct spelled_module *modules = read_array(spelled[i].modules, sizeof *modules);
        bootcore_module *given = spelled[i].modules ? calloc(spelled[i].modules, sizeof *given) : NULL;
        for (k = 0; k < spelled[i].modules; k++) {
            given[k].file = file(modules[k].file);
            given[k].line = in_bytes(modules[k].line);
        }
        entries[i].protocol = (uint32_t)spelled[i].protocol;
        entries[i].kernel = file(spelled[i].kernel);
        entries[i].line = in_bytes(spelled[i].line);
        entries[i].initrd = file(spelled[i].initrd);
        entries[i].rsdp_old = in_bytes(spelled[i].rsdp_old);
        entries[i].rsdp_new = in_bytes(spelled[i].rsdp_new);
        entries[i].modules = given;
        entries[i].module_count = spelled[i].modules;
        free(modules);
    }
    free(spelled);
    menu.fallback_count = numbers[FALLBACKS];
    menu.fallbacks = read_array(numbers[FALLBACKS], sizeof(uint32_t));
}

#endif
