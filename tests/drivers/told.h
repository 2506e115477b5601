/* Whether a walk sees of what firmware tells just what the entry's protocol hands on. */
#ifndef TOLD_H
#define TOLD_H

#include "bootcore.h"

#include <string.h>

/* Whether a range of the text has these bytes, which begin `from` bytes before its end; it is none if there are none. */
static bool is_text(const bootcore_seen *seen, const uint8_t *text, bootcore_range range, bootcore_bytes of, uint64_t from) {
    return of.length ? range.length == of.length && range.offset == seen->text_length - from &&
                           !memcmp(text + range.offset, of.bytes, of.length)
                     : range.length == 0 && range.offset == BOOTCORE_ABSENT;
}

/* Boot parameters have the RSDP's address and where UEFI's map lies; boot information has copies of the map and of SMBIOS's tables,
 * which end the text. A machine without a pointer has the facts that are all 0. */
static bool is_firmware_seen(const bootcore_firmware *firmware, const bootcore_seen *seen, const bootcore_seen_firmware *told,
                             const uint8_t *text) {
    const bool is_multiboot2 = seen->protocol == BOOTCORE_PROTOCOL_MULTIBOOT2;
    bootcore_bytes map = {NULL, 0}, tables = {NULL, 0};
    bootcore_seen_firmware wanted;
    memset(&wanted, 0, sizeof wanted);
    if (firmware) {
        wanted.screen = firmware->screen;
        wanted.rsdp = is_multiboot2 ? 0 : firmware->rsdp;
    }
    if (firmware && firmware->efi.system_table) {
        wanted.efi.system_table = firmware->efi.system_table;
        wanted.efi.map_address = is_multiboot2 ? 0 : firmware->efi.map_address;
        wanted.efi.map_length = firmware->efi.map.length;
        wanted.efi.bits = firmware->efi.bits;
        wanted.efi.descriptor_size = firmware->efi.descriptor_size;
        wanted.efi.descriptor_version = firmware->efi.descriptor_version;
        wanted.efi.secure_boot = is_multiboot2 ? 0 : firmware->efi.secure_boot;
    }
    if (firmware && is_multiboot2) {
        map = firmware->efi.map;
        tables = firmware->smbios.tables;
    }
    if (tables.length) {
        wanted.smbios.major = firmware->smbios.major;
        wanted.smbios.minor = firmware->smbios.minor;
    }
    wanted.efi.map = told->efi.map;
    wanted.smbios.tables = told->smbios.tables;
    return !memcmp(told, &wanted, sizeof wanted) && is_text(seen, text, told->efi.map, map, map.length + tables.length) &&
           is_text(seen, text, told->smbios.tables, tables, tables.length);
}

#endif
