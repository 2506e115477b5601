/* Images of a handoff: what a machine was handed, in one file or in memory. docs/FORMATS.md of the
 * repository has the format. This file is a part of bootcore.h: include that. */
#ifndef BOOTCORE_IMAGE_H
#define BOOTCORE_IMAGE_H

#include "bootcore.h"

#ifdef __cplusplus
extern "C" {
#endif

enum {
    BOOTCORE_IMAGE_HEAD = 272,     /* the bytes of an image's head before the places, */
    BOOTCORE_IMAGE_PLACE = 24,     /* and of each place there */
    BOOTCORE_MAX_IMAGE_HEAD = 6416 /* with BOOTCORE_MAX_PLACES places */
};

/* Writes the head of a handoff image, of version 2: all that stands before the bytes of the parts,
 * which follow in the order of the places. `places` has as many elements as the handoff says. The
 * answer is the head's length; where `head` is null or has fewer bytes nothing is written. It is 0
 * after a null handoff, and after null places where the handoff has some. No value is checked: a
 * head that breaks the format is written too. */
BOOTCORE_CALL size_t bootcore_image_head(const bootcore_handoff *handoff,
    const bootcore_place *places, uint8_t *head, size_t length);

/* Reads the head of a handoff image, of version 1 or 2: what stands before the bytes of the parts,
 * which need not follow.
 * - DONE: the handoff is told, with 0 as its entry, and the first places.
 * - SMALL_ROOM: there are more places than place_room. The handoff is told, and says how many:
 *   BOOTCORE_MAX_PLACES at most.
 * - REFUSED: fault->number is 71 to 75 (with 74 `first` is the index of the place): the first that
 *   is found, as in an image that begins so. A head that is cut is 75.
 * - NO_MEMORY: fault->number is 77.
 * - NULL.
 * What is not told is as before. */
BOOTCORE_CHECKED uint32_t bootcore_image_head_read(const void *head, size_t length,
    bootcore_handoff *handoff, bootcore_place *places, size_t place_room, bootcore_refusal *fault);

/* The offset of a copy that is not there. */
#define BOOTCORE_ABSENT (~(uint64_t)0)

/* Bytes of what a walk tells as text. */
typedef struct bootcore_range {
    uint64_t offset;
    uint64_t length;
} bootcore_range;

/* What a kernel sees in an image. Its text is its line, the modules' lines in order, the old copy
 * of the RSDP and the new one, the copy of UEFI's memory map and SMBIOS's tables, one after the
 * other. */
typedef struct bootcore_seen {
    uint32_t protocol;
    uint32_t reserved32;
    uint64_t kernel_part_count;
    uint64_t module_count;   /* of those that it is told of */
    uint64_t run_count;      /* of runs of memory that it is told of */
    uint64_t entry_address;  /* where it is entered */
    uint64_t line_length;
    uint64_t initrd;         /* where its initial ramdisk lies */
    uint64_t initrd_length;  /* 0: there is none */
    uint64_t text_length;
    bootcore_range rsdp_old; /* of the text; its offset is BOOTCORE_ABSENT if there is none */
    bootcore_range rsdp_new;
    uint64_t reserved[4];
} bootcore_seen;

/* A part of the kernel that is seen. */
typedef struct bootcore_seen_part {
    uint64_t address;
    uint64_t length;
    uint64_t reserved;
} bootcore_seen_part;

/* A module that is seen. */
typedef struct bootcore_seen_module {
    uint64_t address;
    uint64_t length;
    bootcore_range line; /* of the text, without a zero byte */
    uint64_t reserved;
} bootcore_seen_module;

/* UEFI as it is told to a kernel that is seen: to Linux where its memory map lies; to Multiboot2
 * the map's bytes, of the text, and nothing of secure boot. */
typedef struct bootcore_seen_efi {
    uint64_t system_table; /* 0: no UEFI is told */
    uint64_t map_address;  /* Multiboot2: 0 */
    uint64_t map_length;
    uint32_t bits, descriptor_size, descriptor_version, secure_boot;
    bootcore_range map; /* Linux, or no UEFI: its offset is BOOTCORE_ABSENT */
} bootcore_seen_efi;

/* The tables of SMBIOS as they are told: of the text; without any the offset is BOOTCORE_ABSENT. */
typedef struct bootcore_seen_smbios {
    bootcore_range tables;
    uint8_t major, minor; uint16_t reserved16; uint32_t reserved32;
} bootcore_seen_smbios;

/* What firmware tells a kernel that is seen, as its protocol tells it. */
typedef struct bootcore_seen_firmware {
    bootcore_screen screen; /* base 0: none is told */
    uint64_t rsdp;          /* Linux; 0: it is not told */
    bootcore_seen_efi efi;
    bootcore_seen_smbios smbios; /* Multiboot2 */
    uint64_t reserved[4];
} bootcore_seen_firmware;

/* Where a walk tells all that is seen: the caller's arrays, each with the number of elements that
 * it has room for. A run of memory is told as a region. */
typedef struct bootcore_seen_arrays {
    bootcore_seen_part *kernel_parts; /* ascending by their addresses */
    size_t kernel_part_room;
    bootcore_seen_module *modules; /* in the order in which the kernel is told of them */
    size_t module_room;
    bootcore_region *runs; /* of the memory map, in its order */
    size_t run_room;
    uint8_t *text;
    size_t text_room;
    bootcore_seen_firmware *firmware; /* null: it is not told */
    uint64_t reserved[3]; /* 0 */
} bootcore_seen_arrays;

/* Walks an image in memory, as a measured boot does before it trusts what an image hands over:
 * reads it, and follows the addresses in its registers as its kernel would. Its parts are copied on
 * the way.
 * - DONE: the bytes are an image, a kernel can be entered with it, and *seen is told.
 * - REFUSED: fault->number is 71 to 75 if the bytes are no image (with 74 `first` is the
 *   index of the part), 81 to 83 if no kernel can be entered with it; docs/REFUSALS.md says which
 *   is which. (76, a source that can't be read, does not come: memory can be.)
 * - NO_MEMORY: fault->number is 77 or 84.
 * - NULL.
 * What is not told is as before. */
BOOTCORE_CHECKED uint32_t bootcore_walk(const void *image, size_t image_length, bootcore_seen *seen,
    bootcore_refusal *fault);

/* Walks an image in memory as bootcore_walk does, and tells all that its kernel sees.
 * - DONE: as bootcore_walk; besides, the first elements of the arrays are told, as many as
 *   *seen says, and what firmware tells. The others are as before.
 * - SMALL_ROOM: an array has room for fewer elements than there are. *seen is told, and
 *   says how many there are; all else is as before. So a call without any room asks how much is
 *   wanted.
 * - REFUSED, NO_MEMORY, NULL: as bootcore_walk, and the arrays are as before.
 * - BAD_RESERVED: a reserved word of the arrays is not 0. All is as before.
 * The bytes of modules and of an initial ramdisk are not told. They lie in the image, in the part
 * that has their address. */
BOOTCORE_CHECKED uint32_t bootcore_walk_all(const void *image, size_t image_length,
    bootcore_seen *seen, const bootcore_seen_arrays *arrays, bootcore_refusal *fault);

#ifdef __cplusplus
}
#endif

#endif
