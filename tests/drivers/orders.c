/*
 * Each misuse of each call, and which of two is told: a call that is right, with one thing changed, and with each two. Prints the
 * name of each change, or of each two, whose status is another than the first of the two in the order of the header, or after which
 * something is told that should not be; and then how many were tried.
 */
#include "bootcore.h"

#include <inttypes.h>
#include <stdio.h>
#include <stdlib.h>
#include <string.h>

enum { MEMORY = 0x200000, POOL = 0x100000, REGION_ROOM = BOOTCORE_MAX_REGIONS + 9, STEP_ROOM = 64, OWN_ROOM = 8192 };

/* A kernel of Multiboot2 that is a header alone, with where it lies and where it is entered. */
static const uint32_t kernel[] = {0xE85250D6, 0, 64, 0u - 0xE85250D6 - 64, 2, 24, 0x100000, 0x100000, 0, 0x102000, 3, 12, 0x100000, 0,
                                  0, 8};

/* All that calls are given and write. Each try begins with `right`. */
static bootcore_memory memory;
static uint8_t bytes[MEMORY], bytes_before[MEMORY];
static bootcore_machine machine;
static bootcore_region regions[REGION_ROOM];
static bootcore_firmware firmware;
static bootcore_avoided avoided[BOOTCORE_MAX_AVOIDED + 9];
static bootcore_entry entries[BOOTCORE_MAX_ENTRIES + 1];
static bootcore_module modules[BOOTCORE_MAX_MODULES + 9];
static bootcore_menu menu;
static uint32_t fallbacks[2];
static bootcore_outcome outcome, outcome_before;
static bootcore_layout layout, layout_before;
static bootcore_place places[BOOTCORE_MAX_PLACES], places_before[BOOTCORE_MAX_PLACES];
static bootcore_refusal refusals[BOOTCORE_MAX_REFUSALS], refusals_before[BOOTCORE_MAX_REFUSALS];
static bootcore_step steps[STEP_ROOM];
static uint8_t own[OWN_ROOM];
static bootcore_session kept;
static bootcore_session *session;
static bootcore_request request;
static bootcore_bytes files[2];
static size_t file_count;
static const uint8_t *piece, *fed;
static size_t fed_length;
static bootcore_digest kept_digest, kept_before, *digest;
static bootcore_digests digests, digests_before, *told_digests;
static bootcore_part_digest part_digests[4], part_digests_before[4], *told_parts;
static bootcore_unplaced_part part, part_before;
static bootcore_refusal *told_refusal;

static void right(void) {
    size_t i;
    memset(bytes, 0xA5, MEMORY);
    memset(places, 0xA5, sizeof places);
    memset(refusals, 0xA5, sizeof refusals);
    memset(&machine, 0, sizeof machine);
    memset(entries, 0, sizeof entries);
    memset(modules, 0, sizeof modules);
    memset(&menu, 0, sizeof menu);
    memset(&outcome, 0xA5, sizeof outcome);
    memset(&request, 0, sizeof request);
    memory.address = 0;
    memory.bytes = bytes;
    memory.length = MEMORY;
    memory.reserved = 0;
    machine.size = MEMORY;
    machine.pool_base = POOL;
    machine.pool_length = MEMORY - POOL;
    machine.regions = regions;
    machine.region_count = 3;
    machine.firmware = &firmware;
    firmware = (bootcore_firmware){{0xE0000000, 4096, 1024, 768, 32, 0, {16, 8}, {8, 8}, {0, 8}, 0},
                                   MEMORY,
                                   {0x500000, {bytes_before, 96}, 0x400000, 64, 48, 1, 2},
                                   {{bytes_before, 31}, 3, 0, 0, 0},
                                   avoided,
                                   2,
                                   {0}};
    memset(avoided, 0, sizeof avoided);
    for (i = 0; i < REGION_ROOM; i++) {
        regions[i].base = 0;
        regions[i].length = MEMORY;
        regions[i].kind = BOOTCORE_KIND_USABLE;
        regions[i].reserved = 0;
    }
    for (i = 0; i <= BOOTCORE_MAX_ENTRIES; i++) {
        entries[i].protocol = BOOTCORE_PROTOCOL_MULTIBOOT2;
        entries[i].kernel.bytes = kernel;
        entries[i].kernel.length = sizeof kernel;
        entries[i].line.bytes = "line";
        entries[i].line.length = 4;
        entries[i].modules = modules;
        entries[i].module_count = 1;
    }
    menu.entries = entries;
    menu.entry_count = 2;
    menu.fallbacks = fallbacks;
    menu.fallback_count = 2;
    fallbacks[0] = 1;
    fallbacks[1] = 0;
    outcome.places = places;
    outcome.place_room = BOOTCORE_MAX_PLACES;
    outcome.refusals = refusals;
    outcome.refusal_room = BOOTCORE_MAX_REFUSALS;
    memset(outcome.reserved, 0, sizeof outcome.reserved);
    session = &kept;
    piece = (const uint8_t *)kernel;
    fed = bytes;
    fed_length = 4;
    request.length = sizeof kernel;
    memset(&digests, 0xA5, sizeof digests);
    memset(part_digests, 0xA5, sizeof part_digests);
    memset(&part, 0xA5, sizeof part);
    digest = &kept_digest;
    told_digests = &digests;
    told_parts = part_digests;
    told_refusal = refusals;
    files[0].bytes = kernel;
    files[0].length = sizeof kernel;
    files[1].bytes = "";
    files[1].length = 0;
    file_count = 2;
}

static void right_layout(void) {
    memset(&layout, 0xA5, sizeof layout);
    layout.places = places;
    layout.place_room = BOOTCORE_MAX_PLACES;
    layout.steps = steps;
    layout.step_room = STEP_ROOM;
    layout.own = own;
    layout.own_room = OWN_ROOM;
    memset(layout.reserved, 0, sizeof layout.reserved);
}

/* ---- what is changed */

static void null_memory(void) { memory.bytes = NULL; }
static void null_regions(void) { machine.regions = NULL; }
static void null_line(void) { entries[0].line.bytes = NULL; }
static void null_kernel(void) { entries[0].kernel.bytes = NULL; }
static void null_module(void) { modules[0].file.length = 1; }
static void null_places(void) { outcome.places = layout.places = NULL; }
static void null_entries(void) { menu.entries = NULL; }
static void null_session(void) { session = NULL; }
static void null_piece(void) { piece = NULL; }
static void null_files(void) { files[0].bytes = NULL; }
static void null_own(void) { layout.own = NULL; }
static void null_digest(void) { digest = NULL; }
static void null_digests(void) { told_digests = NULL; }
static void null_parts(void) { told_parts = NULL; }
static void null_refusal(void) { told_refusal = NULL; }
static void null_fed(void) { fed = NULL; }
static void long_fed(void) { fed_length = sizeof kernel + 1; } /* the first range is the whole kernel */
static void set_memory(void) { memory.reserved = 1; }
static void set_machine(void) { machine.reserved[2] = 1; }
static void set_firmware(void) { firmware.reserved[5] = 1; }
static void set_screen(void) { firmware.screen.reserved8 = 1; }
static void null_map(void) { firmware.efi.map.bytes = NULL; }
static void null_avoided(void) { firmware.avoided = NULL; }
static void set_region(void) { regions[2].reserved = 1; }
static void set_entry(void) { entries[0].reserved32 = 1; }
static void set_entry_end(void) { entries[0].reserved[3] = 1; }
static void set_last_entry(void) { entries[1].reserved32 = (uint32_t)1 << 31; }
static void set_module(void) { modules[0].reserved[1] = 1; }
static void set_menu(void) { menu.reserved[0] = 1; }
static void set_menu_word(void) { menu.reserved32 = 1; }
static void set_outcome(void) { outcome.reserved[1] = layout.reserved[1] = (uint64_t)1 << 63; }
static void unreadable_kernel(void) { entries[0].kernel.length = BOOTCORE_UNREADABLE; }
static void unreadable_module(void) { modules[0].file.length = BOOTCORE_UNREADABLE; }
static void few_places(void) { outcome.place_room = layout.place_room = BOOTCORE_MAX_PLACES - 1; }
static void few_plan_places(void) { layout.place_room = 1; }
static void few_steps(void) { layout.step_room = 1; }
static void few_bytes(void) { layout.own_room = 1; }
static void bad_kind(void) { regions[0].kind = 6; }
static void bad_size(void) { machine.size = (uint64_t)1 << 33; }
static void many_regions(void) { machine.region_count = BOOTCORE_MAX_REGIONS + 1; }
static void bad_region(void) {
    regions[1].base = UINT64_MAX;
    regions[1].length = 1;
}
static void bad_pool(void) { machine.pool_length++; }
static void bad_efi_bits(void) { firmware.efi.bits = 16; }
static void bad_secure_boot(void) { firmware.efi.secure_boot = 4; }
static void bad_screen(void) { firmware.screen.width = 0; }
static void bad_depth(void) { firmware.screen.depth = 14; }
static void bad_color(void) { firmware.screen.blue.size = 255, firmware.screen.blue.position = 255; }
static void bad_pitch(void) { firmware.screen.pitch = 1; }
static void bad_screen_place(void) { firmware.screen.base = MEMORY - 1; }
static void bad_rsdp(void) { firmware.rsdp = MEMORY - 36; }
static void bad_table(void) { firmware.efi.bits = 32, firmware.efi.system_table = UINT64_MAX; }
static void bad_map(void) { firmware.efi.map.length--; }
static void bad_descriptors(void) { firmware.efi.descriptor_version = 2; }
static void bad_map_place(void) { firmware.efi.map_address = 4; }
static void bad_smbios(void) { firmware.smbios.tables.length = 0x10001; }
static void many_avoided(void) { firmware.avoided_count = BOOTCORE_MAX_AVOIDED + 9; }
static void bad_avoided(void) { avoided[1].base = UINT64_MAX; }
static void avoided_pool(void) {
    avoided[0].base = POOL;
    avoided[0].length = 1;
}
static void short_memory(void) { memory.length--; }
static void high_memory(void) { memory.address = (uint64_t)1 << 32; }
static void bad_protocol(void) { entries[0].protocol = 4; }
static void bad_last_protocol(void) { entries[1].protocol = 0; }
static void many_modules(void) { entries[0].module_count = BOOTCORE_MAX_MODULES + 1; }
static void more_modules(void) { entries[0].module_count = BOOTCORE_MAX_MODULES + 9; }
static void long_rsdp(void) {
    entries[0].rsdp_new.bytes = bytes_before;
    entries[0].rsdp_new.length = BOOTCORE_MAX_RSDP + 1;
}
static void many_entries(void) { menu.entry_count = BOOTCORE_MAX_ENTRIES + 1; }
static void bad_first(void) { menu.first = BOOTCORE_MAX_ENTRIES + 9; }
static void bad_fallback(void) { fallbacks[1] = BOOTCORE_MAX_ENTRIES + 9; }
static void low_pool(void) {
    memory.address = POOL + 4096;
    memory.bytes = bytes + POOL + 4096;
    memory.length = MEMORY - POOL - 4096;
}
static void no_kernel(void) { entries[0].kernel.length = entries[1].kernel.length = 9; }
static void file_too_short(void) { files[0].length--; }
static void file_too_few(void) { file_count = 0; }
static void file_unreadable(void) { files[1].length = BOOTCORE_UNREADABLE; }
static void no_plan(void) { layout.planned = 0; }
static void no_source(void) { steps[0].source = 4; }
static void wrapped(void) { steps[0].address = UINT64_MAX; }
static void nothing(void) {}

typedef struct change {
    const char *name;
    void (*make)(void);
    uint32_t status; /* that the header gives it, in whose order they stand in a table */
} change;

#define CHANGE(make, status) {#make, make, BOOTCORE_STATUS_##status}
/* in each table that has a machine, behind its own misuses */
#define OF_FIRMWARE                                                                                                                 \
    CHANGE(bad_screen, BAD_SCREEN_SIZE), CHANGE(bad_depth, BAD_SCREEN_DEPTH), CHANGE(bad_color, BAD_SCREEN_COLOR),                  \
        CHANGE(bad_pitch, BAD_SCREEN_PITCH), CHANGE(bad_screen_place, BAD_SCREEN_PLACE), CHANGE(bad_rsdp, BAD_RSDP),                \
        CHANGE(bad_table, BAD_SYSTEM_TABLE), CHANGE(bad_descriptors, BAD_DESCRIPTORS), CHANGE(bad_map, BAD_EFI_MAP_SIZE),           \
        CHANGE(bad_map_place, BAD_EFI_MAP_PLACE), CHANGE(bad_smbios, BAD_SMBIOS_SIZE), CHANGE(many_avoided, TOO_MANY_AVOIDED),      \
        CHANGE(bad_avoided, BAD_AVOIDED), CHANGE(avoided_pool, POOL_AVOIDED)

static const change of_load[] = {
    CHANGE(null_memory, NULL), CHANGE(null_regions, NULL), CHANGE(null_map, NULL), CHANGE(null_avoided, NULL), CHANGE(null_line, NULL),
    CHANGE(null_kernel, NULL), CHANGE(null_module, NULL), CHANGE(null_places, NULL), CHANGE(set_machine, BAD_RESERVED),
    CHANGE(set_firmware, BAD_RESERVED), CHANGE(set_screen, BAD_RESERVED), CHANGE(set_region, BAD_RESERVED),
    CHANGE(set_memory, BAD_RESERVED), CHANGE(set_module, BAD_RESERVED), CHANGE(set_entry_end, BAD_RESERVED),
    CHANGE(set_outcome, BAD_RESERVED), CHANGE(set_entry, BAD_RESERVED), CHANGE(unreadable_kernel, BAD_FILE),
    CHANGE(unreadable_module, BAD_FILE), CHANGE(few_places, SMALL_ROOM), CHANGE(bad_kind, BAD_KIND), CHANGE(bad_efi_bits, BAD_EFI_BITS),
    CHANGE(bad_secure_boot, BAD_SECURE_BOOT), CHANGE(bad_size, BAD_SIZE), CHANGE(many_regions, TOO_MANY_REGIONS),
    CHANGE(bad_region, BAD_REGION), CHANGE(bad_pool, BAD_POOL), OF_FIRMWARE, CHANGE(short_memory, BAD_MEMORY),
    CHANGE(high_memory, BAD_MEMORY), CHANGE(bad_protocol, BAD_PROTOCOL), CHANGE(many_modules, TOO_MANY_MODULES),
    CHANGE(more_modules, TOO_MANY_MODULES), CHANGE(long_rsdp, LONG_RSDP), CHANGE(no_kernel, REFUSED), CHANGE(nothing, DONE)};
/* the same, but for memory and bytes beside the kernel's, which are not looked at; the room is looked at last */
static const change of_plan[] = {
    CHANGE(null_regions, NULL), CHANGE(null_map, NULL), CHANGE(null_avoided, NULL), CHANGE(null_line, NULL), CHANGE(null_kernel, NULL),
    CHANGE(null_places, NULL), CHANGE(null_own, NULL), CHANGE(set_machine, BAD_RESERVED), CHANGE(set_firmware, BAD_RESERVED),
    CHANGE(set_screen, BAD_RESERVED), CHANGE(set_region, BAD_RESERVED), CHANGE(set_module, BAD_RESERVED),
    CHANGE(set_entry_end, BAD_RESERVED), CHANGE(set_outcome, BAD_RESERVED), CHANGE(set_entry, BAD_RESERVED),
    CHANGE(unreadable_kernel, BAD_FILE), CHANGE(unreadable_module, BAD_FILE), CHANGE(bad_kind, BAD_KIND),
    CHANGE(bad_efi_bits, BAD_EFI_BITS), CHANGE(bad_secure_boot, BAD_SECURE_BOOT), CHANGE(bad_size, BAD_SIZE),
    CHANGE(many_regions, TOO_MANY_REGIONS), CHANGE(bad_region, BAD_REGION), CHANGE(bad_pool, BAD_POOL),
    OF_FIRMWARE, CHANGE(bad_protocol, BAD_PROTOCOL), CHANGE(many_modules, TOO_MANY_MODULES),
    CHANGE(more_modules, TOO_MANY_MODULES), CHANGE(long_rsdp, LONG_RSDP), CHANGE(no_kernel, REFUSED),
    CHANGE(few_plan_places, SMALL_ROOM), CHANGE(few_steps, SMALL_ROOM), CHANGE(few_bytes, SMALL_ROOM), CHANGE(nothing, DONE)};
static const change of_boot[] = {
    CHANGE(null_memory, NULL), CHANGE(null_regions, NULL), CHANGE(null_map, NULL), CHANGE(null_avoided, NULL),
    CHANGE(null_entries, NULL), CHANGE(null_line, NULL), CHANGE(null_kernel, NULL), CHANGE(null_module, NULL),
    CHANGE(null_places, NULL), CHANGE(set_machine, BAD_RESERVED), CHANGE(set_firmware, BAD_RESERVED), CHANGE(set_screen, BAD_RESERVED),
    CHANGE(set_region, BAD_RESERVED), CHANGE(set_memory, BAD_RESERVED), CHANGE(set_module, BAD_RESERVED),
    CHANGE(set_entry_end, BAD_RESERVED), CHANGE(set_menu_word, BAD_RESERVED), CHANGE(set_outcome, BAD_RESERVED),
    CHANGE(set_menu, BAD_RESERVED), CHANGE(set_last_entry, BAD_RESERVED), CHANGE(few_places, SMALL_ROOM), CHANGE(bad_kind, BAD_KIND),
    CHANGE(bad_efi_bits, BAD_EFI_BITS), CHANGE(bad_secure_boot, BAD_SECURE_BOOT), CHANGE(bad_size, BAD_SIZE),
    CHANGE(many_regions, TOO_MANY_REGIONS), CHANGE(bad_region, BAD_REGION), CHANGE(bad_pool, BAD_POOL),
    OF_FIRMWARE, CHANGE(short_memory, BAD_MEMORY), CHANGE(high_memory, BAD_MEMORY),
    CHANGE(bad_protocol, BAD_PROTOCOL), CHANGE(bad_last_protocol, BAD_PROTOCOL), CHANGE(many_entries, TOO_MANY_ENTRIES),
    CHANGE(many_modules, TOO_MANY_MODULES), CHANGE(more_modules, TOO_MANY_MODULES), CHANGE(long_rsdp, LONG_RSDP),
    CHANGE(bad_first, BAD_INDEX), CHANGE(bad_fallback, BAD_INDEX), CHANGE(low_pool, LOW_POOL), CHANGE(no_kernel, REFUSED),
    CHANGE(unreadable_kernel, DONE), CHANGE(nothing, DONE)};
static const change of_make[] = {
    CHANGE(null_session, NULL), CHANGE(null_regions, NULL), CHANGE(null_map, NULL), CHANGE(null_avoided, NULL),
    CHANGE(null_entries, NULL), CHANGE(null_line, NULL), CHANGE(set_machine, BAD_RESERVED), CHANGE(set_firmware, BAD_RESERVED),
    CHANGE(set_screen, BAD_RESERVED), CHANGE(set_region, BAD_RESERVED), CHANGE(set_module, BAD_RESERVED),
    CHANGE(set_menu_word, BAD_RESERVED), CHANGE(set_menu, BAD_RESERVED), CHANGE(set_last_entry, BAD_RESERVED),
    CHANGE(bad_kind, BAD_KIND), CHANGE(bad_efi_bits, BAD_EFI_BITS), CHANGE(bad_secure_boot, BAD_SECURE_BOOT),
    CHANGE(bad_size, BAD_SIZE), CHANGE(many_regions, TOO_MANY_REGIONS), CHANGE(bad_region, BAD_REGION), CHANGE(bad_pool, BAD_POOL),
    OF_FIRMWARE, CHANGE(bad_protocol, BAD_PROTOCOL), CHANGE(bad_last_protocol, BAD_PROTOCOL),
    CHANGE(many_entries, TOO_MANY_ENTRIES), CHANGE(many_modules, TOO_MANY_MODULES), CHANGE(more_modules, TOO_MANY_MODULES),
    CHANGE(long_rsdp, LONG_RSDP), CHANGE(bad_first, BAD_INDEX), CHANGE(bad_fallback, BAD_INDEX), CHANGE(null_kernel, DONE),
    CHANGE(null_module, DONE), CHANGE(unreadable_kernel, DONE), CHANGE(nothing, DONE)};
/* a struct that keeps no session */
static const change of_none[] = {
    CHANGE(null_session, NULL), CHANGE(null_memory, NULL), CHANGE(set_memory, BAD_RESERVED), CHANGE(high_memory, BAD_MEMORY),
    CHANGE(short_memory, NO_SESSION), CHANGE(nothing, NO_SESSION)};
static const change of_start[] = {
    CHANGE(null_session, NULL), CHANGE(null_memory, NULL), CHANGE(set_memory, BAD_RESERVED), CHANGE(high_memory, BAD_MEMORY),
    CHANGE(short_memory, BAD_MEMORY), CHANGE(nothing, WAITING)};
static const change of_pieces[] = {
    CHANGE(null_session, NULL), CHANGE(null_memory, NULL), CHANGE(null_piece, NULL), CHANGE(set_memory, BAD_RESERVED),
    CHANGE(high_memory, BAD_MEMORY), CHANGE(short_memory, BAD_MEMORY), CHANGE(nothing, WAITING)};
static const change of_outcome[] = {
    CHANGE(null_session, NULL), CHANGE(null_places, NULL), CHANGE(set_outcome, BAD_RESERVED), CHANGE(few_places, SMALL_ROOM),
    CHANGE(nothing, NO_SESSION)};
static const change of_carrying[] = {
    CHANGE(null_memory, NULL), CHANGE(null_files, NULL), CHANGE(null_own, NULL), CHANGE(set_memory, BAD_RESERVED),
    CHANGE(set_outcome, BAD_RESERVED), CHANGE(file_unreadable, BAD_FILE), CHANGE(few_steps, SMALL_ROOM), CHANGE(few_bytes, SMALL_ROOM),
    CHANGE(no_plan, SMALL_ROOM), CHANGE(file_too_short, BAD_FILE), CHANGE(file_too_few, BAD_FILE), CHANGE(no_source, BAD_FILE),
    CHANGE(high_memory, OUTSIDE), CHANGE(wrapped, OUTSIDE), CHANGE(nothing, DONE)};
/* a digest is made as a plan is, and tells no steps; at once it reads all files, as a load does */
static const change of_digest_make[] = {
    CHANGE(null_digest, NULL), CHANGE(null_regions, NULL), CHANGE(null_map, NULL), CHANGE(null_avoided, NULL), CHANGE(null_line, NULL),
    CHANGE(null_kernel, NULL), CHANGE(null_refusal, NULL), CHANGE(set_machine, BAD_RESERVED), CHANGE(set_firmware, BAD_RESERVED),
    CHANGE(set_screen, BAD_RESERVED), CHANGE(set_region, BAD_RESERVED), CHANGE(set_module, BAD_RESERVED),
    CHANGE(set_entry, BAD_RESERVED), CHANGE(unreadable_kernel, BAD_FILE), CHANGE(unreadable_module, BAD_FILE),
    CHANGE(bad_kind, BAD_KIND), CHANGE(bad_efi_bits, BAD_EFI_BITS), CHANGE(bad_secure_boot, BAD_SECURE_BOOT),
    CHANGE(bad_size, BAD_SIZE), CHANGE(many_regions, TOO_MANY_REGIONS), CHANGE(bad_region, BAD_REGION), CHANGE(bad_pool, BAD_POOL),
    OF_FIRMWARE, CHANGE(bad_protocol, BAD_PROTOCOL), CHANGE(many_modules, TOO_MANY_MODULES),
    CHANGE(more_modules, TOO_MANY_MODULES), CHANGE(long_rsdp, LONG_RSDP), CHANGE(no_kernel, REFUSED), CHANGE(null_module, DONE),
    CHANGE(nothing, DONE)};
static const change of_digest_entry[] = {
    CHANGE(null_regions, NULL), CHANGE(null_map, NULL), CHANGE(null_avoided, NULL), CHANGE(null_line, NULL), CHANGE(null_kernel, NULL),
    CHANGE(null_module, NULL), CHANGE(null_digests, NULL), CHANGE(null_parts, NULL), CHANGE(null_refusal, NULL),
    CHANGE(set_machine, BAD_RESERVED), CHANGE(set_firmware, BAD_RESERVED), CHANGE(set_screen, BAD_RESERVED),
    CHANGE(set_region, BAD_RESERVED), CHANGE(set_module, BAD_RESERVED), CHANGE(set_entry, BAD_RESERVED),
    CHANGE(unreadable_kernel, BAD_FILE), CHANGE(unreadable_module, BAD_FILE), CHANGE(bad_kind, BAD_KIND),
    CHANGE(bad_efi_bits, BAD_EFI_BITS), CHANGE(bad_secure_boot, BAD_SECURE_BOOT), CHANGE(bad_size, BAD_SIZE),
    CHANGE(many_regions, TOO_MANY_REGIONS), CHANGE(bad_region, BAD_REGION), CHANGE(bad_pool, BAD_POOL),
    OF_FIRMWARE, CHANGE(bad_protocol, BAD_PROTOCOL), CHANGE(many_modules, TOO_MANY_MODULES),
    CHANGE(more_modules, TOO_MANY_MODULES), CHANGE(long_rsdp, LONG_RSDP), CHANGE(no_kernel, REFUSED), CHANGE(nothing, DONE)};
/* a struct that keeps no digest, and one that does */
static const change of_no_feed[] = {
    CHANGE(null_digest, NULL), CHANGE(null_fed, NULL), CHANGE(long_fed, NO_SESSION), CHANGE(nothing, NO_SESSION)};
static const change of_no_digest[] = {
    CHANGE(null_digest, NULL), CHANGE(null_digests, NULL), CHANGE(null_parts, NULL), CHANGE(nothing, NO_SESSION)};
static const change of_feed[] = {
    CHANGE(null_digest, NULL), CHANGE(null_fed, NULL), CHANGE(long_fed, UNWANTED)};
static const change of_told[] = {
    CHANGE(null_digest, NULL), CHANGE(null_digests, NULL), CHANGE(null_parts, NULL), CHANGE(nothing, WAITING)};

/* ---- the calls */

static uint32_t load(void) { return bootcore_load(&memory, &machine, entries, &outcome); }
static uint32_t plan(void) { return bootcore_plan(&machine, entries, &layout); }
static uint32_t prepare(void) { return bootcore_prepare(&machine, entries, &outcome); }
static uint32_t boot(void) { return bootcore_boot(&memory, &machine, &menu, &outcome); }
static uint32_t make(void) { return bootcore_session_make(session, &machine, &menu); }
static uint32_t start(void) { return bootcore_session_start(session, &memory); }
static uint32_t pieces(void) { return bootcore_session_pieces(session, &memory, &request, piece, 4); }
static uint32_t fault(void) {
    request.attempt = 9;
    return bootcore_session_fault(session, &memory, &request);
}
static uint32_t end(void) { return bootcore_session_outcome(session, &outcome); }
static uint32_t unplaced(void) { return bootcore_unplaced(&machine, entries, &part, told_refusal); }
static uint32_t carry_out(void) { return bootcore_carry_out(&layout, files, file_count, &memory, 1); }

static uint32_t digest_make(void) { return bootcore_digest_make(digest, &machine, entries, told_refusal); }
static uint32_t digest_entry(void) { return bootcore_digest_entry(&machine, entries, told_digests, told_parts, 4, told_refusal); }
static uint32_t digest_feed(void) { return bootcore_digest_feed(digest, fed, fed_length); }
static uint32_t digest_told(void) { return bootcore_digest_told(digest, told_digests, told_parts, 4); }

static int tried, wrong;

/* Whether a misuse has changed nothing, but that the layout of a plan holds none then; without enough room it tells what it wants. */
static bool is_kept(uint32_t (*call)(void), uint32_t status) {
    if (call == plan) {
        layout_before.planned = 0;
        layout_before.place_count = status == BOOTCORE_STATUS_SMALL_ROOM ? layout.place_count : 0;
        layout_before.step_count = status == BOOTCORE_STATUS_SMALL_ROOM ? layout.step_count : 0;
        layout_before.own_length = status == BOOTCORE_STATUS_SMALL_ROOM ? layout.own_length : 0;
    }
    return !memcmp(bytes, bytes_before, MEMORY) && !memcmp(places, places_before, sizeof places) &&
           !memcmp(refusals, refusals_before, sizeof refusals) && !memcmp(&outcome, &outcome_before, sizeof outcome) &&
           !memcmp(&layout, &layout_before, sizeof layout) && !memcmp(&digests, &digests_before, sizeof digests) &&
           !memcmp(part_digests, part_digests_before, sizeof part_digests) && !memcmp(&part, &part_before, sizeof part) &&
           kept_digest.kept == kept_before.kept;
}

typedef void changing(void);

static bool are(const change *one, const change *two, changing *first, changing *second) {
    return (one->make == first && two->make == second) || (one->make == second && two->make == first);
}

/* Of some two changes one undoes the other: what can't be read has no pointer that is looked at, and so on. */
static bool can_be_both(const change *one, const change *two) {
    return !are(one, two, null_kernel, unreadable_kernel) && !are(one, two, null_module, unreadable_module) &&
           !are(one, two, null_module, bad_protocol) && !are(one, two, unreadable_module, bad_protocol) &&
           !are(one, two, null_files, file_too_few) && !are(one, two, set_module, bad_protocol);
}

/* Of a misuse of a region the changed one is named: the first has a bad kind, the second ends too high. */
static bool names_region(uint32_t status) {
    return (status != BOOTCORE_STATUS_BAD_KIND || bootcore_bad_region(&machine) == 0) &&
           (status != BOOTCORE_STATUS_BAD_REGION || bootcore_bad_region(&machine) == 1) &&
           ((status != BOOTCORE_STATUS_DONE && status != BOOTCORE_STATUS_TOO_MANY_REGIONS) ||
            bootcore_bad_region(&machine) == machine.region_count);
}

static void try_two(const char *call_name, uint32_t (*call)(void), const change *one, const change *two) {
    uint32_t status;
    bool holds;
    right();
    if (call == carry_out) {
        right_layout();
        if (plan() != BOOTCORE_STATUS_DONE) {
            puts("no plan is made");
        }
        memset(places, 0xA5, sizeof places);
    } else {
        right_layout();
    }
    two->make();
    one->make();
    outcome_before = outcome;
    layout_before = layout;
    kept_before = kept_digest;
    status = call();
    holds = (one->status < BOOTCORE_STATUS_NULL || is_kept(call, status)) && names_region(status);
    if (status != one->status || !holds) {
        printf("%s, %s and %s: %" PRIu32 ", not %" PRIu32 "%s\n", call_name, one->name, two->name, status, one->status,
               holds ? "" : ", and something is told");
        wrong++;
    }
    tried++;
}

/* Each change alone, and before each one that comes behind it in the table. */
static void try_all(const char *call_name, uint32_t (*call)(void), const change *changes, size_t count) {
    size_t i, k;
    for (i = 0; i < count; i++) {
        try_two(call_name, call, &changes[i], &changes[i]);
        for (k = i + 1; k < count; k++) {
            if (changes[i].status != changes[k].status && can_be_both(&changes[i], &changes[k])) {
                try_two(call_name, call, &changes[i], &changes[k]);
            }
        }
    }
}

#define TRY(call, changes) try_all(#call, call, changes, sizeof changes / sizeof *changes)

/* What only a load can prepare: without those of its misuses that a preparation does not look at. */
static void try_preparations(void) {
    size_t i, k, count = sizeof of_load / sizeof *of_load;
    for (i = 0; i < count; i++) {
        for (k = i + 1; k < count; k++) {
            const change *both[2];
            both[0] = &of_load[i];
            both[1] = &of_load[k];
            if (both[0]->make == null_memory || both[0]->make == set_memory || both[0]->make == null_module ||
                both[0]->status == BOOTCORE_STATUS_BAD_MEMORY ||
                both[0]->status == both[1]->status || !can_be_both(both[0], both[1])) {
                continue;
            }
            try_two("prepare", prepare, both[0], both[1]);
        }
    }
}

int main(void) {
    memset(bytes_before, 0xA5, sizeof bytes_before);
    memset(places_before, 0xA5, sizeof places_before);
    memset(refusals_before, 0xA5, sizeof refusals_before);
    memset(&digests_before, 0xA5, sizeof digests_before);
    memset(part_digests_before, 0xA5, sizeof part_digests_before);
    memset(&part_before, 0xA5, sizeof part_before);
    TRY(load, of_load);
    TRY(plan, of_plan);
    try_preparations();
    /* it reads what a digest is made of, and keeps none */
    try_all("unplaced", unplaced, of_digest_make + 1, sizeof of_digest_make / sizeof *of_digest_make - 1);
    TRY(boot, of_boot);
    TRY(carry_out, of_carrying);
    TRY(start, of_none);
    TRY(pieces, of_none);
    TRY(fault, of_none);
    TRY(end, of_outcome);
    TRY(make, of_make);
    right();
    /* the second one frees the first: the sanitizer counts what is lost */
    if (make() != BOOTCORE_STATUS_DONE || make() != BOOTCORE_STATUS_DONE) {
        puts("no session is made");
    }
    TRY(start, of_start);
    TRY(pieces, of_pieces);
    TRY(fault, of_start);
    bootcore_session_free(&kept);
    TRY(digest_feed, of_no_feed);
    TRY(digest_told, of_no_digest);
    TRY(digest_make, of_digest_make);
    TRY(digest_entry, of_digest_entry);
    right();
    if (digest_make() != BOOTCORE_STATUS_DONE || digest_make() != BOOTCORE_STATUS_DONE) {
        puts("no digest is made");
    }
    TRY(digest_feed, of_feed);
    TRY(digest_told, of_told);
    bootcore_digest_free(&kept_digest);
    printf("%d tried, %d wrong\n", tried, wrong);
    return wrong != 0;
}
