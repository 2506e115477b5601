/*
 * What crosses to the proved core: the exports of crates/bootcore_c, and their records. An array is a
 * pointer and a count of elements, alone or as a slice in a record; no pointer is null. The functions
 * of bootcore.h test what they are given, make these records of it, or copies without null, and call
 * these.
 */
#ifndef BOOTCORE_CROSSING_H
#define BOOTCORE_CROSSING_H

#include "bootcore.h"

typedef struct bootcore_slice {
    const void *at;
    size_t count;
} bootcore_slice;

/* A file: its bytes, or none of them where they don't cross, and its length. */
typedef struct bootcore_file {
    bootcore_slice bytes;
    uint64_t length;
} bootcore_file;

typedef struct bootcore_crossing_module {
    bootcore_file file;
    bootcore_slice line;
} bootcore_crossing_module;

typedef struct bootcore_crossing_entry {
    uint32_t protocol;
    uint32_t has_initrd;
    bootcore_file kernel;
    bootcore_slice line;
    bootcore_file initrd;
    bootcore_slice modules;
    bootcore_slice rsdp_old;
    bootcore_slice rsdp_new;
} bootcore_crossing_entry;

/* How many places and steps a plan has, and how many bytes of its own. */
typedef struct bootcore_counts {
    uint64_t places;
    uint64_t steps;
    uint64_t own;
} bootcore_counts;

/* One piece. */
typedef struct bootcore_crossing_request {
    uint32_t entry;
    uint32_t attempt;
    uint32_t place; /* of the file in its entry */
    uint32_t piece;
    uint32_t length;
} bootcore_crossing_request;

/* A block of memory, or none: bit 0 of the first word says which. */
typedef struct bootcore_block {
    uint64_t is_there;
    void *at;
} bootcore_block;

/* The sizes that crates/c_records and crates/c_handle prove of these records. */
#define BOOTCORE_HAS_SIZE(type, size) typedef char type##_has_##size[sizeof(type) == (size) ? 1 : -1]

BOOTCORE_HAS_SIZE(bootcore_slice, 16);
BOOTCORE_HAS_SIZE(bootcore_file, 24);
BOOTCORE_HAS_SIZE(bootcore_crossing_module, 40);
BOOTCORE_HAS_SIZE(bootcore_crossing_entry, 120);
BOOTCORE_HAS_SIZE(bootcore_counts, 24);
BOOTCORE_HAS_SIZE(bootcore_crossing_request, 20);
BOOTCORE_HAS_SIZE(bootcore_machine, 72);
BOOTCORE_HAS_SIZE(bootcore_color, 2);
BOOTCORE_HAS_SIZE(bootcore_screen, 32);
BOOTCORE_HAS_SIZE(bootcore_efi, 48);
BOOTCORE_HAS_SIZE(bootcore_smbios, 24);
BOOTCORE_HAS_SIZE(bootcore_avoided, 16);
BOOTCORE_HAS_SIZE(bootcore_firmware, 176);
BOOTCORE_HAS_SIZE(bootcore_region, 24);
BOOTCORE_HAS_SIZE(bootcore_registers, 288);
BOOTCORE_HAS_SIZE(bootcore_segment, 24);
BOOTCORE_HAS_SIZE(bootcore_place, 32);
BOOTCORE_HAS_SIZE(bootcore_handoff, 304);
BOOTCORE_HAS_SIZE(bootcore_refusal, 32);
BOOTCORE_HAS_SIZE(bootcore_step, 40);
BOOTCORE_HAS_SIZE(bootcore_unplaced_part, 56);
BOOTCORE_HAS_SIZE(bootcore_session, 8);
BOOTCORE_HAS_SIZE(bootcore_seen, 136);
BOOTCORE_HAS_SIZE(bootcore_seen_part, 24);
BOOTCORE_HAS_SIZE(bootcore_seen_module, 40);
BOOTCORE_HAS_SIZE(bootcore_seen_efi, 56);
BOOTCORE_HAS_SIZE(bootcore_seen_smbios, 24);
BOOTCORE_HAS_SIZE(bootcore_seen_firmware, 152);
BOOTCORE_HAS_SIZE(bootcore_digest, 8);
BOOTCORE_HAS_SIZE(bootcore_file_range, 32);
BOOTCORE_HAS_SIZE(bootcore_part_digest, 72);
BOOTCORE_HAS_SIZE(bootcore_digests, 120);

BOOTCORE_CALL
uint32_t bootcore_load_arrays(uint8_t *memory, size_t memory_length, uint32_t base,
                              const bootcore_machine *machine,
                              const bootcore_crossing_entry *entry, bootcore_handoff *handoff,
                              bootcore_place *places, size_t place_room,
                              bootcore_refusal *refusal);
BOOTCORE_CALL
uint32_t bootcore_prepare_arrays(const bootcore_machine *machine,
                                 const bootcore_crossing_entry *entry, bootcore_handoff *handoff,
                                 bootcore_place *places, size_t place_room,
                                 bootcore_refusal *refusal);
BOOTCORE_CALL
uint32_t bootcore_plan_arrays(const bootcore_machine *machine,
                              const bootcore_crossing_entry *entry, bootcore_handoff *handoff,
                              bootcore_counts *counts, bootcore_place *places, size_t place_room,
                              bootcore_step *steps, size_t step_room, uint8_t *own,
                              size_t own_room, bootcore_refusal *refusal);
BOOTCORE_CALL
uint32_t bootcore_unplaced_record(const bootcore_machine *machine,
                                  const bootcore_crossing_entry *entry,
                                  bootcore_unplaced_part *part, bootcore_refusal *refusal);
BOOTCORE_CALL
uint32_t bootcore_boot_arrays(uint8_t *memory, size_t memory_length, uint32_t base,
                              const bootcore_machine *machine,
                              const bootcore_crossing_entry *entries, size_t entry_count,
                              uint32_t first, const uint32_t *fallbacks, size_t fallback_count,
                              bootcore_handoff *handoff, bootcore_place *places, size_t place_room,
                              bootcore_refusal *refusals, size_t refusal_room, uint64_t *count);

BOOTCORE_CALL
uint32_t bootcore_session_make_arrays(bootcore_session *session,
                                      const bootcore_machine *machine,
                                      const bootcore_crossing_entry *entries, size_t entry_count,
                                      uint32_t first, const uint32_t *fallbacks,
                                      size_t fallback_count);
BOOTCORE_CALL
uint32_t bootcore_session_start_array(bootcore_session *session, uint8_t *memory,
                                      size_t memory_length, uint32_t base);
BOOTCORE_CALL
uint32_t bootcore_session_piece_arrays(bootcore_session *session, uint8_t *memory,
                                       size_t memory_length, uint32_t base,
                                       const bootcore_crossing_request *request,
                                       const uint8_t *bytes, size_t length);
BOOTCORE_CALL
uint32_t bootcore_session_fault_array(bootcore_session *session, uint8_t *memory,
                                      size_t memory_length, uint32_t base,
                                      const bootcore_crossing_request *request);
BOOTCORE_CALL
bool bootcore_session_missing_record(bootcore_session *session, bootcore_crossing_request *request);
BOOTCORE_CALL
bool bootcore_session_missing_after_record(bootcore_session *session,
                                           bootcore_crossing_request *request);
BOOTCORE_CALL
uint32_t bootcore_session_outcome_arrays(bootcore_session *session, bootcore_handoff *handoff,
                                         bootcore_place *places, size_t place_room,
                                         bootcore_refusal *refusals, size_t refusal_room,
                                         uint64_t *count);
BOOTCORE_CALL
void bootcore_session_free_kept(bootcore_session *session);

BOOTCORE_CALL
void bootcore_segments_told(const bootcore_registers *registers, bootcore_segment *segments,
                            size_t count);

BOOTCORE_CALL
size_t bootcore_bad_region_index(const bootcore_region *regions, size_t region_count);

BOOTCORE_CALL
uint32_t bootcore_image_head_read_arrays(const uint8_t *head, size_t length,
                                         bootcore_handoff *handoff, bootcore_place *places,
                                         size_t place_room, bootcore_refusal *fault);
BOOTCORE_CALL
uint32_t bootcore_walk_array(const uint8_t *image, size_t image_length, bootcore_seen *seen,
                             bootcore_refusal *fault);
BOOTCORE_CALL
uint32_t bootcore_walk_all_arrays(const uint8_t *image, size_t image_length, bootcore_seen *seen,
                                  bootcore_seen_part *kernel_parts, size_t kernel_part_room,
                                  bootcore_seen_module *modules, size_t module_room,
                                  bootcore_region *runs, size_t run_room, uint8_t *text,
                                  size_t text_room, bootcore_seen_firmware *firmware,
                                  bootcore_refusal *fault);

BOOTCORE_CALL
uint32_t bootcore_digest_make_arrays(bootcore_digest *digest,
                                     const bootcore_machine *machine,
                                     const bootcore_crossing_entry *entry,
                                     bootcore_refusal *refusal);
BOOTCORE_CALL
bool bootcore_digest_wanted_record(bootcore_digest *digest, bootcore_file_range *range);
BOOTCORE_CALL
uint32_t bootcore_digest_feed_array(bootcore_digest *digest, const uint8_t *bytes, size_t length);
BOOTCORE_CALL
uint32_t bootcore_digest_told_arrays(bootcore_digest *digest, bootcore_digests *digests,
                                     bootcore_part_digest *parts, size_t room);
BOOTCORE_CALL
void bootcore_digest_free_kept(bootcore_digest *digest);
BOOTCORE_CALL
uint32_t bootcore_digest_entry_arrays(const bootcore_machine *machine,
                                      const bootcore_crossing_entry *entry,
                                      bootcore_digests *digests, bootcore_part_digest *parts,
                                      size_t room, bootcore_refusal *refusal);

/* What the core calls for memory, and c/ too: of the toolchain over malloc, realloc and free, or of
 * c/freestanding over an arena. */
BOOTCORE_CALL
bootcore_block rattle_alloc(size_t length, size_t alignment);
BOOTCORE_CALL
bootcore_block rattle_realloc(void *at, size_t kept, size_t length, size_t alignment);
BOOTCORE_CALL
void rattle_dealloc(void *at);

#endif
