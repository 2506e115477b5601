/* Digests of what an entry hands over. */
#include "given.h"

BOOTCORE_CALL
uint32_t bootcore_digest_make(bootcore_digest *digest, const bootcore_machine *machine,
                              const bootcore_entry *entry, bootcore_refusal *refusal) {
    bootcore_given_machine given_machine;
    bootcore_given_entry given;
    uint32_t status;
    if (!digest || bootcore_machine_has_null(machine) ||
        bootcore_entry_has_null(entry, BOOTCORE_READS_KERNEL) || !refusal) {
        return BOOTCORE_STATUS_NULL;
    }
    status = bootcore_entry_misuse(machine, entry);
    if (status != BOOTCORE_STATUS_DONE) {
        return status;
    }
    bootcore_machine_crossing(machine, &given_machine);
    bootcore_entry_crossing(entry, BOOTCORE_READS_KERNEL, &given);
    return bootcore_digest_make_arrays(digest, &given_machine.machine, &given.entry, refusal);
}

BOOTCORE_CALL
bool bootcore_digest_wanted(const bootcore_digest *digest, bootcore_file_range *range) {
    bootcore_digest copy;
    if (!digest || !range) {
        return false;
    }
    /* the core gives the pointer back as it is: the clause `place` of each export of bootcore_c
     * that only looks, and of c_handle's calls below it */
    copy = *digest;
    return bootcore_digest_wanted_record(&copy, range);
}

BOOTCORE_CALL
uint32_t bootcore_digest_feed(bootcore_digest *digest, const void *bytes, size_t length) {
    if (!digest || bootcore_is_null(bytes, length)) {
        return BOOTCORE_STATUS_NULL;
    }
    return bootcore_digest_feed_array(digest, bootcore_given_array(bytes), length);
}

BOOTCORE_CALL
uint32_t bootcore_digest_told(const bootcore_digest *digest, bootcore_digests *digests,
                              bootcore_part_digest *parts, size_t room) {
    bootcore_digest copy;
    bootcore_part_digest no_part;
    if (!digest || !digests || bootcore_is_null(parts, room)) {
        return BOOTCORE_STATUS_NULL;
    }
    copy = *digest;
    return bootcore_digest_told_arrays(&copy, digests, room ? parts : &no_part, room);
}

BOOTCORE_CALL
void bootcore_digest_free(bootcore_digest *digest) {
    if (digest) {
        bootcore_digest_free_kept(digest);
    }
}

BOOTCORE_CALL
uint32_t bootcore_digest_entry(const bootcore_machine *machine, const bootcore_entry *entry,
                               bootcore_digests *digests, bootcore_part_digest *parts,
                               size_t room, bootcore_refusal *refusal) {
    const bootcore_menu menu = {entry, 1, NULL, 0, 0, 0, {0, 0, 0, 0}};
    bootcore_given_machine given_machine;
    bootcore_crossing_entry *given;
    bootcore_part_digest no_part;
    uint32_t status;
    if (bootcore_machine_has_null(machine) || bootcore_entry_has_null(entry, BOOTCORE_READS_ALL) ||
        !digests || bootcore_is_null(parts, room) || !refusal) {
        return BOOTCORE_STATUS_NULL;
    }
    status = bootcore_entry_misuse(machine, entry);
    if (status != BOOTCORE_STATUS_DONE) {
        return status;
    }
    /* not on the stack, since of all calls the core needs most of it here */
    given = bootcore_menu_crossing(&menu, BOOTCORE_READS_ALL);
    if (!given) {
        return BOOTCORE_STATUS_NO_MEMORY;
    }
    bootcore_machine_crossing(machine, &given_machine);
    status = bootcore_digest_entry_arrays(&given_machine.machine, given, digests,
                                          room ? parts : &no_part, room, refusal);
    rattle_dealloc(given);
    return status;
}
