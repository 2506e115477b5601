/* A menu, whose files are at hand. */
#include "given.h"

BOOTCORE_CALL
uint32_t bootcore_boot(const bootcore_memory *memory, const bootcore_machine *machine,
                       const bootcore_menu *menu, bootcore_outcome *outcome) {
    bootcore_given_memory given_memory;
    bootcore_given_machine given_machine;
    bootcore_crossing_entry *entries;
    bootcore_refusal no_refusal;
    uint64_t count = 0;
    uint32_t status;
    if (bootcore_memory_has_null(memory) || bootcore_machine_has_null(machine) ||
        bootcore_menu_has_null(menu, BOOTCORE_READS_ALL) || bootcore_outcome_has_null(outcome)) {
        return BOOTCORE_STATUS_NULL;
    }
    if (bootcore_memory_has_reserved(memory) || bootcore_machine_has_reserved(machine) ||
        bootcore_menu_has_reserved(menu) || bootcore_outcome_has_reserved(outcome)) {
        return BOOTCORE_STATUS_BAD_RESERVED;
    }
    /* the core looks at it too, but after memory may have run out here */
    if (outcome->place_room < BOOTCORE_MAX_PLACES) {
        return BOOTCORE_STATUS_SMALL_ROOM;
    }
    entries = bootcore_menu_crossing(menu, BOOTCORE_READS_ALL);
    if (!entries) {
        return BOOTCORE_STATUS_NO_MEMORY;
    }
    given_memory = bootcore_memory_crossing(memory);
    bootcore_machine_crossing(machine, &given_machine);
    status = bootcore_boot_arrays(
        given_memory.bytes, given_memory.length, given_memory.base, &given_machine.machine, entries,
        bootcore_count_entries(menu), menu->first, bootcore_given_array(menu->fallbacks),
        menu->fallback_count, &outcome->handoff, outcome->places, outcome->place_room,
        outcome->refusal_room ? outcome->refusals : &no_refusal, outcome->refusal_room, &count);
    rattle_dealloc(entries);
    /* the core says of such a pool that memory ran out, before it writes any */
    if (status == BOOTCORE_STATUS_NO_MEMORY && machine->pool_length &&
        machine->pool_base < memory->address) {
        return BOOTCORE_STATUS_LOW_POOL;
    }
    if (status == BOOTCORE_STATUS_DONE || status == BOOTCORE_STATUS_REFUSED) {
        outcome->refusal_count = (size_t)count;
    }
    return status;
}
