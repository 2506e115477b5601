/* One entry: loaded, prepared, planned; and its part that finds no place. */
#include "given.h"

/* What an outcome tells of a load or a preparation. */
static void tell_end(uint32_t status, const bootcore_refusal *refusal, bootcore_outcome *outcome) {
    if (status == BOOTCORE_STATUS_DONE) {
        outcome->refusal_count = 0;
    }
    if (status == BOOTCORE_STATUS_REFUSED) {
        outcome->refusal_count = 1;
        if (outcome->refusal_room) {
            outcome->refusals[0] = *refusal;
        }
    }
}

/* What stands for an outcome's places where there is room for none: nothing is written there. */
static bootcore_place *places_of(bootcore_outcome *outcome, bootcore_place *none) {
    return outcome->place_room ? outcome->places : none;
}

BOOTCORE_CALL
uint32_t bootcore_load(const bootcore_memory *memory, const bootcore_machine *machine,
                       const bootcore_entry *entry, bootcore_outcome *outcome) {
    bootcore_given_memory given_memory;
    bootcore_given_machine given_machine;
    bootcore_given_entry given;
    bootcore_refusal refusal = {0, 0, 0, 0, 0};
    bootcore_place no_place;
    uint32_t status;
    if (bootcore_memory_has_null(memory) || bootcore_machine_has_null(machine) ||
        bootcore_entry_has_null(entry, BOOTCORE_READS_ALL) || bootcore_outcome_has_null(outcome)) {
        return BOOTCORE_STATUS_NULL;
    }
    if (bootcore_memory_has_reserved(memory) || bootcore_outcome_has_reserved(outcome)) {
        return BOOTCORE_STATUS_BAD_RESERVED;
    }
    status = bootcore_entry_misuse(machine, entry);
    if (status != BOOTCORE_STATUS_DONE) {
        return status;
    }
    given_memory = bootcore_memory_crossing(memory);
    bootcore_machine_crossing(machine, &given_machine);
    bootcore_entry_crossing(entry, BOOTCORE_READS_ALL, &given);
    status = bootcore_load_arrays(given_memory.bytes, given_memory.length, given_memory.base,
                                  &given_machine.machine, &given.entry, &outcome->handoff,
                                  places_of(outcome, &no_place), outcome->place_room, &refusal);
    tell_end(status, &refusal, outcome);
    return status;
}

BOOTCORE_CALL
uint32_t bootcore_prepare(const bootcore_machine *machine, const bootcore_entry *entry,
                          bootcore_outcome *outcome) {
    bootcore_given_machine given_machine;
    bootcore_given_entry given;
    bootcore_refusal refusal = {0, 0, 0, 0, 0};
    bootcore_place no_place;
    uint32_t status;
    if (bootcore_machine_has_null(machine) ||
        bootcore_entry_has_null(entry, BOOTCORE_READS_KERNEL) ||
        bootcore_outcome_has_null(outcome)) {
        return BOOTCORE_STATUS_NULL;
    }
    if (bootcore_outcome_has_reserved(outcome)) {
        return BOOTCORE_STATUS_BAD_RESERVED;
    }
    status = bootcore_entry_misuse(machine, entry);
    if (status != BOOTCORE_STATUS_DONE) {
        return status;
    }
    bootcore_machine_crossing(machine, &given_machine);
    bootcore_entry_crossing(entry, BOOTCORE_READS_KERNEL, &given);
    status = bootcore_prepare_arrays(&given_machine.machine, &given.entry, &outcome->handoff,
                                     places_of(outcome, &no_place), outcome->place_room, &refusal);
    tell_end(status, &refusal, outcome);
    return status;
}

static bool has_null_layout(const bootcore_layout *layout) {
    return !layout || bootcore_is_null(layout->places, layout->place_room) ||
           bootcore_is_null(layout->steps, layout->step_room) ||
           bootcore_is_null(layout->own, layout->own_room);
}

BOOTCORE_CALL
uint32_t bootcore_plan(const bootcore_machine *machine, const bootcore_entry *entry,
                       bootcore_layout *layout) {
    bootcore_given_machine given_machine;
    bootcore_given_entry given;
    bootcore_counts counts = {0, 0, 0};
    bootcore_place no_place;
    bootcore_step no_step;
    uint8_t no_byte;
    uint32_t status;
    /* steps of an older plan may stand there: whatever comes of this call, none of them is of it */
    if (layout) {
        layout->planned = 0;
        layout->place_count = 0;
        layout->step_count = 0;
        layout->own_length = 0;
    }
    if (bootcore_machine_has_null(machine) ||
        bootcore_entry_has_null(entry, BOOTCORE_READS_KERNEL) || has_null_layout(layout)) {
        return BOOTCORE_STATUS_NULL;
    }
    if (BOOTCORE_IS_RESERVED_SET(layout)) {
        return BOOTCORE_STATUS_BAD_RESERVED;
    }
    status = bootcore_entry_misuse(machine, entry);
    if (status != BOOTCORE_STATUS_DONE) {
        return status;
    }
    bootcore_machine_crossing(machine, &given_machine);
    bootcore_entry_crossing(entry, BOOTCORE_READS_KERNEL, &given);
    status = bootcore_plan_arrays(
        &given_machine.machine, &given.entry, &layout->handoff, &counts,
        layout->place_room ? layout->places : &no_place, layout->place_room,
        layout->step_room ? layout->steps : &no_step, layout->step_room,
        layout->own_room ? layout->own : &no_byte, layout->own_room, &layout->refusal);
    if (status == BOOTCORE_STATUS_DONE || status == BOOTCORE_STATUS_SMALL_ROOM) {
        layout->place_count = (size_t)counts.places;
        layout->step_count = (size_t)counts.steps;
        layout->own_length = (size_t)counts.own;
    }
    layout->planned = status == BOOTCORE_STATUS_DONE;
    return status;
}

BOOTCORE_CALL
uint32_t bootcore_unplaced(const bootcore_machine *machine, const bootcore_entry *entry,
                           bootcore_unplaced_part *part, bootcore_refusal *refusal) {
    bootcore_given_machine given_machine;
    bootcore_given_entry given;
    uint32_t status;
    if (bootcore_machine_has_null(machine) ||
        bootcore_entry_has_null(entry, BOOTCORE_READS_KERNEL) || !part || !refusal) {
        return BOOTCORE_STATUS_NULL;
    }
    status = bootcore_entry_misuse(machine, entry);
    if (status != BOOTCORE_STATUS_DONE) {
        return status;
    }
    bootcore_machine_crossing(machine, &given_machine);
    bootcore_entry_crossing(entry, BOOTCORE_READS_KERNEL, &given);
    return bootcore_unplaced_record(&given_machine.machine, &given.entry, part, refusal);
}
