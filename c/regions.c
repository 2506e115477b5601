/* Which region a misuse is about. */
#include "given.h"

/* As the core says it of a region that can't end too high. */
static bool has_bad_kind(const bootcore_region *region) {
    const bootcore_region empty = {0, 0, region->kind, 0};
    return bootcore_bad_region_index(&empty, 1) == 0;
}

BOOTCORE_CALL
size_t bootcore_bad_region(const bootcore_machine *machine) {
    bootcore_given_machine given;
    const bootcore_region *regions;
    size_t count;
    size_t index;
    /* of none that can be read is it */
    if (!machine || bootcore_is_null(machine->regions, machine->region_count)) {
        return machine ? machine->region_count : 0;
    }
    bootcore_machine_crossing(machine, &given);
    regions = given.machine.regions;
    count = given.machine.region_count;
    index = bootcore_bad_region_index(regions, count);
    /* that there are too many is told before one that ends too high */
    if (index == count || (count > BOOTCORE_MAX_REGIONS && !has_bad_kind(&regions[index]))) {
        return machine->region_count;
    }
    return index;
}
