/* What a caller gives: the tests that no pointer is null, no reserved word set and no file unreadable,
 * and the records that cross. */
#ifndef BOOTCORE_GIVEN_H
#define BOOTCORE_GIVEN_H

#include "crossing.h"

/* Of which files the bytes cross: a load and a boot read all, a plan the kernel's, a session none. */
typedef enum bootcore_reading {
    BOOTCORE_READS_ALL,
    BOOTCORE_READS_KERNEL,
    BOOTCORE_READS_NONE
} bootcore_reading;

/* An entry that crosses, with its modules: one more than there may be. */
typedef struct bootcore_given_entry {
    bootcore_crossing_entry entry;
    bootcore_crossing_module modules[BOOTCORE_MAX_MODULES + 1];
} bootcore_given_entry;

/* A machine that crosses, with what firmware tells, which is never null there. */
typedef struct bootcore_given_machine {
    bootcore_machine machine;
    bootcore_firmware firmware;
} bootcore_given_machine;

/* Memory that crosses. */
typedef struct bootcore_given_memory {
    uint8_t *bytes;
    size_t length;
    uint32_t base;
} bootcore_given_memory;

/* What stands for an array without elements. */
const void *bootcore_given_array(const void *array);

/* An array that is null with one element or more. */
bool bootcore_is_null(const void *array, size_t count);

/* A null pointer where one may not be. */
bool bootcore_memory_has_null(const bootcore_memory *memory);
bool bootcore_machine_has_null(const bootcore_machine *machine);
bool bootcore_entry_has_null(const bootcore_entry *entry, bootcore_reading reading);
bool bootcore_menu_has_null(const bootcore_menu *menu, bootcore_reading reading);
bool bootcore_outcome_has_null(const bootcore_outcome *outcome);

/* A reserved word that is not 0; of an array in a struct, as many as are left. */
bool bootcore_is_set(const uint64_t *words, size_t count);
#define BOOTCORE_IS_RESERVED_SET(of) \
    bootcore_is_set((of)->reserved, sizeof (of)->reserved / sizeof *(of)->reserved)
bool bootcore_memory_has_reserved(const bootcore_memory *memory);
bool bootcore_machine_has_reserved(const bootcore_machine *machine);
bool bootcore_entry_has_reserved(const bootcore_entry *entry);
bool bootcore_menu_has_reserved(const bootcore_menu *menu);
bool bootcore_outcome_has_reserved(const bootcore_outcome *outcome);

/* A file that can't be read. */
bool bootcore_entry_has_unreadable(const bootcore_entry *entry);

/* The first that stands of an entry without null: a reserved word of it or its machine, a file that
 * can't be read; or BOOTCORE_STATUS_DONE. */
uint32_t bootcore_entry_misuse(const bootcore_machine *machine, const bootcore_entry *entry);

/* How many entries cross: one more than there may be, if there are more, so that the core refuses them in
 * its order, and no more of them are read. */
size_t bootcore_count_entries(const bootcore_menu *menu);

/* What crosses of what was tested. */
bootcore_given_memory bootcore_memory_crossing(const bootcore_memory *memory);
void bootcore_machine_crossing(const bootcore_machine *machine, bootcore_given_machine *given);
void bootcore_entry_crossing(const bootcore_entry *entry, bootcore_reading reading,
                             bootcore_given_entry *given);

/* The entries of a menu, as many as bootcore_count_entries says, in a block that the caller gives back
 * by rattle_dealloc; null if there is no memory. */
bootcore_crossing_entry *bootcore_menu_crossing(const bootcore_menu *menu,
                                                bootcore_reading reading);

#endif
