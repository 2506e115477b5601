/* What a caller gives, as the core takes it. */
#include "given.h"

const void *bootcore_given_array(const void *array) {
    static const uint64_t nothing = 0;
    return array ? array : &nothing;
}

bool bootcore_is_null(const void *array, size_t count) {
    return !array && count;
}

static bool is_null_bytes(bootcore_bytes bytes) {
    return bootcore_is_null(bytes.bytes, bytes.length);
}

static bool is_unreadable(bootcore_bytes file) {
    return file.length == BOOTCORE_UNREADABLE;
}

/* A file's bytes are null, though it can be read, and the call reads them. */
static bool is_null_file(bootcore_bytes file, bool is_read) {
    return is_read && !is_unreadable(file) && is_null_bytes(file);
}

static bool is_linux(const bootcore_entry *entry) {
    return entry->protocol == BOOTCORE_PROTOCOL_LINUX || entry->protocol == BOOTCORE_PROTOCOL_LINUX64;
}

static bool has_initrd(const bootcore_entry *entry) {
    return is_linux(entry) && (entry->initrd.bytes || entry->initrd.length);
}

/* ---- counts: of more elements than there may be only one more is looked at, and crosses, so that the
 * core refuses them in its order */

static size_t at_most_one_more(size_t count, size_t most) {
    return count <= most ? count : most + 1;
}

static size_t count_regions(const bootcore_machine *machine) {
    return at_most_one_more(machine->region_count, BOOTCORE_MAX_REGIONS);
}

size_t bootcore_count_entries(const bootcore_menu *menu) {
    return at_most_one_more(menu->entry_count, BOOTCORE_MAX_ENTRIES);
}

/* What an entry of another protocol has of modules is not looked at. */
static size_t count_modules(const bootcore_entry *entry) {
    return entry->protocol == BOOTCORE_PROTOCOL_MULTIBOOT2
               ? at_most_one_more(entry->module_count, BOOTCORE_MAX_MODULES)
               : 0;
}

/* ---- null */

bool bootcore_memory_has_null(const bootcore_memory *memory) {
    return !memory || bootcore_is_null(memory->bytes, memory->length);
}

static bool firmware_has_null(const bootcore_firmware *firmware) {
    return is_null_bytes(firmware->efi.map) || is_null_bytes(firmware->smbios.tables) ||
           bootcore_is_null(firmware->avoided, firmware->avoided_count);
}

bool bootcore_machine_has_null(const bootcore_machine *machine) {
    return !machine || bootcore_is_null(machine->regions, machine->region_count) ||
           (machine->firmware && firmware_has_null(machine->firmware));
}

static bool has_null_modules(const bootcore_entry *entry, bool is_read) {
    size_t count = count_modules(entry), i;
    if (bootcore_is_null(entry->modules, count)) {
        return true;
    }
    for (i = 0; i < count; i++) {
        if (is_null_file(entry->modules[i].file, is_read) ||
            is_null_bytes(entry->modules[i].line)) {
            return true;
        }
    }
    return false;
}

bool bootcore_entry_has_null(const bootcore_entry *entry, bootcore_reading reading) {
    bool are_read = reading == BOOTCORE_READS_ALL;
    if (!entry || is_null_bytes(entry->line) ||
        is_null_file(entry->kernel, reading != BOOTCORE_READS_NONE)) {
        return true;
    }
    if (entry->protocol == BOOTCORE_PROTOCOL_MULTIBOOT2) {
        return is_null_bytes(entry->rsdp_old) || is_null_bytes(entry->rsdp_new) ||
               has_null_modules(entry, are_read);
    }
    return is_linux(entry) && is_null_file(entry->initrd, are_read);
}

bool bootcore_menu_has_null(const bootcore_menu *menu, bootcore_reading reading) {
    size_t i;
    if (!menu || bootcore_is_null(menu->entries, menu->entry_count) ||
        bootcore_is_null(menu->fallbacks, menu->fallback_count)) {
        return true;
    }
    for (i = 0; i < bootcore_count_entries(menu); i++) {
        if (bootcore_entry_has_null(&menu->entries[i], reading)) {
            return true;
        }
    }
    return false;
}

bool bootcore_outcome_has_null(const bootcore_outcome *outcome) {
    return !outcome || bootcore_is_null(outcome->places, outcome->place_room) ||
           bootcore_is_null(outcome->refusals, outcome->refusal_room);
}

/* ---- reserved words, and files that can't be read */

bool bootcore_is_set(const uint64_t *words, size_t count) {
    uint64_t all = 0;
    size_t i;
    for (i = 0; i < count; i++) {
        all |= words[i];
    }
    return all != 0;
}

bool bootcore_memory_has_reserved(const bootcore_memory *memory) {
    return memory->reserved != 0;
}

static bool firmware_has_reserved(const bootcore_firmware *firmware) {
    return firmware->screen.reserved8 || firmware->screen.reserved32 || firmware->smbios.reserved16 ||
           firmware->smbios.reserved32 || BOOTCORE_IS_RESERVED_SET(firmware);
}

bool bootcore_machine_has_reserved(const bootcore_machine *machine) {
    size_t i;
    for (i = 0; i < count_regions(machine); i++) {
        if (machine->regions[i].reserved) {
            return true;
        }
    }
    return BOOTCORE_IS_RESERVED_SET(machine) ||
           (machine->firmware && firmware_has_reserved(machine->firmware));
}

bool bootcore_entry_has_reserved(const bootcore_entry *entry) {
    size_t i;
    for (i = 0; i < count_modules(entry); i++) {
        if (entry->modules[i].reserved[0] || entry->modules[i].reserved[1]) {
            return true;
        }
    }
    return entry->reserved32 || BOOTCORE_IS_RESERVED_SET(entry);
}

bool bootcore_menu_has_reserved(const bootcore_menu *menu) {
    size_t i;
    for (i = 0; i < bootcore_count_entries(menu); i++) {
        if (bootcore_entry_has_reserved(&menu->entries[i])) {
            return true;
        }
    }
    return menu->reserved32 || BOOTCORE_IS_RESERVED_SET(menu);
}

bool bootcore_outcome_has_reserved(const bootcore_outcome *outcome) {
    return BOOTCORE_IS_RESERVED_SET(outcome);
}

bool bootcore_entry_has_unreadable(const bootcore_entry *entry) {
    size_t i;
    for (i = 0; i < count_modules(entry); i++) {
        if (is_unreadable(entry->modules[i].file)) {
            return true;
        }
    }
    return is_unreadable(entry->kernel) || (is_linux(entry) && is_unreadable(entry->initrd));
}

uint32_t bootcore_entry_misuse(const bootcore_machine *machine, const bootcore_entry *entry) {
    if (bootcore_entry_has_reserved(entry) || bootcore_machine_has_reserved(machine)) {
        return BOOTCORE_STATUS_BAD_RESERVED;
    }
    return bootcore_entry_has_unreadable(entry) ? BOOTCORE_STATUS_BAD_FILE : BOOTCORE_STATUS_DONE;
}

/* ---- what crosses */

/* Memory that begins where no machine has an address crosses as memory without bytes, which is too
 * short for each machine: so it is told in the same place of the order. */
bootcore_given_memory bootcore_memory_crossing(const bootcore_memory *memory) {
    static uint8_t nothing[1];
    bootcore_given_memory given = {nothing, 0, 0};
    if (memory->address <= UINT32_MAX && memory->length) {
        given.bytes = memory->bytes;
        given.length = memory->length;
    }
    if (memory->address <= UINT32_MAX) {
        given.base = (uint32_t)memory->address;
    }
    return given;
}

/* All that firmware tells crosses as it is, but an array that is null crosses as one of none, and too many elements
 * cross as one more than there may be; and a null pointer crosses as one to what tells nothing. Field by field: of a
 * copy of the whole, clang would make a call of memcpy. */
static void cross_firmware(const bootcore_firmware *told, bootcore_firmware *given) {
    static const bootcore_firmware nothing;
    const bootcore_firmware *from = told ? told : &nothing;
    size_t i;
    given->screen = from->screen;
    given->rsdp = from->rsdp;
    given->efi = from->efi;
    given->efi.map.bytes = bootcore_given_array(from->efi.map.bytes);
    given->smbios = from->smbios;
    given->smbios.tables.bytes = bootcore_given_array(from->smbios.tables.bytes);
    given->avoided = bootcore_given_array(from->avoided);
    given->avoided_count = at_most_one_more(from->avoided_count, BOOTCORE_MAX_AVOIDED);
    for (i = 0; i < sizeof given->reserved / sizeof *given->reserved; i++) {
        given->reserved[i] = 0;
    }
}

/* Of a machine so do its regions. */
void bootcore_machine_crossing(const bootcore_machine *machine, bootcore_given_machine *given) {
    given->machine = *machine;
    given->machine.regions = bootcore_given_array(machine->regions);
    given->machine.region_count = count_regions(machine);
    given->machine.firmware = &given->firmware;
    cross_firmware(machine->firmware, &given->firmware);
}

static bootcore_slice slice_of(const void *array, size_t count) {
    bootcore_slice slice;
    slice.at = bootcore_given_array(array);
    slice.count = count;
    return slice;
}

static bootcore_slice slice_of_bytes(bootcore_bytes bytes) {
    return slice_of(bytes.bytes, bytes.length);
}

static bootcore_file file_of(bootcore_bytes bytes, bool is_read) {
    bootcore_file file;
    file.bytes = is_read && !is_unreadable(bytes) ? slice_of_bytes(bytes) : slice_of(NULL, 0);
    file.length = bytes.length;
    return file;
}

/* Eight bytes at a time: (w - 0x0101..) & ~w & 0x8080.. is not 0 just if a byte of w is 0. */
static bool has_zero(const uint8_t *bytes, size_t length) {
    const uint64_t ones = UINT64_MAX / 255;
    uint64_t word;
    for (; length >= sizeof word; bytes += sizeof word, length -= sizeof word) {
        __builtin_memcpy(&word, bytes, sizeof word);
        if ((word - ones) & ~word & (ones << 7)) {
            return true;
        }
    }
    for (; length; length--) {
        if (*bytes++ == 0) {
            return true;
        }
    }
    return false;
}

/* A line that is too long is refused for a zero byte, wherever it stands, or else for its length. What
 * crosses in its place has the same fault, and is no longer than the core need copy. */
static bootcore_slice slice_of_line(bootcore_bytes line) {
    static const uint8_t zero[1];
    if (line.length <= BOOTCORE_MAX_LINE) {
        return slice_of_bytes(line);
    }
    if (has_zero(line.bytes, line.length)) {
        return slice_of(zero, sizeof zero);
    }
    return slice_of(line.bytes, BOOTCORE_MAX_LINE + 1);
}

static bootcore_slice slice_of_rsdp(bootcore_bytes copy) {
    return slice_of(copy.bytes, at_most_one_more(copy.length, BOOTCORE_MAX_RSDP));
}

static void cross_entry(const bootcore_entry *entry, bootcore_reading reading,
                        bootcore_crossing_entry *crossing, bootcore_crossing_module *modules) {
    const bootcore_bytes none = {NULL, 0};
    bool is_multiboot2 = entry->protocol == BOOTCORE_PROTOCOL_MULTIBOOT2;
    bool are_read = reading == BOOTCORE_READS_ALL;
    size_t count = count_modules(entry), i;
    crossing->protocol = entry->protocol;
    crossing->has_initrd = has_initrd(entry);
    crossing->kernel = file_of(entry->kernel, reading != BOOTCORE_READS_NONE);
    crossing->line = slice_of_line(entry->line);
    crossing->initrd = file_of(has_initrd(entry) ? entry->initrd : none, are_read);
    for (i = 0; i < count; i++) {
        modules[i].file = file_of(entry->modules[i].file, are_read);
        modules[i].line = slice_of_line(entry->modules[i].line);
    }
    crossing->modules = slice_of(count ? modules : NULL, count);
    crossing->rsdp_old = slice_of_rsdp(is_multiboot2 ? entry->rsdp_old : none);
    crossing->rsdp_new = slice_of_rsdp(is_multiboot2 ? entry->rsdp_new : none);
}

void bootcore_entry_crossing(const bootcore_entry *entry, bootcore_reading reading,
                             bootcore_given_entry *given) {
    cross_entry(entry, reading, &given->entry, given->modules);
}

bootcore_crossing_entry *bootcore_menu_crossing(const bootcore_menu *menu,
                                                bootcore_reading reading) {
    size_t entry_count = bootcore_count_entries(menu), module_count = 0, i;
    bootcore_crossing_entry *entries;
    bootcore_crossing_module *modules;
    bootcore_block block;
    for (i = 0; i < entry_count; i++) {
        module_count += count_modules(&menu->entries[i]);
    }
    block = rattle_alloc(entry_count * sizeof *entries + module_count * sizeof *modules,
                         sizeof(void *));
    if (!(block.is_there & 1)) {
        return NULL;
    }
    entries = block.at;
    modules = (bootcore_crossing_module *)(entries + entry_count);
    for (i = 0; i < entry_count; i++) {
        cross_entry(&menu->entries[i], reading, &entries[i], modules);
        modules += count_modules(&menu->entries[i]);
    }
    return entries;
}
