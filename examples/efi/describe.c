/* The description of a handover, a TOML text that `bootcore digest` takes: in its one form, so that
   one machine and entry have one text. docs/FORMATS.md has the form. */
#include "app.h"

/* ---- texts */

static int is_utf8; /* all so far */

static void add_text(const void *text, size_t length) {
    const uint8_t *bytes = text;
    for (size_t i = 0, next = 0; i < length; i++) {
        if (i == next) next += character_length(bytes + i, length - i);
        if (i == next) is_utf8 = 0, next++;
        if (bytes[i] == '"' || bytes[i] == '\\') print("\\%c", bytes[i]);
        else if (bytes[i] < 0x20 || bytes[i] == 0x7f)
            print("\\u00%c%x", '0' + (bytes[i] >> 4), (uint64_t)bytes[i] & 15);
        else print("%c", bytes[i]);
    }
}

static void add_value(const char *key, const void *text, size_t length) {
    print("%s = \"", key);
    add_text(text, length);
    print("\"\n");
}

static void add_line(bootcore_bytes line) { add_value("line", line.bytes, line.length); }

static void add_number(const char *key, uint64_t number) { print("%s = 0x%x\n", key, number); }

/* Bytes, as those of a file are written. */
static void add_bytes(const char *key, bootcore_bytes held) {
    const uint8_t *bytes = held.bytes;
    if (held.length == 0) return;
    print("%s = \"", key);
    for (size_t i = 0; i < held.length; i++)
        print("%x%x", (uint64_t)bytes[i] >> 4, (uint64_t)bytes[i] & 15);
    print("\"\n");
}

/* A description's titles are short and ASCII; no image depends on them. */
static void add_title(const char *title) {
    char shown[64];
    size_t length = 0;
    for (; length < sizeof shown && title[length]; length++)
        shown[length] = title[length] >= ' ' && title[length] <= '~' ? title[length] : '?';
    add_value("title", shown, length);
}

/* ---- the machine */

/* The greatest of the kinds that an address has; 0: it is in no region. */
static uint32_t kind_at(const bootcore_machine *machine, uint64_t address) {
    uint32_t kind = 0;
    for (size_t i = 0; i < machine->region_count; i++) {
        const bootcore_region *region = &machine->regions[i];
        if (address >= region->base && address - region->base < region->length &&
            region->kind > kind)
            kind = region->kind;
    }
    return kind;
}

/* The next address at which a region begins or ends; UINT64_MAX: there is none. */
static uint64_t next_edge(const bootcore_machine *machine, uint64_t address) {
    uint64_t next = UINT64_MAX;
    for (size_t i = 0; i < machine->region_count; i++) {
        uint64_t base = machine->regions[i].base, end = base + machine->regions[i].length;
        if (base > address && base < next) next = base;
        if (end > address && end < next) next = end;
    }
    return next;
}

/* The first run of addresses of one kind, as long as can be, from an address on where no run goes
   on; of kind 0: there is none. */
static bootcore_region next_run(const bootcore_machine *machine, uint64_t from) {
    bootcore_region run = {from, 0, kind_at(machine, from), 0};
    for (; run.kind == 0 && run.base != UINT64_MAX; run.kind = kind_at(machine, run.base))
        run.base = next_edge(machine, run.base);
    uint64_t end = run.base;
    while (run.kind != 0 && kind_at(machine, end) == run.kind) end = next_edge(machine, end);
    run.length = end - run.base;
    return run;
}

/* A boot of a description reads its files into a pool, of which no image depends: the longest run
   of usable frames, the lowest of several. */
static bootcore_region find_pool(const bootcore_machine *machine) {
    const uint64_t lowest = page, highest = 0xfffff000; /* of usable addresses */
    bootcore_region pool = {0, 0, 0, 0}, run = next_run(machine, 0);
    for (; run.kind != 0; run = next_run(machine, run.base + run.length)) {
        uint64_t start = run.base, end = start + run.length;
        if (start < lowest) start = lowest;
        if (end > machine->size) end = machine->size;
        if (end > highest) end = highest;
        start = (start + page - 1) / page * page;
        end = end / page * page;
        if (run.kind == BOOTCORE_KIND_USABLE && end > start && end - start > pool.length)
            pool.base = start, pool.length = end - start;
    }
    return pool;
}

/* A pool misses what is avoided: that is laid over the map, as a kind that counts before others. */
static bootcore_machine laid_over(const bootcore_machine *machine) {
    static bootcore_region regions[BOOTCORE_MAX_REGIONS + BOOTCORE_MAX_AVOIDED];
    const bootcore_firmware *firmware = machine->firmware;
    bootcore_machine laid = {.size = machine->size, .regions = regions};
    for (; laid.region_count < machine->region_count; laid.region_count++)
        regions[laid.region_count] = machine->regions[laid.region_count];
    for (size_t i = 0; firmware != NULL && i < firmware->avoided_count; i++)
        regions[laid.region_count++] = (bootcore_region){
            firmware->avoided[i].base, firmware->avoided[i].length, BOOTCORE_KIND_BAD, 0};
    return laid;
}

static void add_machine(const bootcore_machine *machine) {
    static const char *const kinds[] = {"", "usable", "reserved", "acpi", "nvs", "bad"};
    const bootcore_machine laid = laid_over(machine);
    bootcore_region pool = find_pool(&laid), run = next_run(machine, 0);
    print("size = 0x%x\npool = [0x%x, 0x%x]\n", machine->size, pool.base, pool.base + pool.length);
    for (; run.kind != 0; run = next_run(machine, run.base + run.length))
        print("\n[[region]]\nbase = 0x%x\nlength = 0x%x\nkind = \"%s\"\n", run.base, run.length,
              kinds[run.kind]);
}

/* ---- what firmware tells */

static void add_color(const char *key, bootcore_color color) {
    print("%s = [0x%x, 0x%x]\n", key, (uint64_t)color.position, (uint64_t)color.size);
}

static void add_screen(const bootcore_screen *screen) {
    if (screen->base == 0) return;
    print("\n[firmware.screen]\n");
    add_number("base", screen->base);
    add_number("pitch", screen->pitch);
    add_number("width", screen->width);
    add_number("height", screen->height);
    add_number("depth", screen->depth);
    add_color("red", screen->red);
    add_color("green", screen->green);
    add_color("blue", screen->blue);
}

/* What is long is measured by itself, where an image has it: so its length is enough. */
static void add_long(const char *key, bootcore_bytes held, int is_measured) {
    if (!is_measured) add_bytes(key, held);
    else print("%s_size = 0x%x\n", key, held.length);
}

static void add_efi(const bootcore_efi *efi, int is_measured) {
    if (efi->system_table == 0) return;
    print("\n[firmware.efi]\n");
    add_number("bits", efi->bits);
    add_number("system_table", efi->system_table);
    add_long("map", efi->map, is_measured);
    add_number("map_address", efi->map_address);
    add_number("descriptor_size", efi->descriptor_size);
    add_number("descriptor_version", efi->descriptor_version);
    add_number("secure_boot", efi->secure_boot);
}

static void add_smbios(const bootcore_smbios *smbios, int is_measured) {
    if (smbios->tables.length == 0) return;
    print("\n[firmware.smbios]\n");
    add_number("major", smbios->major);
    add_number("minor", smbios->minor);
    add_long("tables", smbios->tables, is_measured);
}

/* The ranges to avoid ascend, and none adjoins another one: map.c lists them so. */
static void add_firmware(const bootcore_firmware *firmware, int is_measured, int is_linux) {
    if (firmware == NULL) return;
    if (firmware->rsdp != 0) print("\n[firmware]\nrsdp = 0x%x\n", firmware->rsdp);
    add_screen(&firmware->screen);
    add_efi(&firmware->efi, is_measured);
    if (!is_measured || !is_linux) add_smbios(&firmware->smbios, is_measured);
    for (size_t i = 0; i < firmware->avoided_count; i++)
        print("\n[[avoid]]\nbase = 0x%x\nlength = 0x%x\n", firmware->avoided[i].base,
              firmware->avoided[i].length);
}

/* ---- the entry */

static void add_modules(const menu_entry *entry) {
    for (size_t i = 0; i < entry->core.module_count; i++) {
        print("\n[[entry.module]]\n");
        add_value("file", entry->paths[1 + i], strlen(entry->paths[1 + i]));
        add_line(entry->core.modules[i].line);
    }
}

/* To the kernel all ramdisks are one file, and so they are here: its name is theirs, in lines. */
static void add_ramdisks(const menu_entry *entry) {
    if (entry->core.initrd.length == 0) return;
    print("initrd = \"");
    for (uint32_t i = 1; i < entry->file_count; i++) {
        if (i > 1) add_text("\n", 1);
        add_text(entry->paths[i], strlen(entry->paths[i]));
    }
    print("\"\n");
}

static void add_entry(const menu_entry *entry) {
    const bootcore_entry *core = &entry->core;
    print("\n[[entry]]\n");
    add_title(entry->title);
    print("protocol = \"%s\"\n", protocols[core->protocol]);
    add_value("kernel", entry->paths[0], strlen(entry->paths[0]));
    add_line(core->line);
    if (core->protocol == BOOTCORE_PROTOCOL_MULTIBOOT2) {
        add_bytes("rsdp_old", core->rsdp_old);
        add_bytes("rsdp_new", core->rsdp_new);
        add_modules(entry);
    } else add_ramdisks(entry);
}

size_t describe(const bootcore_machine *machine, const menu_entry *entry, int is_measured, char *text,
                size_t room) {
    is_utf8 = 1;
    kept = text;
    kept_end = text + room;
    add_machine(machine);
    add_firmware(machine->firmware, is_measured, entry->core.protocol != BOOTCORE_PROTOCOL_MULTIBOOT2);
    add_entry(entry);
    size_t length = (size_t)(kept - text);
    kept = NULL;
    return is_utf8 && length < room ? length : 0;
}
