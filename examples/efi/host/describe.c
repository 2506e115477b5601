/* On the host: the description that the boot manager's own code writes. The words are the machine's
   size, then `BASE LENGTH KIND` for each region, by their numbers, and with the kind 0 for each range
   to avoid. Behind --measured it is written as it is measured, behind --told the firmware tells the rest
   too; behind --cut it is written with each room that is too small for it, of which none must be enough. The entry comes from standard input, as a
   menu; each of its files has a byte, but for those whose names end in 0. */
#include "app.h"

#include <stdio.h>
#include <stdlib.h>
#include <string.h>

static EFI_CONFIGURATION_TABLE tables[2] = {{ACPI_TABLE_GUID, NULL}, {ACPI_20_TABLE_GUID, NULL}};
static EFI_SYSTEM_TABLE firmware = {.ConfigurationTable = tables, .NumberOfTableEntries = 2};
EFI_SYSTEM_TABLE *ST = &firmware;
EFI_BOOT_SERVICES *BS;

void each_file(const char *folder, void (*call)(const char *name)) { (void)folder, (void)call; }
char *read_text(const char *path, struct text_room *room, const char **wrong) { return (void)path, (void)room, (void)wrong, NULL; }
void *take_pages(uint64_t count) { return (void)count, NULL; }
EFI_HANDLE used_disk(void) { return NULL; }
EFI_HANDLE find_partition(const char *name, EFI_HANDLE own) { return (void)name, (void)own, NULL; }
const char *partition_name(EFI_HANDLE device) { return (void)device, ""; }
const char *use_partition(const char *name) { return (void)name, NULL; }

static int is_measured;

static void show(const bootcore_machine *machine, const menu_entry *entry) {
    char *text = malloc(1 << 20);
    size_t length = describe(machine, entry, is_measured, text, 1 << 20);
    if (length == 0) puts("not described");
    fwrite(text, 1, length, stdout);
    free(text);
}

/* Each room is a block of its own, so that a byte beyond its end is found. */
static int cut(const bootcore_machine *machine, const menu_entry *entry) {
    size_t room = 0, length = 0;
    while (length == 0) {
        char *text = malloc(++room);
        length = describe(machine, entry, is_measured, text, room);
        free(text);
    }
    return length + 1 == room ? 0 : 1;
}

static bootcore_region regions[BOOTCORE_MAX_REGIONS];
static bootcore_avoided avoided[BOOTCORE_MAX_AVOIDED];
static bootcore_firmware nothing = {.avoided = avoided};
static bootcore_firmware all = {
    .screen = {.base = 0x8000000000, .pitch = 5120, .width = 1280, .height = 800, .depth = 32,
               .red = {16, 8}, .green = {8, 7}, .blue = {0, 5}},
    .rsdp = 0x7e014,
    .efi = {.system_table = 0x7f6018, .map = {"\x00\x01\xfe\xff", 4}, .map_address = 0x7e0000,
            .bits = 64, .descriptor_size = 48, .descriptor_version = 1, .secure_boot = 2},
    .smbios = {.tables = {"\x7f\x04\x0a", 3}, .major = 3, .minor = 0},
    .avoided = avoided,
};

int main(int count, char **words) {
    static char menu_text[1 << 20];
    static uint8_t old[20], new[36] = {[20] = 36};
    uint32_t line;
    int cuts = count > 1 && strcmp(words[1], "--cut") == 0;
    words += 1 + cuts, count -= 1 + cuts;
    is_measured = count > 0 && strcmp(words[0], "--measured") == 0;
    words += is_measured, count -= is_measured;
    int is_told = count > 0 && strcmp(words[0], "--told") == 0;
    words += is_told, count -= is_told;
    bootcore_firmware *firmware = is_told ? &all : &nothing;
    for (size_t i = 0; i < sizeof old; i++) old[i] = (uint8_t)i;
    for (size_t i = 0; i < sizeof new; i++)
        if (i / 4 != 5) new[i] = (uint8_t)(i * 17); /* what stands there is its length */
    tables[0].VendorTable = old;
    tables[1].VendorTable = new;
    if (count < 1) return 2;
    bootcore_machine machine = {.size = strtoull(*words++, NULL, 0), .regions = regions};
    for (count--; count >= 3; words += 3, count -= 3) {
        uint64_t base = strtoull(words[0], NULL, 0), length = strtoull(words[1], NULL, 0);
        uint32_t kind = (uint32_t)strtoul(words[2], NULL, 0);
        size_t *of_kind = kind ? &machine.region_count : &firmware->avoided_count;
        if (*of_kind == (kind ? BOOTCORE_MAX_REGIONS : BOOTCORE_MAX_AVOIDED)) return 2;
        if (kind) regions[*of_kind] = (bootcore_region){base, length, kind, 0};
        else avoided[*of_kind] = (bootcore_avoided){base, length};
        ++*of_kind;
    }
    if (is_told || firmware->avoided_count) machine.firmware = firmware;
    menu_text[fread(menu_text, 1, sizeof menu_text - 1, stdin)] = 0;
    const char *wrong = read_menu(menu_text, &line);
    if (wrong != NULL) return puts(wrong), 2;
    menu_entry *entry = &menu.entries[0];
    for (uint32_t i = 1; i < entry->file_count; i++)
        if (entry->paths[i][strlen(entry->paths[i]) - 1] != '0') entry->core.initrd.length = 1;
    if (cuts) return cut(&machine, entry);
    show(&machine, entry);
    return 0;
}
