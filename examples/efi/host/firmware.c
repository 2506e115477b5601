/* On the host: what the boot manager's own code tells of firmware that OVMF is not: screens of other
   forms, none, several; tables of either SMBIOS, and cut ones; Secure Boot; a map that changes. */
#include "app.h"

#include <stdio.h>
#include <stdlib.h>
#include <string.h>

static int failed;
static void expect(const char *what, int is_good) {
    if (!is_good) printf("%s\n", what), failed = 1;
}

/* ---- the firmware */

enum { most_handles = 4 };

static EFI_GRAPHICS_OUTPUT_MODE_INFORMATION infos[most_handles];
static EFI_GRAPHICS_OUTPUT_PROTOCOL_MODE modes[most_handles];
static EFI_GRAPHICS_OUTPUT_PROTOCOL outputs[most_handles];
static UINTN handle_count;
static int console_at, has_pages, freed;
static EFI_STATUS state_status, setup_status, shim_status = EFI_NOT_FOUND;
static uint8_t state, setup, shim;
static UINT32 shim_attributes;

static EFI_STATUS EFIAPI find_handles(EFI_LOCATE_SEARCH_TYPE how, EFI_GUID *id, VOID *key, UINTN *count,
                                      EFI_HANDLE **handles) {
    (void)how, (void)id, (void)key;
    *handles = calloc(most_handles, sizeof **handles);
    *count = handle_count;
    for (UINTN i = 0; i < handle_count; i++) (*handles)[i] = &outputs[i];
    if (handle_count) return EFI_SUCCESS;
    free(*handles);
    return EFI_NOT_FOUND;
}
static EFI_STATUS EFIAPI find_protocol(EFI_HANDLE handle, EFI_GUID *id, VOID **found) {
    static EFI_GUID output = EFI_GRAPHICS_OUTPUT_PROTOCOL_GUID;
    *found = handle;
    if (memcmp(id, &output, sizeof output) == 0) return EFI_SUCCESS;
    return handle == &outputs[console_at] ? EFI_SUCCESS : EFI_UNSUPPORTED;
}
static EFI_STATUS EFIAPI release(VOID *handles) { return freed++, free(handles), EFI_SUCCESS; }
static EFI_STATUS EFIAPI get_variable(CHAR16 *name, EFI_GUID *vendor, UINT32 *attributes, UINTN *size, VOID *byte) {
    static const EFI_GUID shim_vendor = {0x605dab50, 0xe046, 0x4300, {0xab, 0xb6, 0x3d, 0xd8, 0x10, 0xdd, 0x8b, 0x23}};
    int is_setup = name[1] == 'e' && name[2] == 't', is_shim = *name == 'M';
    expect("a byte is asked for", *size == 1);
    *(uint8_t *)byte = is_shim ? shim : is_setup ? setup : state;
    if (is_shim) expect("shim's variable has its vendor", memcmp(vendor, &shim_vendor, sizeof shim_vendor) == 0);
    if (is_shim) *attributes = shim_attributes;
    return is_shim ? shim_status : is_setup ? setup_status : state_status;
}

static uint64_t kept_pages[65536 / 8];
void *take_pages_as(EFI_ALLOCATE_TYPE how, EFI_MEMORY_TYPE type, uint64_t count, uint64_t address) {
    int is_wanted = how == AllocateMaxAddress && type == EfiReservedMemoryType && address <= UINT32_MAX;
    return has_pages && is_wanted && count * page == sizeof kept_pages ? kept_pages : NULL;
}

static uint8_t entry_point[32];
static EFI_CONFIGURATION_TABLE listed[2];
static EFI_BOOT_SERVICES services = {
    .LocateHandleBuffer = find_handles, .HandleProtocol = find_protocol, .FreePool = release};
static EFI_RUNTIME_SERVICES runtime = {.GetVariable = get_variable};
static EFI_SYSTEM_TABLE firmware = {.RuntimeServices = &runtime, .ConfigurationTable = listed};
EFI_SYSTEM_TABLE *ST = &firmware;
EFI_BOOT_SERVICES *BS = &services;

/* ---- what is told */

static EFI_MEMORY_DESCRIPTOR ranges[2000];
static machine_map map;
static menu_entry entry;

/* Of a map of so many ranges, of which each one lies behind a hole. */
static const bootcore_firmware *told_of(UINTN count) {
    for (UINTN i = 0; i < count; i++)
        ranges[i].PhysicalStart = 2 * i * page, ranges[i].NumberOfPages = 1, ranges[i].Attribute = EFI_MEMORY_WB;
    map.list = (memory_list){ranges, sizeof *ranges, count * sizeof *ranges, 1};
    tell_firmware(&map, &entry);
    return &map.firmware;
}

static void put_screen(int at, EFI_GRAPHICS_PIXEL_FORMAT format, EFI_PIXEL_BITMASK masks, uint64_t base) {
    infos[at] = (EFI_GRAPHICS_OUTPUT_MODE_INFORMATION){0, 1280, 800, format, masks, 1344};
    modes[at] = (EFI_GRAPHICS_OUTPUT_PROTOCOL_MODE){.Info = &infos[at], .FrameBufferBase = base};
    outputs[at].Mode = &modes[at];
}

static void check_screen(const char *what, EFI_GRAPHICS_PIXEL_FORMAT format, EFI_PIXEL_BITMASK masks,
                         bootcore_screen wanted) {
    handle_count = 1;
    put_screen(0, format, masks, wanted.base);
    find_firmware();
    if (wanted.base) wanted.width = 1280, wanted.height = 800;
    expect(what, memcmp(&told_of(1)->screen, &wanted, sizeof wanted) == 0);
}

static void check_screens(void) {
    const EFI_PIXEL_BITMASK none = {0, 0, 0, 0};
    check_screen("a screen of RGB", PixelRedGreenBlueReserved8BitPerColor, none,
                 (bootcore_screen){.base = 0xc0000000, .pitch = 5376, .depth = 32, .red = {0, 8}, .green = {8, 8}, .blue = {16, 8}});
    check_screen("a screen of BGR above 4 GiB", PixelBlueGreenRedReserved8BitPerColor, none,
                 (bootcore_screen){.base = 0x4000000000, .pitch = 5376, .depth = 32, .red = {16, 8}, .green = {8, 8}, .blue = {0, 8}});
    check_screen("a screen of 16 bits", PixelBitMask, (EFI_PIXEL_BITMASK){0xf800, 0x7e0, 0x1f, 0},
                 (bootcore_screen){.base = 0xc0000000, .pitch = 2688, .depth = 16, .red = {11, 5}, .green = {5, 6}, .blue = {0, 5}});
    check_screen("a screen of 15 bits", PixelBitMask, (EFI_PIXEL_BITMASK){0x7c00, 0x3e0, 0x1f, 0},
                 (bootcore_screen){.base = 0xc0000000, .pitch = 2688, .depth = 15, .red = {10, 5}, .green = {5, 5}, .blue = {0, 5}});
    check_screen("a screen of 24 bits", PixelBitMask, (EFI_PIXEL_BITMASK){0xff, 0xff00, 0xff0000, 0},
                 (bootcore_screen){.base = 0xc0000000, .pitch = 4032, .depth = 24, .red = {0, 8}, .green = {8, 8}, .blue = {16, 8}});
    check_screen("a screen of ten bits a colour", PixelBitMask, (EFI_PIXEL_BITMASK){0x3ff00000, 0xffc00, 0x3ff, 0xc0000000},
                 (bootcore_screen){.base = 0xc0000000, .pitch = 5376, .depth = 32, .red = {20, 10}, .green = {10, 10}, .blue = {0, 10}});
    check_screen("a screen without memory is not told", PixelBltOnly, none, (bootcore_screen){.base = 0});
    handle_count = 0;
    find_firmware();
    expect("no screen is not told", told_of(1)->screen.base == 0);
    handle_count = 4;
    put_screen(0, PixelBltOnly, none, 0);
    for (int i = 1; i < 4; i++) put_screen(i, PixelBlueGreenRedReserved8BitPerColor, none, 0x1000000 * (uint64_t)i);
    for (console_at = 0; console_at < 4; console_at++) {
        find_firmware();
        expect("of several screens that of the console is told, or else the first one",
               told_of(1)->screen.base == 0x1000000 * (uint64_t)(console_at ? console_at : 1));
    }
    entry.has_no_screen = 1;
    expect("a screen is left out for an entry", told_of(1)->screen.base == 0);
    entry.has_no_screen = 0;
}

/* ---- SMBIOS */

/* Tables in a block of their own, so that a byte beyond their end is found. */
static void check_tables(const char *what, const char *bytes, size_t room, size_t wanted) {
    static const EFI_GUID ids[2] = {SMBIOS_TABLE_GUID, SMBIOS3_TABLE_GUID};
    uint8_t *tables = memcpy(malloc(room), bytes, room);
    uint64_t address = (UINTN)tables;
    uint32_t length = (uint32_t)room;
    listed[0] = (EFI_CONFIGURATION_TABLE){ids[1], entry_point};
    firmware.NumberOfTableEntries = 1;
    entry_point[7] = 3, entry_point[8] = 2;
    memcpy(entry_point + 12, &length, 4), memcpy(entry_point + 16, &address, 8);
    find_firmware();
    const bootcore_smbios *told = &told_of(1)->smbios;
    expect(what, told->tables.bytes == tables && told->tables.length == wanted && told->major == 3 && told->minor == 2);
    free(tables);
}

static void check_smbios(void) {
    static const EFI_GUID old = SMBIOS_TABLE_GUID;
    check_tables("SMBIOS up to its end", "\1\6\0\0\1\2text\0more\0\0\177\4\1\0\0\0rest", 27, 23);
    check_tables("SMBIOS without texts", "\1\5\0\0\1\0\0\177\4\1\0\0\0", 13, 13);
    check_tables("SMBIOS without an end", "\1\4\0\0text\0\0\2\4\0\0\0\0", 16, 16);
    check_tables("SMBIOS with a text that is cut", "\1\4\0\0text", 8, 8);
    check_tables("SMBIOS with a last structure that is cut", "\177\4\0\0\0", 5, 5);
    check_tables("SMBIOS with a structure that is cut", "\1\4\0\0\0\0\177\4", 8, 8);
    check_tables("SMBIOS with a structure that is too short", "\1\3\0\0\0\0\177\4\0\0\0\0", 12, 12);
    check_tables("SMBIOS with a structure that is too long", "\1\377\0\0", 4, 4);
    listed[0].VendorGuid = old;
    memset(entry_point, 0, sizeof entry_point);
    entry_point[6] = 2, entry_point[7] = 8; /* the table's own length is 0 */
    find_firmware();
    expect("the older entry point's version", told_of(1)->smbios.major == 2 && map.firmware.smbios.minor == 8);
    firmware.NumberOfTableEntries = 0;
    find_firmware();
    expect("SMBIOS is not told where there is none", told_of(1)->smbios.tables.length == 0);
}

/* ---- UEFI */

static void check_secure_boot(void) {
    static const struct { EFI_STATUS state_status, setup_status; uint8_t state, setup, wanted; } cases[] = {
        {EFI_NOT_FOUND, EFI_NOT_FOUND, 0, 0, 2}, {EFI_DEVICE_ERROR, EFI_SUCCESS, 1, 0, 1}, {EFI_SUCCESS, EFI_SUCCESS, 0, 0, 2},
        {EFI_SUCCESS, EFI_SUCCESS, 1, 0, 3},     {EFI_SUCCESS, EFI_SUCCESS, 1, 1, 2},      {EFI_SUCCESS, EFI_DEVICE_ERROR, 1, 0, 1},
    };
    for (size_t i = 0; i < sizeof cases / sizeof *cases; i++) {
        state_status = cases[i].state_status, setup_status = cases[i].setup_status;
        state = cases[i].state, setup = cases[i].setup;
        find_firmware();
        expect("the state of Secure Boot", told_of(1)->efi.secure_boot == cases[i].wanted);
    }
    /* also turned off in shim; of shim, only what is volatile, there, and 1 counts */
    static const struct { EFI_STATUS status; uint8_t state, is_off; UINT32 attributes; } of_shim[] = {
        {EFI_SUCCESS, 1, 1, EFI_VARIABLE_BOOTSERVICE_ACCESS | EFI_VARIABLE_RUNTIME_ACCESS}, {EFI_SUCCESS, 1, 1, EFI_VARIABLE_BOOTSERVICE_ACCESS},
        {EFI_SUCCESS, 1, 0, EFI_VARIABLE_BOOTSERVICE_ACCESS | EFI_VARIABLE_NON_VOLATILE}, {EFI_SUCCESS, 1, 0, 7}, {EFI_SUCCESS, 0, 0, 6},
        {EFI_SUCCESS, 2, 0, 6}, {EFI_NOT_FOUND, 1, 0, 6}, {EFI_BUFFER_TOO_SMALL, 1, 0, 6},
    };
    state_status = setup_status = EFI_SUCCESS, setup = 0;
    for (size_t i = 0; i < 2 * sizeof of_shim / sizeof *of_shim; i++) {
        state = i % 2;
        shim_status = of_shim[i / 2].status, shim = of_shim[i / 2].state, shim_attributes = of_shim[i / 2].attributes;
        find_firmware();
        const int is_on = state && !of_shim[i / 2].is_off;
        expect("who turned shim's checks off turned Secure Boot off", told_of(1)->efi.secure_boot == (is_on ? 3 : 2));
        expect("and then nobody is asked for a kernel", is_secure_boot_on() == is_on);
    }
    shim_status = EFI_NOT_FOUND;
}

static int is_kept(const bootcore_efi *efi, UINTN count) {
    return efi->map_address == (UINTN)kept_pages && efi->map.bytes == kept_pages &&
           efi->map.length == count * sizeof *ranges && efi->system_table == (UINTN)ST && efi->bits == 64;
}

static void check_map(void) {
    const bootcore_efi *efi = &map.firmware.efi;
    memset(ranges, 0, sizeof ranges);
    find_firmware();
    told_of(40);
    expect("the map is kept in pages", is_kept(efi, 40) && memcmp(kept_pages, ranges, 40 * sizeof *ranges) == 0);
    ranges[7].Type = EfiConventionalMemory;
    told_of(40);
    expect("a map of another machine is kept anew", is_kept(efi, 40) && memcmp(kept_pages, ranges, 40 * sizeof *ranges) == 0);
    expect("nothing is avoided yet", map.firmware.avoided_count == 0);
    ranges[7].Type = EfiBootServicesData;
    told_of(40);
    expect("a map that is alike stays as it was", is_kept(efi, 40) && kept_pages[7 * sizeof *ranges / 8] % 256 == EfiConventionalMemory);
    expect("what is avoided is what the firmware uses now", map.firmware.avoided_count == 1 && map.firmware.avoided[0].base == 14 * page);
    ranges[7].Type = EfiConventionalMemory;
    told_of(40);
    expect("and no more what it used before", is_kept(efi, 40) && map.firmware.avoided_count == 0);
    ranges[7].Type = EfiBootServicesData;
    find_firmware();
    told_of(40);
    expect("another attempt begins with the map as it is", is_kept(efi, 40) && memcmp(kept_pages, ranges, 40 * sizeof *ranges) == 0);
    expect("memory of boot services is avoided", map.firmware.avoided_count == 1 &&
           map.firmware.avoided[0].base == 14 * page && map.firmware.avoided[0].length == page);
    told_of(1700);
    expect("a map that is too long is not kept", efi->map.bytes == ranges && efi->map.length == 1700 * sizeof *ranges);
    told_of(40);
    expect("a shorter one is kept again", is_kept(efi, 40));
    entry.has_no_efi = 1;
    expect("UEFI is left out for an entry", told_of(40)->efi.system_table == 0 && map.firmware.avoided_count == 1);
    entry.has_no_efi = 0;
    has_pages = 0;
    find_firmware();
    told_of(40);
    expect("without pages the map is not kept", efi->map.bytes == ranges);
}

int main(void) {
    has_pages = 1;
    check_screens();
    check_smbios();
    check_secure_boot();
    check_map();
    expect("what the firmware gave is given back", freed > 0);
    return failed;
}
