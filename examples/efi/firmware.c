/* What firmware tells beside memory, as facts for the core, which tells them in the form of each
   protocol. Without them a kernel on a machine that has no BIOS finds no screen and no table. */
#include "app.h"

/* ---- the screen: a frame buffer of the graphics output protocol (UEFI 12.9) */

#define CONSOLE_OUT_DEVICE \
    {0xd3b36f2c, 0xd551, 0x11d4, {0x9a, 0x46, 0x00, 0x90, 0x27, 0x3f, 0xc1, 0x4d}}

static EFI_GRAPHICS_OUTPUT_PROTOCOL *output; /* NULL: none has a frame buffer */

static int has_frame_buffer(const EFI_GRAPHICS_OUTPUT_PROTOCOL *found) {
    return found->Mode != NULL && found->Mode->Info != NULL &&
           found->Mode->Info->PixelFormat < PixelBltOnly;
}

/* Where the firmware writes to several screens at once, one of these protocols stands for all of them,
   and has no memory of its own. So the first one that is a device of the console counts, or else the
   first one. */
static void find_output(void) {
    static EFI_GUID id = EFI_GRAPHICS_OUTPUT_PROTOCOL_GUID, console = CONSOLE_OUT_DEVICE;
    EFI_GRAPHICS_OUTPUT_PROTOCOL *found;
    EFI_HANDLE *handles;
    UINTN count;
    void *unused;
    int is_device = 0;
    output = NULL;
    if (EFI_ERROR(BS->LocateHandleBuffer(ByProtocol, &id, NULL, &count, &handles))) return;
    for (UINTN i = 0; i < count && !is_device; i++) {
        if (EFI_ERROR(BS->HandleProtocol(handles[i], &id, (void **)&found)) || !has_frame_buffer(found))
            continue;
        is_device = !EFI_ERROR(BS->HandleProtocol(handles[i], &console, &unused));
        if (output == NULL || is_device) output = found;
    }
    BS->FreePool(handles);
}

static EFI_PIXEL_BITMASK masks_of(const EFI_GRAPHICS_OUTPUT_MODE_INFORMATION *info) {
    switch (info->PixelFormat) {
    case PixelRedGreenBlueReserved8BitPerColor:
        return (EFI_PIXEL_BITMASK){0xff, 0xff00, 0xff0000, 0xff000000};
    case PixelBlueGreenRedReserved8BitPerColor:
        return (EFI_PIXEL_BITMASK){0xff0000, 0xff00, 0xff, 0xff000000};
    default: return info->PixelInformation;
    }
}

/* The bits of a mask are one behind the other. */
static bootcore_color color_of(uint32_t mask) {
    bootcore_color color = {0, 0};
    for (; mask != 0 && !(mask & 1); mask >>= 1) color.position++;
    for (; mask & 1; mask >>= 1) color.size++;
    return color;
}

static bootcore_screen screen_of(const EFI_GRAPHICS_OUTPUT_PROTOCOL_MODE *mode) {
    const EFI_PIXEL_BITMASK masks = masks_of(mode->Info);
    uint32_t all = masks.RedMask | masks.GreenMask | masks.BlueMask | masks.ReservedMask;
    uint8_t depth = 0; /* up to the highest bit that means something, or is reserved */
    for (; all != 0; all >>= 1) depth++;
    return (bootcore_screen){
        .base = mode->FrameBufferBase,
        .pitch = mode->Info->PixelsPerScanLine * ((depth + 7u) / 8),
        .width = mode->Info->HorizontalResolution,
        .height = mode->Info->VerticalResolution,
        .depth = depth,
        .red = color_of(masks.RedMask),
        .green = color_of(masks.GreenMask),
        .blue = color_of(masks.BlueMask),
    };
}

/* ---- UEFI: its system table and memory map, Secure Boot */

enum { unknown = 1, disabled, enabled }; /* as the core has them */
static uint32_t secure_boot;

static EFI_STATUS read_byte(CHAR16 *name, EFI_GUID vendor, UINT32 *attributes, uint8_t *byte) {
    UINTN size = sizeof *byte;
    return ST->RuntimeServices->GetVariable(name, &vendor, attributes, &size, byte);
}

/* Who sits before the machine may have told shim to check nothing. shim says so anew at each start, by a
   variable that is volatile: one that stays may be an operating system's. So Linux's EFI stub has it. */
static int is_off_in_shim(void) {
    static const EFI_GUID shim = SHIM_LOCK;
    uint8_t is_off = 0;
    UINT32 attributes = 0;
    return !EFI_ERROR(read_byte(L"MokSBStateRT", shim, &attributes, &is_off)) && is_off == 1 &&
           !(attributes & EFI_VARIABLE_NON_VOLATILE);
}

/* A firmware without the variable has no Secure Boot; in its setup mode it checks nothing. */
static uint32_t find_secure_boot(void) {
    static const EFI_GUID global = EFI_GLOBAL_VARIABLE;
    uint8_t is_on = 0, is_setup = 0;
    EFI_STATUS status = read_byte(L"SecureBoot", global, NULL, &is_on);
    if (status == EFI_NOT_FOUND) return disabled;
    if (EFI_ERROR(status) || EFI_ERROR(read_byte(L"SetupMode", global, NULL, &is_setup))) return unknown;
    return is_on == 1 && is_setup == 0 && !is_off_in_shim() ? enabled : disabled;
}

int is_secure_boot_on(void) { return secure_boot != disabled; }

/* Linux reads the map where it lies, and looks in it for room for itself: so it is kept in pages that
   it lists itself, as reserved. */
enum { map_room = 65536 }; /* no longer map is told */
static EFI_MEMORY_DESCRIPTOR *map_pages; /* NULL: there are none */
static memory_list kept_list;            /* without bytes: none is kept */

static void keep_list(const memory_list *list) {
    kept_list = *list;
    kept_list.descriptors = map_pages;
    if (map_pages == NULL || list->size > map_room) kept_list.size = 0;
    else memcpy(map_pages, list->descriptors, list->size);
}

/* A list that is not kept lies in memory that is free after the firmware's end: then the core tells
   which limit it breaks. */
static bootcore_efi efi_of(const memory_list *list) {
    return (bootcore_efi){
        .system_table = (UINTN)ST,
        .map = {list->descriptors, list->size},
        .map_address = (UINTN)list->descriptors,
        .bits = 64,
        .descriptor_size = (uint32_t)list->step,
        .descriptor_version = list->version,
        .secure_boot = secure_boot,
    };
}

/* ---- SMBIOS: its tables, by the entry points of DSP0134, 5.2 */

/* The structures up to the one that ends them; all bytes, if none does. Each has its own length, and
   behind it texts, of which an empty one is the last. */
static uint64_t smbios_length(const uint8_t *tables, uint64_t most) {
    enum { head = 4, last_type = 127 };
    for (uint64_t at = 0; at + head <= most && tables[at + 1] >= head;) {
        int is_last = tables[at] == last_type;
        at += tables[at + 1];
        while (at + 2 <= most && number16(tables + at) != 0) at++;
        at += 2;
        if (is_last && at <= most) return at;
    }
    return most;
}

static bootcore_smbios smbios_at(const uint8_t *tables, uint64_t most, uint8_t major, uint8_t minor) {
    return (bootcore_smbios){
        .tables = {tables, smbios_length(tables, most)}, .major = major, .minor = minor};
}

static bootcore_smbios find_smbios(void) {
    static const EFI_GUID old_id = SMBIOS_TABLE_GUID, new_id = SMBIOS3_TABLE_GUID;
    const uint8_t *old = find_listed(&old_id), *new = find_listed(&new_id);
    if (new != NULL)
        return smbios_at((const uint8_t *)number64(new + 16), number32(new + 12), new[7], new[8]);
    if (old != NULL)
        return smbios_at((const uint8_t *)(UINTN)number32(old + 24), number16(old + 22), old[6], old[7]);
    return (bootcore_smbios){.major = 0};
}

/* ---- all of it */

static bootcore_smbios smbios;

void find_firmware(void) {
    find_output();
    secure_boot = find_secure_boot();
    smbios = find_smbios();
    kept_list.size = 0;
    map_pages = take_pages_as(AllocateMaxAddress, EfiReservedMemoryType, map_room / page, UINT32_MAX);
}

/* Memory of boot services is free once they have ended. But devices may still write to it, and firmware
   may use it when Linux asks for its runtime services: so it is avoided, as it is used now. */
void tell_firmware(machine_map *map, const menu_entry *entry) {
    bootcore_firmware *told = &map->firmware;
    const size_t avoided_count = list_avoided(map, map->avoided);
    if (kept_list.size == 0 || !are_alike(&kept_list, &map->list)) keep_list(&map->list);
    if (kept_list.size != 0) map->list = kept_list;
    const uint8_t *rsdp = find_rsdp(1) != NULL ? find_rsdp(1) : find_rsdp(0);
    *told = (bootcore_firmware){.rsdp = (UINTN)rsdp, .smbios = smbios};
    if (output != NULL && !entry->has_no_screen) told->screen = screen_of(output->Mode);
    if (!entry->has_no_efi) told->efi = efi_of(&map->list);
    told->avoided = map->avoided;
    told->avoided_count = avoided_count;
    map->machine.firmware = told;
}
