/* Another EFI program, which the firmware loads and starts: a shell, another boot manager. */
#include "app.h"

/* The nodes of the disk, one of the file's name, and one that ends them. */
EFI_DEVICE_PATH *find_way(EFI_HANDLE disk, const char *path) {
    static EFI_GUID id = DEVICE_PATH_PROTOCOL;
    static uint8_t made[4096];
    const CHAR16 *name = file_name(path);
    size_t size = sizeof *name; /* with the end; a path may begin with its partition, which the name lacks */
    EFI_DEVICE_PATH *first, *end, *node;
    if (name == NULL || EFI_ERROR(BS->HandleProtocol(disk, &id, (void **)&first))) return NULL;
    for (const CHAR16 *letter = name; *letter; letter++) size += sizeof *name;
    for (end = first; !IsDevicePathEnd(end); end = NextDevicePathNode(end)) continue;
    size_t length = (size_t)((uint8_t *)end - (uint8_t *)first);
    if (length + size + 2 * sizeof *node > sizeof made) return NULL;
    memcpy(made, first, length);
    node = (EFI_DEVICE_PATH *)(made + length);
    node->Type = MEDIA_DEVICE_PATH;
    node->SubType = MEDIA_FILEPATH_DP;
    SetDevicePathNodeLength(node, sizeof *node + size);
    memcpy(node + 1, name, size);
    node = NextDevicePathNode(node);
    SetDevicePathEndNode(node);
    return (EFI_DEVICE_PATH *)made;
}

static const char *load_words(EFI_STATUS status) {
    switch (status) {
    case EFI_NOT_FOUND: return "There is no such program.";
    case EFI_ACCESS_DENIED:
    case EFI_SECURITY_VIOLATION: return "Secure Boot does not allow this program.";
    case EFI_OUT_OF_RESOURCES: return "There is too little memory.";
    default: return "It is no EFI program for this machine.";
    }
}

const char *start_program(EFI_HANDLE image, const menu_entry *entry) {
    static EFI_GUID id = LOADED_IMAGE_PROTOCOL;
    static CHAR16 options[BOOTCORE_MAX_LINE + 1];
    const bootcore_bytes *line = &entry->core.line;
    EFI_HANDLE program = NULL;
    EFI_LOADED_IMAGE *loaded;
    EFI_DEVICE_PATH *way = find_way(used_disk(), entry->paths[0]);
    size_t letters = line->length > BOOTCORE_MAX_LINE ? 0 : widen(line->bytes, line->length, options);
    if (way == NULL || letters == 0) return "Its path or line is too long, or no UTF-8.";
    EFI_STATUS status = BS->LoadImage(FALSE, image, way, NULL, 0, &program);
    if (!EFI_ERROR(status)) status = BS->HandleProtocol(program, &id, (void **)&loaded);
    if (EFI_ERROR(status)) {
        if (program != NULL) BS->UnloadImage(program); /* what Secure Boot forbids is loaded */
        return load_words(status);
    }
    if (loaded->ImageCodeType != EfiLoaderCode) { /* it would stay, and do what it likes */
        BS->UnloadImage(program);
        return "It is a driver, and no program.";
    }
    loaded->LoadOptions = options;
    loaded->LoadOptionsSize = line->length ? (UINT32)letters * sizeof *options : 0;
    status = BS->StartImage(program, NULL, NULL);
    if (!EFI_ERROR(status)) return NULL;
    return compose("The program ended with the status 0x%x.", (uint64_t)status);
}
