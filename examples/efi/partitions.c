/* Partitions beside the one that the application was started from, by the ways to them that the
   firmware tells. One is known by its GUID in the disk's table, as text. */
#include "app.h"

/* In the node of a partition (UEFI 10.3.5.1), and in what EFI_PARTITION_INFO_PROTOCOL tells (13.18). */
enum { id_at = 24, id_kind_at = 41, table_at = 4, of_gpt = 2, kind_at = 16 };

/* The last node of the way to a device, if it is that of a partition with a GUID; or NULL. */
static const uint8_t *find_node(EFI_HANDLE device, const uint8_t **start) {
    static EFI_GUID id = DEVICE_PATH_PROTOCOL;
    const uint8_t *last = NULL;
    EFI_DEVICE_PATH *node;
    if (EFI_ERROR(BS->HandleProtocol(device, &id, (void **)&node))) return NULL;
    *start = (const uint8_t *)node;
    for (; !IsDevicePathEnd(node); node = NextDevicePathNode(node)) last = (const uint8_t *)node;
    int has_id = last != NULL && last[0] == MEDIA_DEVICE_PATH && last[1] == MEDIA_HARDDRIVE_DP &&
                 (last[2] | last[3] << 8) > id_kind_at && last[id_kind_at] == SIGNATURE_TYPE_GUID;
    return has_id ? last : NULL;
}

const char *partition_name(EFI_HANDLE device) {
    static const char order[] = "\3\2\1\0-\5\4-\7\6-\10\11-\12\13\14\15\16\17", digits[] = "0123456789abcdef";
    static char name[partition_letters + 1];
    const uint8_t *start, *node = find_node(device, &start);
    char *letter = name;
    for (size_t i = 0; node != NULL && i < sizeof order - 1; i++) {
        const uint8_t byte = order[i] == '-' ? 0 : node[id_at + order[i]];
        *letter++ = order[i] == '-' ? '-' : digits[byte >> 4];
        if (order[i] != '-') *letter++ = digits[byte & 15];
    }
    *letter = 0;
    return name;
}

/* Whether both are partitions of one disk. */
static int are_beside(EFI_HANDLE device, EFI_HANDLE own) {
    const uint8_t *start, *node = find_node(device, &start), *own_start, *own_node = find_node(own, &own_start);
    return node != NULL && own_node != NULL && node - start == own_node - own_start &&
           memcmp(start, own_start, (size_t)(node - start)) == 0;
}

/* Whether it is an extended boot partition. */
static int is_extended(EFI_HANDLE device) {
    static EFI_GUID id = {0x8cf2f62c, 0xbc9b, 0x4821, {0x80, 0x8d, 0xec, 0x9e, 0xc4, 0x21, 0xa1, 0xa0}};
    static const EFI_GUID kind = {0xbc13c2ff, 0x59e6, 0x4262, {0xa3, 0x52, 0xb2, 0x75, 0xfd, 0x6f, 0x71, 0x72}};
    const uint8_t *info;
    return !EFI_ERROR(BS->HandleProtocol(device, &id, (void **)&info)) && info[table_at] == of_gpt &&
           memcmp(info + kind_at, &kind, sizeof kind) == 0;
}

/* A disk and its copy have the same GUIDs: then the disk of the application counts before others. */
EFI_HANDLE find_partition(const char *name, EFI_HANDLE own) {
    static EFI_GUID system = SIMPLE_FILE_SYSTEM_PROTOCOL;
    EFI_HANDLE *devices, found = NULL;
    UINTN count;
    if (EFI_ERROR(BS->LocateHandleBuffer(ByProtocol, &system, NULL, &count, &devices))) return NULL;
    for (UINTN i = 0; i < count; i++) {
        int is_own = are_beside(devices[i], own);
        int is_wanted = name != NULL ? is_word(partition_name(devices[i]), name)
                                     : is_own && devices[i] != own && is_extended(devices[i]);
        if (is_wanted && (found == NULL || is_own)) found = devices[i];
    }
    BS->FreePool(devices);
    return found;
}
