/* On the host: what the boot manager's own code makes of the ways to partitions that firmware tells. */
#include "app.h"

#include <stdio.h>
#include <stdlib.h>
#include <string.h>

static int failed;
static void expect(const char *what, int is_good) {
    if (!is_good) printf("%s\n", what), failed = 1;
}

/* ---- the firmware: a device is a way to it, and what is known of its partition */

enum { gpt = 2, mbr = 1, most_devices = 8 };

typedef struct {
    uint8_t *way; /* NULL: the firmware tells none */
    int has_kind;
    uint8_t info[16 + 16];
} device;

static device devices[most_devices];
static UINTN device_count;
static int freed;

static const EFI_GUID way_id = DEVICE_PATH_PROTOCOL, system_id = SIMPLE_FILE_SYSTEM_PROTOCOL;

static EFI_STATUS EFIAPI find_protocol(EFI_HANDLE handle, EFI_GUID *id, VOID **found) {
    device *at = handle;
    int is_way = memcmp(id, &way_id, sizeof way_id) == 0;
    *found = is_way ? (VOID *)at->way : (VOID *)at->info;
    return (is_way ? at->way != NULL : at->has_kind) ? EFI_SUCCESS : EFI_UNSUPPORTED;
}
static EFI_STATUS EFIAPI find_handles(EFI_LOCATE_SEARCH_TYPE how, EFI_GUID *id, VOID *key, UINTN *count,
                                      EFI_HANDLE **handles) {
    (void)how, (void)key;
    expect("file systems are asked for", memcmp(id, &system_id, sizeof system_id) == 0);
    if (device_count == 0) return EFI_NOT_FOUND;
    *handles = calloc(device_count, sizeof **handles);
    *count = device_count;
    for (UINTN i = 0; i < device_count; i++) (*handles)[i] = &devices[i];
    return EFI_SUCCESS;
}
static EFI_STATUS EFIAPI release(VOID *handles) { return freed++, free(handles), EFI_SUCCESS; }

static EFI_BOOT_SERVICES services = {
    .HandleProtocol = find_protocol, .LocateHandleBuffer = find_handles, .FreePool = release};
EFI_BOOT_SERVICES *BS = &services;
struct menu_file menu; /* text.c has to do with it */

/* ---- devices */

/* Each way is a block of its own, so that a byte beyond its end is found. */
static uint8_t *way_of(const uint8_t *nodes, size_t length) {
    static const uint8_t end[4] = {0x7f, 0xff, 4, 0};
    uint8_t *made = malloc(length + sizeof end);
    memcpy(made, nodes, length);
    memcpy(made + length, end, sizeof end);
    return made;
}

/* A controller's node, then that of a partition, whose bytes count up from a first one. */
static void put(uint8_t controller, uint8_t id_kind, uint8_t first, int kind_of_table, const uint8_t *kind) {
    uint8_t nodes[6 + 42] = {1, 1, 6, 0, controller, 0, 4, 1, 42, 0};
    device *at = &devices[device_count++];
    for (uint8_t i = 0; i < 16; i++) nodes[6 + 24 + i] = (uint8_t)(first + i);
    nodes[6 + 40] = 2;
    nodes[6 + 41] = id_kind;
    at->way = way_of(nodes, sizeof nodes);
    at->has_kind = kind_of_table != 0;
    at->info[4] = (uint8_t)kind_of_table;
    memcpy(at->info + 16, kind, 16);
}

/* bc13c2ff-59e6-4262-a352-b275fd6f7172, as the bytes of a table have it (UEFI, appendix A) */
static const uint8_t extended[16] = "\xff\xc2\x13\xbc\xe6\x59\x62\x42\xa3\x52\xb2\x75\xfd\x6f\x71\x72";
static const uint8_t other[16] = "\x28\x73\x2a\xc1\x1f\xf8\xd2\x11\xba\x4b\x00\xa0\xc9\x3e\xc9\x3b";

static void begin(void) {
    while (device_count > 0) {
        free(devices[--device_count].way);
        devices[device_count] = (device){.way = NULL};
    }
}

static void check_names(void) {
    const uint8_t disk[6] = {1, 1, 6, 0, 7, 0};
    begin();
    expect("without a file system there is no partition", find_partition("x", NULL) == NULL && freed == 0);
    put(7, 2, 0xa0, gpt, other);
    expect("a GUID is spelled as tables of partitions have it",
           strcmp(partition_name(devices), "a3a2a1a0-a5a4-a7a6-a8a9-aaabacadaeaf") == 0);
    put(7, 1, 0xb0, mbr, other);
    expect("a partition with a signature of an MBR has no GUID", *partition_name(devices + 1) == 0);
    devices[device_count++].way = way_of(disk, sizeof disk);
    expect("a whole disk has no GUID", *partition_name(devices + 2) == 0);
    device_count++;
    expect("a device without a way has no GUID", *partition_name(devices + 3) == 0);
    put(8, 2, 0xc0, gpt, other);
    expect("a partition is found on another disk",
           find_partition("c3c2c1c0-c5c4-c7c6-c8c9-cacbcccdcecf", devices) == devices + 4 && freed == 1);
    expect("a partition that is not there is not found",
           find_partition("c3c2c1c0-c5c4-c7c6-c8c9-cacbcccdceca", devices) == NULL && freed == 2);
}

static void check_extended(void) {
    const uint8_t disk[6] = {1, 1, 6, 0, 7, 0};
    begin();
    put(7, 2, 0xa0, gpt, other);
    put(8, 2, 0xb0, gpt, extended);
    put(7, 2, 0xc0, gpt, other);
    expect("the extended partition of another disk does not count", find_partition(NULL, devices) == NULL);
    put(7, 1, 0xd0, gpt, extended);
    put(7, 2, 0xd0, mbr, extended);
    put(7, 2, 0xd0, 0, extended);
    expect("one that the table does not show to be one does not count", find_partition(NULL, devices) == NULL);
    put(7, 2, 0xe0, gpt, extended);
    expect("the extended partition of the same disk is found", find_partition(NULL, devices) == devices + 6);
    expect("from the extended partition there is no other one", find_partition(NULL, devices + 6) == NULL);
    put(8, 2, 0xe0, gpt, extended);
    expect("of a disk and its copy the own one counts",
           find_partition("e3e2e1e0-e5e4-e7e6-e8e9-eaebecedeeef", devices) == devices + 6 &&
               find_partition("e3e2e1e0-e5e4-e7e6-e8e9-eaebecedeeef", devices + 1) == devices + 7 &&
               find_partition(NULL, devices) == devices + 6);
    free(devices[0].way);
    devices[0].way = way_of(disk, sizeof disk);
    expect("a disk without partitions has none", find_partition(NULL, devices) == NULL);
    free(devices[0].way);
    devices[0].way = NULL;
    expect("a disk without a way has none", find_partition(NULL, devices) == NULL);
    begin();
}

int main(void) {
    check_names();
    check_extended();
    return failed;
}
