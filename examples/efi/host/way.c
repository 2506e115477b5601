/* On the host: the way to a file that the boot manager's own code makes for the firmware. */
#include "app.h"

#include <stdio.h>
#include <stdlib.h>
#include <string.h>

static int failed;
static void expect(const char *what, int is_good) {
    if (!is_good) printf("%s\n", what), failed = 1;
}

/* ---- the firmware, and what files.c has to do with it */

static uint8_t *disk; /* the way to it; NULL: the firmware tells none */

static EFI_STATUS EFIAPI find_protocol(EFI_HANDLE handle, EFI_GUID *id, VOID **found) {
    static const EFI_GUID way_id = DEVICE_PATH_PROTOCOL;
    expect("a disk is asked for the way to it", handle == NULL && memcmp(id, &way_id, sizeof way_id) == 0);
    *found = disk;
    return disk != NULL ? EFI_SUCCESS : EFI_UNSUPPORTED;
}
static EFI_BOOT_SERVICES services = {.HandleProtocol = find_protocol};
EFI_BOOT_SERVICES *BS = &services;
struct menu_file menu; /* text.c puts texts there, none of which is made here */

EFI_HANDLE used_disk(void) { return NULL; }
const char *compose(const char *form, ...) { return form; }

static const char partition[] = "a3a2a1a0-a5a4-a7a6-a8a9-aaabacadaeaf/";
static CHAR16 *name; /* a block of its own, so that a byte beyond its end is found */

CHAR16 *file_name(const char *path) {
    size_t before = strncmp(path, partition, strlen(partition)) == 0 ? strlen(partition) : 0;
    size_t length = strlen(path) - before;
    free(name);
    name = length > 510 ? NULL : malloc((length + 2) * sizeof *name);
    for (size_t i = 0; name != NULL && i <= length; i++) name[i + 1] = (unsigned char)path[before + i];
    if (name != NULL) *name = '\\';
    return name;
}

/* ---- ways */

/* A disk with one node of so many bytes, and the node that ends its way. */
static void put_disk(uint16_t length) {
    const uint8_t head[4] = {4, 3, (uint8_t)length, (uint8_t)(length >> 8)}, end[4] = {0x7f, 0xff, 4, 0};
    free(disk);
    disk = calloc(1, length + sizeof end);
    memcpy(disk, head, sizeof head);
    memcpy(disk + length, end, sizeof end);
}

/* Behind the disk's node of 20 bytes. */
static int is_way_to_a_b(const char *path) {
    static const uint8_t wanted[] = {4, 4, 14, 0, '\\', 0, 'a', 0, '/', 0, 'b', 0, 0, 0, 0x7f, 0xff, 4, 0};
    put_disk(20);
    const uint8_t *way = (const uint8_t *)find_way(NULL, path);
    return way != NULL && memcmp(way, disk, 20) == 0 && memcmp(way + 20, wanted, sizeof wanted) == 0;
}

int main(void) {
    static char longest[600], whole[600];
    expect("a file's node has its name and that one's zero", is_way_to_a_b("a/b"));
    strcat(strcpy(whole, partition), "a/b");
    expect("the name of a partition before a path is no part of the node", is_way_to_a_b(whole));
    memset(longest, 'x', 510);
    strcat(strcpy(whole, partition), longest);
    expect("the longest name has a way", find_way(NULL, longest) != NULL && find_way(NULL, whole) != NULL);
    put_disk(4096 - 4 - 14);
    expect("the longest way has room", find_way(NULL, "a/b") != NULL);
    put_disk(4096 - 4 - 14 + 1);
    expect("a longer one has none", find_way(NULL, "a/b") == NULL);
    longest[510] = 'x';
    expect("a file without a name has no way", find_way(NULL, longest) == NULL);
    free(disk);
    disk = NULL;
    expect("a disk without a way has none to its files", find_way(NULL, "a/b") == NULL);
    free(name);
    return failed;
}
