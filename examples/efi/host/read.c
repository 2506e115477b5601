/* On the host: what the boot manager's own code reads out of a menu and files of loader/entries, as
   lines; or, with --cut, each of them cut after so many bytes, for each number. Files in a folder
   `extended` are those of an extended boot partition. */
#include "app.h"

#include <stdio.h>
#include <stdlib.h>
#include <string.h>

static const uint32_t rsdp[9] = {[5] = 36}; /* the length in its place */
static EFI_CONFIGURATION_TABLE tables[2] = {{ACPI_TABLE_GUID, (void *)rsdp},
                                            {ACPI_20_TABLE_GUID, (void *)rsdp}};
static EFI_SYSTEM_TABLE firmware = {.ConfigurationTable = tables};
EFI_SYSTEM_TABLE *ST = &firmware;
EFI_BOOT_SERVICES *BS;

static char **paths; /* the menu's, then those of entries */
static int path_count;
static size_t most, longest = 1; /* bytes of a file that are read; and that there are */

static const char *name_of(const char *path) {
    const char *slash = strrchr(path, '/');
    return slash ? slash + 1 : path;
}

static char *read_path(const char *path) {
    FILE *file = fopen(path, "rb");
    char *text = calloc(1, 1 << 20);
    if (file == NULL || text == NULL) exit(2);
    size_t length = fread(text, 1, 1 << 20, file);
    fclose(file);
    if (length > longest) longest = length;
    if (length > most) memset(text + most, 0, length - most), length = most;
    if (memchr(text, 0, length)) return free(text), NULL;
    return realloc(text, length + 1);
}

/* ---- what files.c has in the boot manager */

/* A room is a block of its own, so that a byte beyond its end is found. */
static void *rooms[BOOTCORE_MAX_ENTRIES + 1];
static size_t room_count;

void *take_pages(uint64_t count) {
    if (room_count == sizeof rooms / sizeof rooms[0] || count * page != 2 * max_text) exit(4);
    return rooms[room_count++] = malloc(2 * max_text);
}

static const char *used; /* the partition, NULL: none is */

static int is_extended(const char *path) { return strstr(path, "extended/") != NULL; }

void each_file(const char *folder, void (*call)(const char *name)) {
    (void)folder;
    for (int i = 1; i < path_count; i++)
        if (is_extended(paths[i]) == (used != NULL)) call(name_of(paths[i]));
}

char *read_text(const char *path, struct text_room *room, const char **wrong) {
    *wrong = "it is no text";
    if (used != NULL && strncmp(path, used, strlen(used)) != 0) exit(3);
    for (int i = 1; i < path_count; i++) {
        if (strcmp(name_of(paths[i]), name_of(path)) != 0 || is_extended(paths[i]) != (used != NULL)) continue;
        char *text = read_path(paths[i]), *kept_there = (char *)room->next;
        if (text == NULL || strlen(text) >= room->left) return free(text), NULL;
        strcpy(kept_there, text);
        room->next += strlen(text) + 1, room->left -= strlen(text) + 1;
        return free(text), kept_there;
    }
    return NULL;
}

EFI_HANDLE used_disk(void) { return NULL; }

EFI_HANDLE find_partition(const char *name, EFI_HANDLE own_disk) {
    (void)name, (void)own_disk;
    for (int i = 1; i < path_count; i++)
        if (is_extended(paths[i])) return paths[i];
    return NULL;
}

const char *partition_name(EFI_HANDLE device) {
    (void)device;
    return "01234567-89ab-cdef-0123-456789abcdef";
}

const char *use_partition(const char *name) {
    used = name;
    return NULL;
}

/* ---- */

static void show(const char *wrong, uint32_t line) {
    if (wrong != NULL) printf("line %u: %s\n", line, wrong);
    for (uint32_t i = 0; i < menu.entry_count && wrong == NULL; i++) {
        const menu_entry *entry = &menu.entries[i];
        printf("%s", entry->title);
        if (entry->wrong) printf(" | line %u: %s", entry->wrong_line, entry->wrong);
        for (uint32_t k = 0; k < entry->file_count && !entry->wrong; k++)
            printf(" | %s", entry->paths[k]);
        printf(" |%s%.*s\n", entry->core.line.length ? " " : "", (int)entry->core.line.length,
               (const char *)entry->core.line.bytes);
    }
}

static void read_all(int shows) {
    uint32_t line = 0;
    char *text = read_path(paths[0]);
    memset(&menu, 0, sizeof menu);
    const char *wrong = text ? read_menu(text, &line) : "no text";
    if (wrong == NULL) list_attempts(1);
    if (shows) show(wrong, line);
    while (room_count > 0) free(rooms[--room_count]);
    free(text);
}

int main(int count, char **words) {
    int cuts = count > 1 && strcmp(words[1], "--cut") == 0;
    paths = words + 1 + cuts;
    path_count = count - 1 - cuts;
    if (path_count < 1) return 2;
    firmware.NumberOfTableEntries = 2;
    for (most = 0; cuts && most <= longest; most++) read_all(0);
    most = 1 << 20;
    read_all(!cuts);
    return 0;
}
