/* On the host: what the boot manager's own code reads out of variables of the Boot Loader Interface, and
   writes to them. */
#include "app.h"

#include <stdio.h>
#include <stdlib.h>
#include <string.h>

static int failed;
static void expect(const char *what, int is_good) {
    if (!is_good) printf("%s\n", what), failed = 1;
}

/* ---- the firmware: variables by their names, each in a block of its own */

enum { most = 16, told = 6, kept_too = 7 };

static struct {
    char name[64];
    void *bytes;
    UINTN size;
} variables[most];
static int refuses; /* to write */
static const EFI_GUID vendor = {
    0x4a67b082, 0x0a4c, 0x41cf, {0xb6, 0xc7, 0x44, 0x0b, 0x29, 0xbb, 0x8c, 0x4f}};

static int at_name(const CHAR16 *name) {
    char plain[64] = "";
    int i = 0;
    for (; name[i]; i++) plain[i] = (char)name[i];
    for (i = 0; i < most - 1 && variables[i].name[0] && strcmp(variables[i].name, plain) != 0; i++) continue;
    strcpy(variables[i].name, plain);
    return i;
}
static EFI_STATUS EFIAPI get(CHAR16 *name, EFI_GUID *id, UINT32 *attributes, UINTN *size, VOID *bytes) {
    int at = at_name(name);
    UINTN room = *size;
    (void)attributes;
    if (variables[at].bytes == NULL || memcmp(id, &vendor, sizeof *id) != 0) return EFI_NOT_FOUND;
    *size = variables[at].size;
    if (room < *size) return EFI_BUFFER_TOO_SMALL;
    memcpy(bytes, variables[at].bytes, *size);
    return EFI_SUCCESS;
}
static EFI_STATUS EFIAPI set(CHAR16 *name, EFI_GUID *id, UINT32 attributes, UINTN size, VOID *bytes) {
    int at = at_name(name);
    if (refuses) return EFI_OUT_OF_RESOURCES;
    expect("the interface's are written for this boot, and removed as they were", attributes == (size ? told : kept_too));
    expect("a variable has its vendor", memcmp(id, &vendor, sizeof *id) == 0);
    free(variables[at].bytes);
    variables[at].bytes = size ? malloc(size) : NULL;
    variables[at].size = size;
    if (size) memcpy(variables[at].bytes, bytes, size);
    return EFI_SUCCESS;
}

static EFI_RUNTIME_SERVICES runtime = {.GetVariable = get, .SetVariable = set};
static EFI_SYSTEM_TABLE firmware = {
    .Hdr = {.Revision = 2 << 16 | 100}, .RuntimeServices = &runtime, .FirmwareVendor = L"A firm", .FirmwareRevision = 2 << 16 | 7};
EFI_SYSTEM_TABLE *ST = &firmware;
EFI_BOOT_SERVICES *BS;
struct menu_file menu;

static const char *name_of_partition = "";
const char *partition_name(EFI_HANDLE device) { return (void)device, name_of_partition; }
EFI_HANDLE used_disk(void) { return NULL; }

/* ---- */

static void forget(void) {
    for (int i = 0; i < most; i++) {
        free(variables[i].bytes);
        variables[i].bytes = NULL;
        variables[i].name[0] = 0;
    }
    refuses = 0;
}

/* Letters of 16 bits, with the zero at the end or without. */
static void put(const CHAR16 *name, const char *text, int has_end) {
    size_t length = strlen(text) + (has_end ? 1 : 0);
    CHAR16 *letters = malloc(length * sizeof *letters + 1);
    int at = at_name(name);
    for (size_t i = 0; i < length; i++) letters[i] = (unsigned char)text[i];
    variables[at].bytes = letters;
    variables[at].size = length * sizeof *letters;
}

static int is_there(const CHAR16 *name) { return variables[at_name(name)].bytes != NULL; }

/* Whether it has these texts, each with its zero, of so many letters. */
static int has(const CHAR16 *name, const char *texts, size_t length) {
    int at = at_name(name), good = variables[at].size == 2 * length && variables[at].bytes != NULL;
    for (size_t i = 0; good && i < length; i++)
        good = ((CHAR16 *)variables[at].bytes)[i] == (unsigned char)texts[i];
    return good;
}
#define HAS(name, texts) has(name, texts, sizeof texts)

static void begin(void) {
    static const char *const ids[] = {NULL, NULL, "Debian-6.10.conf", "debian-6.1.conf", "arch.conf"};
    forget();
    memset(&menu, 0, sizeof menu);
    for (size_t i = 0; i < 5; i++) menu.entries[menu.entry_count++].id = ids[i];
    menu.chosen = 1;
    menu.seconds = 7;
}

static const struct {
    const char *id;
    int has_end;
    uint32_t chosen; /* 1: it is passed over */
} choices[] = {
    {"arch.conf", 1, 4},         {"arch.conf", 0, 4},     {"DEBIAN-6.10.CONF", 1, 2}, {"debian-*", 1, 2},
    {"debian-6.?.conf", 1, 3},   {"*.1.conf", 1, 3},      {"*", 1, 0},                {"auto-menu-0", 1, 0},
    {"auto-menu-5", 1, 1},       {"auto-menu", 1, 1},     {"arch", 1, 1},             {"arch.conf.", 1, 1},
    {"", 1, 1},                  {"", 0, 1},              {"\xe4rch.conf", 1, 1},     {"?rch.con?", 1, 4},
    {"*a*r*c*h*.*c*o*n*f*", 1, 4}, {"**********x", 1, 1}, {"@saved", 1, 1},
};

static void check_choices(void) {
    for (size_t i = 0; i < sizeof choices / sizeof *choices; i++)
        for (int once = 0; once < 3; once++) {
            begin();
            if (once) put(L"LoaderEntryOneShot", choices[i].id, choices[i].has_end);
            if (once == 2) put(L"LoaderEntryDefault", "debian-6.1.conf", 1), menu.chosen = 0;
            if (!once) put(L"LoaderEntryDefault", choices[i].id, choices[i].has_end);
            read_variables();
            uint32_t wanted = once == 2 && choices[i].chosen == 1 ? 3 : choices[i].chosen;
            if (menu.chosen != wanted) printf("%s: %u, and not %u\n", choices[i].id, menu.chosen, wanted), failed = 1;
            expect("an entry for one boot is forgotten", !is_there(L"LoaderEntryOneShot"));
            expect("one for each boot is kept", is_there(L"LoaderEntryDefault") == (once != 1));
            expect("an entry leaves the time limit", menu.seconds == 7);
        }
    begin();
    put(L"LoaderEntryOneShot", "arch.conf", 1);
    put(L"LoaderConfigTimeoutOneShot", "3", 1);
    refuses = 1;
    read_variables();
    expect("what can't be removed does not count", menu.chosen == 1 && menu.seconds == 7);
}

static const struct {
    const char *value;
    uint32_t always, once; /* 7: it is passed over */
} limits[] = {
    {"5", 5, 5},   {"0", 0, no_limit}, {"menu-force", no_limit, no_limit}, {"menu-hidden", 0, 0},      {"", 7, 7},
    {"5s", 7, 7},  {"-1", 7, 7},       {"4294967296", 7, 7},               {"999999999", 999999999, 999999999},
    {"menu", 7, 7},
};

static void check_limits(void) {
    for (size_t i = 0; i < sizeof limits / sizeof *limits; i++) {
        begin();
        put(L"LoaderConfigTimeout", limits[i].value, 1);
        read_variables();
        expect(limits[i].value, menu.seconds == limits[i].always);
        put(L"LoaderConfigTimeoutOneShot", limits[i].value, 0);
        menu.seconds = 7;
        read_variables();
        expect(limits[i].value, menu.seconds == (limits[i].once == 7 ? limits[i].always : limits[i].once));
        expect("a limit for one boot is forgotten", !is_there(L"LoaderConfigTimeoutOneShot") && is_there(L"LoaderConfigTimeout"));
    }
}

/* A program's file, as the way to it has it. */
static struct __attribute__((packed)) {
    EFI_DEVICE_PATH head;
    CHAR16 name[6];
    EFI_DEVICE_PATH end;
} file = {{MEDIA_DEVICE_PATH, MEDIA_FILEPATH_DP, {16, 0}}, L"\\a\\b.", {0x7f, 0xff, {4, 0}}};

static void check_written(void) {
    static char list[4096], long_ids[32][256], longest[4097];
    const uint8_t features[8] = {0x2f, 0x01};
    EFI_LOADED_IMAGE self = {.FilePath = &file.head};
    size_t length = 0;
    begin();
    write_variables(&self);
    write_selected(3);
    expect("the ids are listed", HAS(L"LoaderEntries", "auto-menu-0\0auto-menu-1\0Debian-6.10.conf\0debian-6.1.conf\0arch.conf"));
    expect("the entry is told", HAS(L"LoaderEntrySelected", "debian-6.1.conf"));
    expect("the firmware is told", HAS(L"LoaderFirmwareInfo", "A firm 2.7") && HAS(L"LoaderFirmwareType", "UEFI 2.10"));
    expect("the program is told", HAS(L"LoaderImageIdentifier", "\\a\\b."));
    expect("features are told", variables[at_name(L"LoaderFeatures")].size == 8 &&
                                    memcmp(variables[at_name(L"LoaderFeatures")].bytes, features, 8) == 0);
    expect("a disk without a GUID is not told", !is_there(L"LoaderDevicePartUUID"));
    expect("the loader is told", is_there(L"LoaderInfo"));
    begin();
    name_of_partition = "01234567-89ab-cdef-0123-456789abcdef";
    self.FilePath = NULL;
    write_variables(&self);
    expect("a partition is told", HAS(L"LoaderDevicePartUUID", "01234567-89ab-cdef-0123-456789abcdef"));
    expect("a program of no file is not told", !is_there(L"LoaderImageIdentifier"));
    begin();
    for (menu.entry_count = 0; menu.entry_count < 32; menu.entry_count++) {
        memset(long_ids[menu.entry_count], 'a', 250);
        menu.entries[menu.entry_count].id = long_ids[menu.entry_count];
        if (length + 251 <= sizeof list) strcpy(list + length, long_ids[0]), length += 251;
    }
    write_variables(&self);
    expect("of too many ids whole ones are listed", has(L"LoaderEntries", list, length));
    begin();
    refuses = 1;
    write_variables(&self);
    write_selected(0);
    expect("what can't be written is passed over", !is_there(L"LoaderEntries"));
    refuses = 0;
    memset(longest, '*', sizeof longest - 1);
    put(L"LoaderEntryDefault", longest, 1);
    read_variables();
    expect("a text that is too long is passed over", menu.chosen == 1);
    forget();
}

int main(void) {
    check_choices();
    check_limits();
    check_written();
    return failed;
}
