/* On the host: what the firmware is given of paths and of an EFI program's line, by a disk and a firmware of this
   file's own. */
#include "app.h"

#include <stdio.h>
#include <string.h>

EFI_BOOT_SERVICES *BS;
struct boot_state boot;

/* What files.c wants of the others, and nothing here calls. */
EFI_HANDLE find_partition(const char *name, EFI_HANDLE own) { return (void)name, own; }
const char *compose(const char *form, ...) { return form; }
void print(const char *form, ...) { (void)form; }
void *take_pages(uint64_t count) { return (void)count, NULL; }
void *take_file_pages(uint32_t file, uint64_t length) { return (void)file, (void)length, NULL; }
const char *measure_file(const char *path, const void *bytes, uint64_t length) {
    return (void)path, (void)bytes, (void)length, NULL;
}
const char *refusal_words(const bootcore_refusal *refusal) { return (void)refusal, ""; }
const char *plan_entry(const menu_entry *entry) { return (void)entry, NULL; }
const char *verify_kernel(const menu_entry *entry) { return (void)entry, NULL; }
struct menu_file menu;

static int failed, started;
static void expect(const char *what, int is_good) {
    if (!is_good) printf("%s\n", what), failed = 1;
}

static CHAR16 way[1024]; /* the name that a file's node has */
static EFI_LOADED_IMAGE loaded = {.ImageCodeType = EfiLoaderCode};

static EFI_STATUS EFIAPI handle(EFI_HANDLE of, EFI_GUID *id, void **found) {
    static EFI_DEVICE_PATH end = {END_DEVICE_PATH_TYPE, END_ENTIRE_DEVICE_PATH_SUBTYPE, {4, 0}};
    static EFI_GUID path = DEVICE_PATH_PROTOCOL;
    *found = memcmp(id, &path, sizeof path) == 0 ? (void *)&end : (void *)&loaded;
    return (void)of, EFI_SUCCESS;
}
static EFI_STATUS EFIAPI load(BOOLEAN policy, EFI_HANDLE parent, EFI_DEVICE_PATH *path, void *bytes, UINTN length,
                              EFI_HANDLE *to) {
    size_t size = (size_t)DevicePathNodeLength(path) - sizeof *path;
    (void)policy, (void)parent, (void)bytes, (void)length;
    memcpy(way, path + 1, size);
    expect("the name ends with its node", size % 2 == 0 && way[size / 2 - 1] == 0 && IsDevicePathEnd(NextDevicePathNode(path)));
    return *to = &loaded, EFI_SUCCESS;
}
static EFI_STATUS EFIAPI start(EFI_HANDLE image, UINTN *size, CHAR16 **data) {
    return (void)image, (void)size, (void)data, started++, EFI_SUCCESS;
}

static int is_wide(const CHAR16 *one, const CHAR16 *other) {
    while (*one && *one == *other) one++, other++;
    return *one == *other;
}

/* Whether the program is started, by this name and line. */
static int starts(const char *path, const char *line, const CHAR16 *name, const CHAR16 *options) {
    static menu_entry entry;
    entry.paths[0] = path;
    entry.core.line = (bootcore_bytes){line, strlen(line)};
    started = 0;
    const char *wrong = start_program(NULL, &entry);
    if (name == NULL) return wrong != NULL && !started;
    size_t size = 0;
    while (options[size]) size++;
    return wrong == NULL && started && is_wide(way, name) &&
           (size ? is_wide(loaded.LoadOptions, options) && loaded.LoadOptionsSize == 2 * (size + 1)
                 : loaded.LoadOptionsSize == 0);
}

int main(void) {
    static EFI_BOOT_SERVICES services = {.HandleProtocol = handle, .LoadImage = load, .StartImage = start};
    static char text[BOOTCORE_MAX_LINE + 2];
    BS = &services;
    expect("a program of ASCII is started", starts("EFI/a.efi", "some text", L"\\EFI\\a.efi", L"some text"));
    expect("a program without a line has none", starts("a", "", L"\\a", L""));
    expect("path and line are UTF-8", starts("\xc3\xbc/\xe2\x82\xac.efi", "\xf0\x9f\x98\x80 \xc3\xa9", L"\\\u00fc\\\u20ac.efi",
                                             L"\xd83d\xde00 \xe9"));
    expect("a line that is no UTF-8 is refused", starts("a", "b\xff", NULL, NULL));
    expect("a path that is no UTF-8 is refused", starts("a\xc3", "b", NULL, NULL));
    expect("such a path names no file", file_name("loader/\xed\xa0\x80") == NULL && !has_file("\xff"));
    memset(text, 'x', BOOTCORE_MAX_LINE + 1);
    expect("a line that is too long is refused", starts("a", text, NULL, NULL));
    text[510] = 0;
    expect("the longest path is taken", file_name(text) != NULL && file_name(text)[511] == 0);
    strcpy(text + 510, "x");
    expect("a path that is too long is refused", file_name(text) == NULL && starts(text, "b", NULL, NULL));
    return failed;
}
