/* Variables of systemd's Boot Loader Interface, by which an operating system learns which entries there
   are and which one was booted, and says what is booted next. A machine boots without them as well: so
   what can't be written or read is passed over. */
#include "app.h"

static EFI_GUID vendor = {0x4a67b082, 0x0a4c, 0x41cf, {0xb6, 0xc7, 0x44, 0x0b, 0x29, 0xbb, 0x8c, 0x4f}};

enum {
    told = EFI_VARIABLE_BOOTSERVICE_ACCESS | EFI_VARIABLE_RUNTIME_ACCESS,
    kept_always = told | EFI_VARIABLE_NON_VOLATILE,
    max_letters = 4096 /* of a variable; firmware has a limit of its own */
};

/* ---- texts, of letters of 16 bits */

static CHAR16 letters[max_letters];
static char text[max_letters];
static size_t length;

static void write(CHAR16 *name, const void *bytes, size_t size) {
    ST->RuntimeServices->SetVariable(name, &vendor, told, size, (void *)(UINTN)bytes);
}

/* With its zero, behind those that were added since the last variable; or not at all. */
static void add(const char *added) {
    if (strlen(added) >= max_letters - length) return;
    do letters[length++] = (unsigned char)*added;
    while (*added++);
}

static void write_added(CHAR16 *name) {
    write(name, letters, length * sizeof *letters);
    length = 0;
}

static void write_text(CHAR16 *name, const char *written) {
    add(written);
    write_added(name);
}

/* A variable's text in small letters, until the next call; or NULL. What is for one boot is removed; if it
   can't be, it does not count, since it would at each boot. */
static const char *read_variable(CHAR16 *name, int is_once) {
    UINTN size = sizeof letters - sizeof *letters, i = 0;
    if (EFI_ERROR(ST->RuntimeServices->GetVariable(name, &vendor, NULL, &size, letters))) return NULL;
    for (; i < size / sizeof *letters && letters[i]; i++)
        text[i] = letters[i] <= '~' ? small_letter((char)letters[i]) : '\n'; /* which no id has */
    text[i] = 0;
    return is_once && EFI_ERROR(ST->RuntimeServices->SetVariable(name, &vendor, kept_always, 0, NULL)) ? NULL : text;
}

/* ---- entries, by their ids */

/* systemd's logind takes an id that is no file's only if it begins so. */
static const char *id_of(uint32_t index) {
    const char *id = menu.entries[index].id;
    return id != NULL ? id : compose("auto-menu-%u", (uint64_t)index);
}

/* By the signs * and ?, as a shell has them. */
static int fits(const char *id, const char *pattern) {
    const char *star = NULL, *from = id;
    while (*id) {
        if (*pattern == '*') star = ++pattern, from = id;
        else if (*pattern == '?' || *pattern == small_letter(*id)) pattern++, id++;
        else if (star == NULL) return 0;
        else pattern = star, id = ++from;
    }
    while (*pattern == '*') pattern++;
    return *pattern == 0;
}

/* The first entry that fits. */
static void mark(const char *pattern) {
    for (uint32_t i = menu.entry_count; pattern != NULL && i-- > 0;)
        if (fits(id_of(i), pattern)) menu.chosen = i;
}

/* ---- what is read, and written */

static void limit(const char *wanted, uint32_t zero) {
    if (wanted == NULL) return;
    mistake = NULL;
    uint32_t seconds = number_of(wanted);
    if (is_word(wanted, "menu-force")) menu.seconds = no_limit;
    else if (is_word(wanted, "menu-hidden")) menu.seconds = 0;
    else if (mistake == NULL) menu.seconds = seconds ? seconds : zero;
}

void read_variables(void) {
    limit(read_variable(L"LoaderConfigTimeout", 0), 0);
    limit(read_variable(L"LoaderConfigTimeoutOneShot", 1), no_limit);
    mark(read_variable(L"LoaderEntryDefault", 0));
    mark(read_variable(L"LoaderEntryOneShot", 1));
}

void write_variables(const EFI_LOADED_IMAGE *self) {
    /* time limits, entries by ids, each always and once; XBOOTLDR; sort keys */
    static const uint64_t features = 1 | 1 << 1 | 1 << 2 | 1 << 3 | 1 << 5 | 1 << 8;
    const uint64_t version = BOOTCORE_VERSION, uefi = ST->Hdr.Revision, revision = ST->FirmwareRevision;
    const EFI_DEVICE_PATH *file = self->FilePath;
    const CHAR16 *maker = ST->FirmwareVendor != NULL ? ST->FirmwareVendor : L"";
    while (length < 64 && maker[length]) letters[length] = maker[length], length++;
    write_text(L"LoaderFirmwareInfo", compose(" %u.%u", revision >> 16, revision & 0xffff));
    write_text(L"LoaderFirmwareType", compose("UEFI %u.%u", uefi >> 16, (uefi & 0xffff) / 10));
    write_text(L"LoaderInfo", compose("bootcore %u.%u.%u", version / 10000, version / 100 % 100, version % 100));
    if (*partition_name(used_disk())) write_text(L"LoaderDevicePartUUID", partition_name(used_disk()));
    write(L"LoaderFeatures", &features, sizeof features);
    if (file != NULL && DevicePathType(file) == MEDIA_DEVICE_PATH && DevicePathSubType(file) == MEDIA_FILEPATH_DP &&
        number16(file->Length) > sizeof *file)
        write(L"LoaderImageIdentifier", file + 1, number16(file->Length) - sizeof *file);
    for (uint32_t i = 0; i < menu.entry_count; i++) add(id_of(i));
    write_added(L"LoaderEntries");
}

void write_selected(uint32_t index) { write_text(L"LoaderEntrySelected", id_of(index)); }
