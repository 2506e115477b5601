/* Files of the disk that the application was started from, or of another partition, through the
   firmware's file systems. */
#include "app.h"

struct entry_files files;

static EFI_HANDLE devices[2]; /* the application's disk, and a partition while its files are meant */
static EFI_FILE *roots[2];
static int used; /* which of them */
static const char *used_name; /* the partition's */

enum { most_bytes = 0x40000000, chunk = 1 << 20 };

int open_disk(EFI_HANDLE device) {
    static EFI_GUID system = SIMPLE_FILE_SYSTEM_PROTOCOL;
    EFI_FILE_IO_INTERFACE *volume;
    devices[used] = device;
    return !EFI_ERROR(BS->HandleProtocol(device, &system, (void **)&volume)) &&
           !EFI_ERROR(volume->OpenVolume(volume, &roots[used]));
}

void close_disk(void) {
    if (roots[used] != NULL) roots[used]->Close(roots[used]);
}

const char *use_partition(const char *name) {
    EFI_HANDLE device = name == NULL ? NULL : find_partition(name, devices[0]);
    if (used) close_disk();
    used = device != NULL;
    used_name = name;
    if (name == NULL || (used && open_disk(device))) return NULL;
    used = 0;
    return compose("There is no partition %s, or the firmware can't read it.", name);
}

EFI_HANDLE used_disk(void) { return devices[used]; }

CHAR16 *file_name(const char *path) {
    static CHAR16 name[512] = {'\\'};
    if (used && begins_with(path, used_name)) path += partition_letters + 1;
    if (strlen(path) > 510 || widen(path, strlen(path), name + 1) == 0) return NULL;
    for (UINTN i = 1; name[i]; i++)
        if (name[i] == '/') name[i] = '\\';
    return name;
}

/* A file, or NULL. */
static EFI_FILE *open(const char *path, uint64_t mode) {
    CHAR16 *name = file_name(path);
    EFI_FILE *file, *root = roots[used];
    return name == NULL || EFI_ERROR(root->Open(root, &file, name, mode, 0)) ? NULL : file;
}

/* ---- reading: each answers 0, or the number of a refusal, or that there is no room for a file, or
   that it must not be used */

enum { no_room = 254, unmeasured };

static const char *why_unmeasured;

static uint32_t find_length(const char *path, uint64_t *length) {
    static EFI_GUID id = EFI_FILE_INFO_ID;
    static uint64_t room[256];
    EFI_FILE_INFO *info = (EFI_FILE_INFO *)room;
    UINTN size = sizeof room;
    EFI_FILE *file = open(path, EFI_FILE_MODE_READ);
    if (file == NULL) return BOOTCORE_REFUSAL_NO_FILE;
    EFI_STATUS status = file->GetInfo(file, &id, &size, info);
    file->Close(file);
    if (EFI_ERROR(status) || info->Attribute & EFI_FILE_DIRECTORY) return BOOTCORE_REFUSAL_NO_FILE;
    *length = info->FileSize;
    return *length > most_bytes ? BOOTCORE_REFUSAL_FILE_TOO_LONG : 0;
}

/* A file may end before its length as the disk tells it. */
static uint32_t fill(const char *path, uint8_t *bytes, uint64_t length) {
    UINTN came = 1;
    EFI_FILE *file = open(path, EFI_FILE_MODE_READ);
    if (file == NULL) return BOOTCORE_REFUSAL_NO_FILE;
    while (length && came) {
        came = length < chunk ? length : chunk;
        if (EFI_ERROR(file->Read(file, &came, bytes))) came = 0;
        bytes += came;
        length -= came;
    }
    file->Close(file);
    return length ? BOOTCORE_REFUSAL_FILE_FAULT : 0;
}

static uint64_t lengths[1 + BOOTCORE_MAX_MODULES];
static uint32_t at; /* the path that is looked at */

/* Of paths from one to another: the files' lengths, and how long they are one after the other, each
   from a multiple of 4 on. */
static uint32_t find_lengths(const char *const *paths, uint32_t from, uint32_t to, uint64_t *whole) {
    uint32_t fault = 0;
    *whole = 0;
    for (at = from; at < to; at++) {
        fault = find_length(paths[at], &lengths[at]);
        if (fault) return fault;
        *whole = (*whole + 3) / 4 * 4 + lengths[at];
        if (*whole > most_bytes) return BOOTCORE_REFUSAL_FILE_TOO_LONG;
    }
    return 0;
}

/* The files, whose lengths were found, with zeros between them. */
static uint32_t read_joined(const char *const *paths, uint32_t from, uint32_t to, uint8_t *bytes) {
    uint64_t end = 0;
    uint32_t fault = 0;
    for (at = from; at < to; at++) {
        for (; end % 4; end++) bytes[end] = 0;
        fault = fill(paths[at], bytes + end, lengths[at]);
        if (fault) return fault;
        why_unmeasured = measure_file(paths[at], bytes + end, lengths[at]);
        if (why_unmeasured != NULL) return unmeasured;
        end += lengths[at];
    }
    return 0;
}

char *read_text(const char *path, struct text_room *room, const char **wrong) {
    uint64_t length = 0;
    uint32_t fault = find_lengths(&path, 0, 1, &length);
    char *text = NULL;
    if (!fault && room == NULL) text = take_pages(length / page + 1);
    else if (!fault && length < room->left) {
        text = (char *)room->next;
        room->next += length + 1, room->left -= length + 1;
    }
    if (text != NULL) fault = read_joined(&path, 0, 1, (uint8_t *)text);
    *wrong = fault == unmeasured ? why_unmeasured : "it can't be read, or is no text";
    if (text == NULL || fault) return NULL;
    text[length] = 0;
    return strlen(text) == length ? text : NULL;
}

int has_file(const char *path) {
    uint64_t length;
    return find_length(path, &length) != BOOTCORE_REFUSAL_NO_FILE;
}

/* The bytes of a folder are the records of its files. */
void each_file(const char *folder, void (*call)(const char *name)) {
    static uint64_t room[256];
    static char name[256];
    EFI_FILE_INFO *info = (EFI_FILE_INFO *)room;
    EFI_FILE *opened = open(folder, EFI_FILE_MODE_READ);
    UINTN size = sizeof room;
    if (opened == NULL) return;
    while (!EFI_ERROR(opened->Read(opened, &size, info)) && size != 0) {
        UINTN i = 0;
        for (; i < sizeof name - 1 && info->FileName[i] >= ' ' && info->FileName[i] <= '~'; i++)
            name[i] = (char)info->FileName[i];
        name[i] = 0;
        if (!(info->Attribute & EFI_FILE_DIRECTORY) && info->FileName[i] == 0) call(name);
        size = sizeof room;
    }
    opened->Close(opened);
}

/* ---- the files of an entry */

/* Of an entry's paths from one on, where those end that are one file to its kernel: all ramdisks are
   one. */
static uint32_t joined_end(const menu_entry *entry, uint32_t from) {
    int is_alone = from == 0 || entry->core.protocol == BOOTCORE_PROTOCOL_MULTIBOOT2;
    return is_alone ? from + 1 : entry->file_count;
}

void give_files(menu_entry *entry) {
    entry->core.kernel = files.read[0];
    if (entry->core.protocol != BOOTCORE_PROTOCOL_MULTIBOOT2) entry->core.initrd = files.read[1];
    else
        for (size_t i = 1; i < files.count; i++) entry->modules[i - 1].file = files.read[i];
}

static const char *fault_words(uint32_t fault) {
    switch (fault) {
    case 0: return NULL;
    case no_room: return "There is too little memory for the files.";
    case unmeasured: return why_unmeasured;
    default: return refusal_words(&(bootcore_refusal){.number = fault, .first = at});
    }
}

static const char *read_file(menu_entry *entry, uint32_t index, uint32_t from, uint8_t *bytes) {
    uint32_t to = joined_end(entry, from);
    for (uint32_t i = from; i < to; i++) print("    Reading %s.\n", entry->paths[i]);
    uint32_t fault = bytes ? read_joined(entry->paths, from, to, bytes) : no_room;
    files.read[index].bytes = bytes;
    return fault_words(fault);
}

/* A plan wants the kernel, and of the other files the lengths: so these are read to where the plan
   has them, or at least out of its way. */
const char *read_files(menu_entry *entry) {
    uint32_t fault = 0, index = 0;
    memset(&files, 0, sizeof files);
    boot.layout.step_count = 0;
    for (uint32_t i = 0; i < entry->file_count && !fault; i = joined_end(entry, i))
        fault = find_lengths(entry->paths, i, joined_end(entry, i), &files.read[files.count++].length);
    if (fault) return fault_words(fault);
    const char *wrong = read_file(entry, 0, 0, take_pages(files.read[0].length / page + 1));
    if (wrong == NULL) wrong = verify_kernel(entry);
    give_files(entry);
    if (wrong == NULL) wrong = plan_entry(entry);
    for (uint32_t i = 1; i < entry->file_count && wrong == NULL; i = joined_end(entry, i)) {
        index++;
        wrong = read_file(entry, index, i, take_file_pages(index, files.read[index].length));
    }
    return wrong;
}

/* ---- writing, for tests */

#ifdef FOR_TESTS

EFI_FILE *create_file(const char *path) {
    uint64_t mode = EFI_FILE_MODE_READ | EFI_FILE_MODE_WRITE;
    EFI_FILE *file = open(path, mode);
    if (file != NULL) file->Delete(file);
    return open(path, mode | EFI_FILE_MODE_CREATE);
}

int append(EFI_FILE *file, const void *bytes, uint64_t length) {
    UINTN size = length;
    return !EFI_ERROR(file->Write(file, &size, (void *)(UINTN)bytes)) && size == length;
}
#endif
