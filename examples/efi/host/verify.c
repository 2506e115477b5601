/* On the host: who is asked whether a kernel may be booted, with what, and what comes of each answer; of an
   application that was built with BOOT_UNVERIFIED, with the word `unverified`. */
#include "app.h"

#include <stdio.h>
#include <stdlib.h>
#include <string.h>

EFI_SYSTEM_TABLE *ST;
EFI_BOOT_SERVICES *BS;
EFI_HANDLE application;
struct boot_state boot;
struct entry_files files;

static int failed, is_on, has_shim, loads, asked_firmware, asked_shim, unloaded, begun, over, is_unmeasured, printed;
static EFI_STATUS answer;
static uint8_t kernel[0x1000], image, disk, way;
static const uint8_t *looked_at = kernel;
static size_t length = sizeof kernel;

static void expect(const char *what, int is_good) {
    if (!is_good) printf("%s\n", what), failed = 1;
}

int is_secure_boot_on(void) { return is_on; }
EFI_HANDLE used_disk(void) { return &disk; }
void print(const char *form, ...) { printed += form != NULL; }
EFI_DEVICE_PATH *find_way(EFI_HANDLE of, const char *path) {
    return of == &disk && strcmp(path, "k") == 0 ? (EFI_DEVICE_PATH *)&way : NULL;
}
const char *measure_verifying(int is_over) {
    *(is_over ? &over : &begun) += 1;
    int is_asked = asked_firmware || asked_shim;
    expect("the kernel is verified between two measurements", over <= begun && is_asked == is_over);
    return is_unmeasured == 1 + is_over ? "not measured" : NULL;
}

static EFI_STATUS EFIAPI load(BOOLEAN policy, EFI_HANDLE parent, EFI_DEVICE_PATH *path, void *bytes, UINTN size,
                              EFI_HANDLE *loaded) {
    asked_firmware++;
    expect("the firmware is asked for the bytes that were read", !policy && parent == application &&
           path == (EFI_DEVICE_PATH *)&way && bytes == looked_at && size == length);
    if (loads) *loaded = &image;
    return answer;
}
static EFI_STATUS EFIAPI unload(EFI_HANDLE loaded) { return unloaded += loaded == &image, EFI_SUCCESS; }
static EFI_STATUS verify(const void *bytes, UINT32 size) {
    asked_shim++;
    expect("shim is asked for the bytes that were read", bytes == looked_at && size == length);
    return answer;
}
static EFI_STATUS EFIAPI locate(EFI_GUID *id, void *key, void **found) {
    static EFI_STATUS (*lock[1])(const void *, UINT32) = {verify}; /* the host has that convention */
    static const EFI_GUID shim = {0x605dab50, 0xe046, 0x4300, {0xab, 0xb6, 0x3d, 0xd8, 0x10, 0xdd, 0x8b, 0x23}};
    expect("no other protocol is looked for", memcmp(id, &shim, sizeof shim) == 0 && key == NULL);
    *found = has_shim ? lock : NULL;
    return has_shim ? EFI_SUCCESS : EFI_NOT_FOUND;
}

static uint32_t protocol = BOOTCORE_PROTOCOL_LINUX64;

static const char *ask(void) {
    static menu_entry entry;
    entry.paths[0] = "k";
    entry.core.protocol = protocol;
    files.read[0] = (bootcore_bytes){kernel, length};
    asked_firmware = asked_shim = unloaded = begun = over = printed = 0;
    return verify_kernel(&entry);
}

/* ---- a kernel's file */

static void put(size_t at, uint32_t number, size_t size) {
    for (size_t i = 0; i < size; i++) kernel[at + i] = (uint8_t)(number >> 8 * i);
}

enum { pe = 0x80, fields = pe + 24, sections = fields + 160 };

/* Headers of 0x200 bytes, sections of 0x300 and 0x500, one without bytes, and certificates from 0xa00 on. */
static void put_kernel(void) {
    static const uint32_t lengths[] = {0x300, 0, 0x500};
    memset(kernel, 0, sizeof kernel);
    length = sizeof kernel;
    put(0, 0x5a4d, 2), put(0x3c, pe, 4), put(pe, 0x4550, 4), put(pe + 6, 3, 2), put(pe + 20, 160, 2);
    put(fields, 0x20b, 2), put(fields + 60, 0x200, 4), put(fields + 108, 6, 4);
    put(fields + 144, 0xa00, 4), put(fields + 148, 0x600, 4);
    for (uint32_t i = 0, at = 0x200; i < 3; at += lengths[i++]) {
        put(sections + 40 * i + 16, lengths[i], 4);
        put(sections + 40 * i + 20, lengths[i] ? at : 0, 4);
    }
}

/* Whether so much is booted of the file; 0: it is refused, though it was verified. */
static int covers(size_t wanted) {
    const char *wrong = ask();
    expect("it is asked for a kernel before its file is cut", asked_firmware == 1);
    return wanted == 0 ? wrong != NULL && strstr(wrong, "does not cover") != NULL
                       : wrong == NULL && files.read[0].length == wanted && files.read[0].bytes == kernel;
}

static const struct { const char *what; size_t at; uint32_t number; size_t size, wanted; } changes[] = {
    {"all is as it should be", 0, 0x5a4d, 2, 0xa00},
    {"no DOS header", 0, 0x5a4c, 2, 0},
    {"headers behind Linux's", 0x3c, 0x200, 4, 0},
    {"headers outside of the file", 0x3c, 0xfffffff0, 4, 0},
    {"no PE header", pe, 0x4551, 4, 0},
    {"the fields of 32 bits", fields, 0x10b, 2, 0},
    {"no word of certificates", fields + 108, 4, 4, 0},
    {"too many sections", pe + 6, 97, 2, 0},
    {"sections outside of the headers", pe + 6, 6, 2, 0},
    {"fields that end outside of the headers", pe + 20, 0xffff, 2, 0},
    {"headers that end in a section", fields + 60, 0x300, 4, 0},
    {"a gap behind the headers", fields + 60, 0x1f8, 4, 0},
    {"headers longer than the file", fields + 60, 0x1001, 4, 0},
    {"a gap between sections", sections + 16, 0x2ff, 4, 0},
    {"sections that meet", sections + 16, 0x301, 4, 0},
    {"a section longer than any file", sections + 96, 0xffffffff, 4, 0},
    {"a gap behind the last section", sections + 96, 0x4f8, 4, 0},
    {"padding behind the last section", sections + 96, 0x4f9, 4, 0x9f9},
    {"certificates within a section", fields + 144, 0x9f8, 4, 0},
    {"bytes behind the certificates", fields + 148, 0x5f8, 4, 0},
    {"certificates longer than the file", fields + 148, 0x608, 4, 0},
    {"no certificates, and bytes in their place", fields + 148, 0, 4, 0},
};

static void check_files(void) {
    for (size_t i = 0; i < sizeof changes / sizeof changes[0]; i++) {
        put_kernel();
        put(changes[i].at, changes[i].number, changes[i].size);
        expect(changes[i].what, covers(changes[i].wanted));
    }
    for (size_t end = 0; end < 0xa08; end++) { /* without certificates, and cut anywhere */
        put_kernel();
        put(fields + 144, 0, 4), put(fields + 148, 0, 4);
        uint8_t *cut = memcpy(malloc(end ? end : 1), kernel, end); /* so that a byte beyond its end is found */
        files.read[0] = (bootcore_bytes){cut, end};
        const menu_entry entry = {.paths = {"k"}, .core.protocol = BOOTCORE_PROTOCOL_LINUX};
        asked_firmware = begun = over = 0, looked_at = cut, length = end;
        const char *wrong = verify_kernel(&entry);
        expect("a file without certificates is whole", (wrong == NULL) == (end >= 0xa00) &&
               (wrong != NULL || files.read[0].length == 0xa00));
        free(cut);
    }
}

int main(int count, char **words) {
    static EFI_BOOT_SERVICES services = {.LoadImage = load, .UnloadImage = unload, .LocateProtocol = locate};
    static const EFI_STATUS refusals[] = {EFI_SECURITY_VIOLATION, EFI_ACCESS_DENIED, EFI_UNSUPPORTED, EFI_LOAD_ERROR,
                                          EFI_INVALID_PARAMETER, EFI_OUT_OF_RESOURCES, EFI_WARN_UNKNOWN_GLYPH};
    const int is_strict = count < 2 || strcmp(words[1], "unverified") != 0;
    menu_entry linux = {.core.protocol = BOOTCORE_PROTOCOL_LINUX64};
    menu_entry other = {.core.protocol = BOOTCORE_PROTOCOL_MULTIBOOT2};
    BS = &services;
    application = &application;
    expect("nobody is asked without Secure Boot", ask() == NULL && !begun && !asked_firmware && !asked_shim);
    expect("without Secure Boot a kernel need not hear of it", !hides_secure_boot(&linux));
    is_on = 1;
    expect("Linux must hear of Secure Boot", hides_secure_boot(&linux) == is_strict && !hides_secure_boot(&other));
    boot.map.firmware.efi.bits = 64;
    expect("Linux hears of Secure Boot with UEFI", !hides_secure_boot(&linux));
    put_kernel();
    for (has_shim = 0; has_shim < 2; has_shim++)
        for (loads = 0; loads < 2; loads++) {
            answer = EFI_SUCCESS;
            expect("a kernel that was verified is booted", ask() == NULL && !printed);
            expect("one is asked, once", asked_shim == has_shim && asked_firmware == !has_shim && over == 1);
            expect("what was loaded is unloaded", unloaded == (loads && !has_shim));
            for (size_t i = 0; i < sizeof refusals / sizeof refusals[0]; i++) {
                answer = refusals[i];
                expect("a kernel that was not verified is not booted", (ask() != NULL) == is_strict && over == 1);
                expect("that a kernel is not verified is said", printed == !is_strict);
                expect("what was loaded in vain is unloaded", unloaded == (loads && !has_shim));
            }
        }
    answer = EFI_SUCCESS, has_shim = 0;
    if (is_strict) check_files();
    looked_at = kernel, put_kernel();
    put(fields + 60, 0x1f8, 4);
    expect("a kernel that is not covered is booted whole, or not", (ask() != NULL) == is_strict && files.read[0].length == length);
    put_kernel();
    protocol = BOOTCORE_PROTOCOL_MULTIBOOT2;
    const char *wrong = ask();
    expect("nobody is asked for a Multiboot2 kernel", !asked_firmware && !asked_shim && !begun && files.read[0].length == length);
    expect("it is refused, and the reason is said", is_strict ? wrong != NULL && strstr(wrong, "Multiboot2") != NULL : wrong == NULL);
    protocol = BOOTCORE_PROTOCOL_LINUX;
    for (is_unmeasured = 1; is_unmeasured < 3; is_unmeasured++)
        expect("a TPM that fails stops the boot", ask() != NULL && asked_shim + asked_firmware == is_unmeasured - 1);
    return failed;
}
