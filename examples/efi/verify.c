/* Where Secure Boot is on, no kernel is booted that nobody verified. The firmware looks at what it loads
   itself, so at each EFI program, but not at a kernel, which is copied: so it is asked. */
#include "app.h"

/* shim has keys of its own, and this call, in the System V convention, unlike all of the firmware's. */
typedef struct {
    __attribute__((sysv_abi)) EFI_STATUS (*Verify)(const void *bytes, UINT32 length);
} shim_lock; /* what follows is not called */

#ifdef BOOT_UNVERIFIED
enum { allows_unverified = 1 };
#else
enum { allows_unverified = 0 };
#endif

/* ---- what a signature covers */

/* How much of an EFI program's file is in its headers and sections, which each verifier hashes; 0 if
   there is more of it. Authenticode leaves out a checksum, and the two words that say where the
   certificates are: these must stand before the header by which Linux is booted. It leaves out what
   lies between sections: so they must follow one another. What lies behind the last one, shim hashes
   only where there are certificates: so that must be no more than padding, and is cut off with them. */
static uint64_t covered_length(const uint8_t *file, uint64_t length) {
    enum { linux_header = 0x1f1, section_size = 40, most_sections = 96, alignment = 8 };
    if (length < linux_header || number16(file) != 0x5a4d) return 0;
    const uint64_t start = number32(file + 0x3c), fields = start + 24;
    if (fields + 152 > linux_header || number32(file + start) != 0x4550 || number16(file + fields) != 0x20b)
        return 0;
    const uint64_t first = fields + number16(file + start + 20);
    const uint64_t last = first + number16(file + start + 6) * (uint64_t)section_size;
    const int has_words = number32(file + fields + 108) > 4;
    const uint64_t size = has_words ? number32(file + fields + 148) : 0; /* of the certificates */
    const uint64_t rest = size != 0 ? number32(file + fields + 144) : length;
    uint64_t end = number32(file + fields + 60); /* of the headers */
    if (last > first + most_sections * section_size || last > end || end > length) return 0;
    for (const uint8_t *section = file + first; section < file + last; section += section_size) {
        if (number32(section + 16) != 0 && number32(section + 20) != end) return 0;
        end += number32(section + 16);
    }
    return end <= rest && rest - end < alignment && rest + size == length ? end : 0;
}

/* ---- who verifies it */

/* It loads the kernel as a program, which is not started; one that it does not trust it may load too. */
static EFI_STATUS ask_firmware(const char *path, const bootcore_bytes *kernel) {
    EFI_HANDLE loaded = NULL;
    EFI_DEVICE_PATH *way = find_way(used_disk(), path);
    if (way == NULL) return EFI_INVALID_PARAMETER;
    EFI_STATUS status = BS->LoadImage(FALSE, application, way, (void *)(UINTN)kernel->bytes, kernel->length, &loaded);
    if (loaded != NULL) BS->UnloadImage(loaded);
    return status;
}

static EFI_STATUS verify(const char *path, const bootcore_bytes *kernel) {
    static EFI_GUID id = SHIM_LOCK;
    shim_lock *shim;
    if (EFI_ERROR(BS->LocateProtocol(&id, NULL, (void **)&shim))) return ask_firmware(path, kernel);
    return shim->Verify(kernel->bytes, (UINT32)kernel->length);
}

/* What is wrong with a kernel, or NULL. A warning is no word for one. */
static const char *find_fault(EFI_STATUS status, uint64_t covered) {
    if (status == EFI_OUT_OF_RESOURCES) return "There is too little memory to verify the kernel.";
    if (status != EFI_SUCCESS) return "Secure Boot is on, and nothing verified this kernel.";
    return covered == 0 ? "Secure Boot is on, and a signature does not cover all of this kernel." : NULL;
}

/* A Multiboot2 kernel may be a part of a program that is signed as another thing: its header is searched
   for. So nobody is asked. */
const char *verify_kernel(const menu_entry *entry) {
    const char *wrong = "Secure Boot is on, and nothing verifies a Multiboot2 kernel.";
    bootcore_bytes *kernel = &files.read[0];
    if (!is_secure_boot_on()) return NULL;
    if (entry->core.protocol != BOOTCORE_PROTOCOL_MULTIBOOT2) {
        wrong = measure_verifying(0);
        EFI_STATUS status = wrong == NULL ? verify(entry->paths[0], kernel) : EFI_ABORTED;
        if (wrong == NULL) wrong = measure_verifying(1);
        if (wrong != NULL) return wrong;
        const uint64_t covered = covered_length(kernel->bytes, kernel->length);
        if (covered != 0) kernel->length = covered;
        wrong = find_fault(status, covered);
    }
    if (wrong == NULL || !allows_unverified) return wrong;
    print("    %s\n", wrong);
    return NULL;
}

/* Linux may lock itself down where Secure Boot is on. It hears of it with UEFI alone. */
int hides_secure_boot(const menu_entry *entry) {
    return is_secure_boot_on() && !allows_unverified && boot.map.firmware.efi.bits == 0 &&
           entry->core.protocol != BOOTCORE_PROTOCOL_MULTIBOOT2;
}
