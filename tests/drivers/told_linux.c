/* Prints what boot parameters on standard input tell of a screen, ACPI and UEFI, by the layout that the C compiler's own
 * Linux headers give them; tests/told.py compares it with the description that was booted. */
#include <asm/bootparam.h>
#include <linux/screen_info.h>
#include <stdio.h>

static struct boot_params params;

static void field(const char *name, unsigned long long value)
{
    printf("%s %llu\n", name, value);
}

int main(void)
{
    struct screen_info screen;
    struct efi_info efi;

    if (fread(&params, 1, sizeof params, stdin) != sizeof params || getchar() != EOF)
        return 1;
    screen = params.screen_info; /* which lies in a packed struct */
    efi = params.efi_info;
    field("is a screen of EFI", screen.orig_video_isVGA == VIDEO_TYPE_EFI);
    field("has no quirks", (screen.capabilities & VIDEO_CAPABILITY_SKIP_QUIRKS) != 0);
    field("has a high base", (screen.capabilities & VIDEO_CAPABILITY_64BIT_BASE) != 0);
    field("base", screen.lfb_base | (unsigned long long)screen.ext_lfb_base << 32);
    field("size", screen.lfb_size);
    field("width", screen.lfb_width);
    field("height", screen.lfb_height);
    field("depth", screen.lfb_depth);
    field("linelength", screen.lfb_linelength);
    field("pages", screen.pages);
    field("red size", screen.red_size);
    field("red position", screen.red_pos);
    field("green size", screen.green_size);
    field("green position", screen.green_pos);
    field("blue size", screen.blue_size);
    field("blue position", screen.blue_pos);
    field("reserved size", screen.rsvd_size);
    field("reserved position", screen.rsvd_pos);
    field("rsdp", params.acpi_rsdp_addr);
    printf("signature %.4s\n", (const char *)&efi.efi_loader_signature);
    field("system table", efi.efi_systab | (unsigned long long)efi.efi_systab_hi << 32);
    field("map address", efi.efi_memmap | (unsigned long long)efi.efi_memmap_hi << 32);
    field("map size", efi.efi_memmap_size);
    field("descriptor size", efi.efi_memdesc_size);
    field("descriptor version", efi.efi_memdesc_version);
    field("secure boot", params.secure_boot);
    field("entries", params.e820_entries);
    return 0;
}
