/* Where the fields of boot parameters stand by the compiler's own Linux headers: a line `NAME OFFSET SIZE` for each field that the core
   writes or reads, both in hexadecimal digits. It stands on nothing of ours; tests/told.py compares the page and the core with it. */
#include <asm/bootparam.h>
#include <linux/screen_info.h>
#include <stddef.h>
#include <stdio.h>

#define FIELD(place, name) printf("%s %zx %zx\n", #name, offsetof(struct boot_params, place), sizeof(((struct boot_params *)0)->place))
#define SCREEN(name) FIELD(screen_info.name, name)
#define EFI(name) FIELD(efi_info.name, name)
#define HEADER(name) FIELD(hdr.name, name)

_Static_assert(sizeof(struct boot_params) == 4096, "boot parameters have 4096 bytes");
_Static_assert(VIDEO_TYPE_EFI == 0x70, "a frame buffer with an address");
_Static_assert(VIDEO_CAPABILITY_SKIP_QUIRKS == 1 && VIDEO_CAPABILITY_64BIT_BASE == 2, "capabilities");

int main(void) {
    printf("boot_params 0 %zx\n", sizeof(struct boot_params));
    FIELD(screen_info, screen_info);
    SCREEN(orig_video_isVGA);
    SCREEN(lfb_width);
    SCREEN(lfb_height);
    SCREEN(lfb_depth);
    SCREEN(lfb_base);
    SCREEN(lfb_size);
    SCREEN(lfb_linelength);
    SCREEN(red_size);
    SCREEN(red_pos);
    SCREEN(green_size);
    SCREEN(green_pos);
    SCREEN(blue_size);
    SCREEN(blue_pos);
    SCREEN(pages);
    SCREEN(capabilities);
    SCREEN(ext_lfb_base);
    FIELD(acpi_rsdp_addr, acpi_rsdp_addr);
    FIELD(efi_info, efi_info);
    EFI(efi_loader_signature);
    EFI(efi_systab);
    EFI(efi_memdesc_size);
    EFI(efi_memdesc_version);
    EFI(efi_memmap);
    EFI(efi_memmap_size);
    EFI(efi_systab_hi);
    EFI(efi_memmap_hi);
    FIELD(e820_entries, e820_entries);
    FIELD(secure_boot, secure_boot);
    HEADER(setup_sects);
    HEADER(boot_flag);
    HEADER(header);
    HEADER(version);
    HEADER(loadflags);
    HEADER(initrd_addr_max);
    HEADER(kernel_alignment);
    HEADER(relocatable_kernel);
    HEADER(xloadflags);
    HEADER(cmdline_size);
    HEADER(pref_address);
    HEADER(init_size);
    HEADER(vid_mode);
    HEADER(type_of_loader);
    HEADER(code32_start);
    HEADER(ramdisk_image);
    HEADER(ramdisk_size);
    HEADER(cmd_line_ptr);
    HEADER(setup_data);
    FIELD(e820_table, e820_table);
    FIELD(e820_table[0], e820_entry);
    return 0;
}
