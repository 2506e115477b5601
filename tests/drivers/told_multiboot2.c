/* Prints what Multiboot2 boot information on standard input tells of a screen, UEFI and SMBIOS. The structs are those of the
 * Multiboot2 Specification 2.0, 3.6, as its multiboot2.h has them, and of nobody else; tests/told.py compares what is printed
 * with the description that was booted. */
#include <inttypes.h>
#include <stdint.h>
#include <stdio.h>

struct tag {
    uint32_t type, size;
};

struct framebuffer_tag {
    uint32_t type, size;
    uint64_t framebuffer_addr;
    uint32_t framebuffer_pitch, framebuffer_width, framebuffer_height;
    uint8_t framebuffer_bpp, framebuffer_type;
    uint16_t reserved;
    uint8_t red_field_position, red_mask_size, green_field_position, green_mask_size, blue_field_position, blue_mask_size;
};

struct efi32_tag {
    uint32_t type, size, pointer;
};

struct efi64_tag {
    uint32_t type, size;
    uint64_t pointer;
};

struct smbios_tag {
    uint32_t type, size;
    uint8_t major, minor, reserved[6], tables[];
};

struct efi_mmap_tag {
    uint32_t type, size, descr_size, descr_vers;
    uint8_t efi_mmap[];
};

static union {
    uint8_t bytes[1 << 20];
    uint64_t aligned;
} information;

static void field(const char *name, uint64_t value)
{
    printf("%s %" PRIu64 "\n", name, value);
}

static void digits(const char *name, const uint8_t *bytes, size_t count)
{
    size_t i;

    printf("%s ", name);
    for (i = 0; i < count; i++)
        printf("%02x", bytes[i]);
    putchar('\n');
}

static void tell(const void *at)
{
    const struct tag *tag = at;
    const struct framebuffer_tag *screen = at;
    const struct smbios_tag *smbios = at;
    const struct efi_mmap_tag *map = at;

    switch (tag->type) {
    case 8:
        field("screen tag", tag->size);
        field("base", screen->framebuffer_addr);
        field("pitch", screen->framebuffer_pitch);
        field("width", screen->framebuffer_width);
        field("height", screen->framebuffer_height);
        field("depth", screen->framebuffer_bpp);
        field("type", screen->framebuffer_type);
        field("reserved", screen->reserved);
        field("red position", screen->red_field_position);
        field("red size", screen->red_mask_size);
        field("green position", screen->green_field_position);
        field("green size", screen->green_mask_size);
        field("blue position", screen->blue_field_position);
        field("blue size", screen->blue_mask_size);
        break;
    case 11:
        field("32-bit system table tag", tag->size);
        field("system table", ((const struct efi32_tag *)at)->pointer);
        break;
    case 12:
        field("64-bit system table tag", tag->size);
        field("system table", ((const struct efi64_tag *)at)->pointer);
        break;
    case 13:
        field("SMBIOS tag", tag->size);
        field("major", smbios->major);
        field("minor", smbios->minor);
        digits("reserved", smbios->reserved, sizeof smbios->reserved);
        digits("tables", smbios->tables, tag->size - sizeof *smbios);
        break;
    case 17:
        field("map tag", tag->size);
        field("descriptor size", map->descr_size);
        field("descriptor version", map->descr_vers);
        digits("map", map->efi_mmap, tag->size - sizeof *map);
        break;
    }
}

int main(void)
{
    size_t length = fread(information.bytes, 1, sizeof information.bytes, stdin), at = 8;
    const struct tag *tag;

    for (;; at = (at + tag->size + 7) & ~(size_t)7) {
        tag = (const struct tag *)(information.bytes + at);
        if (at + sizeof *tag > length || tag->size < sizeof *tag || at + tag->size > length)
            return 1;
        if (tag->type == 0)
            return 0;
        tell(tag);
    }
}
