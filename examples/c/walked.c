/*
 * What a kernel sees in an image, line by line, as `bootcore walk` says it; but of UEFI's memory map and
 * SMBIOS's tables, which a Multiboot2 kernel has as copies, it prints the bytes in place of a SHA-256.
 *
 *     walked IMAGE
 *
 * It asks twice: without any room how much there is to tell, and then for all. The status is that of
 * `bootcore walk`: 2 if the image is refused, 3 if it can't be read, 4 if memory ran out.
 */
#include "bootcore.h"

#include <inttypes.h>
#include <stdio.h>
#include <stdlib.h>

static const char *const protocols[] = {"none", "multiboot2", "linux", "linux64"};

/* The bytes of a file, and how many they are; null if it can't be read. */
static uint8_t *read_file(const char *path, size_t *length) {
    FILE *file = fopen(path, "rb");
    long end = file && !fseek(file, 0, SEEK_END) ? ftell(file) : -1;
    uint8_t *bytes = end < 0 ? NULL : malloc((size_t)end + 1);
    *length = (size_t)end;
    if (bytes) {
        rewind(file);
        if (fread(bytes, 1, *length, file) != *length) {
            free(bytes);
            bytes = NULL;
        }
    }
    if (file) {
        fclose(file);
    }
    return bytes;
}

/* Arrays with room for all that is seen; one that there is no memory for stays null. */
static bootcore_seen_arrays arrays_for(const bootcore_seen *seen) {
    static bootcore_seen_firmware firmware;
    bootcore_seen_arrays arrays = {.firmware = &firmware};
    arrays.kernel_parts = calloc(seen->kernel_part_count, sizeof *arrays.kernel_parts);
    arrays.kernel_part_room = seen->kernel_part_count;
    arrays.modules = calloc(seen->module_count, sizeof *arrays.modules);
    arrays.module_room = seen->module_count;
    arrays.runs = calloc(seen->run_count, sizeof *arrays.runs);
    arrays.run_room = seen->run_count;
    arrays.text = calloc(seen->text_length, 1);
    arrays.text_room = seen->text_length;
    return arrays;
}

static void print_digits(const uint8_t *text, bootcore_range range) {
    for (uint64_t i = 0; i < range.length; i++) {
        printf("%02x", text[range.offset + i]);
    }
    printf("\n");
}

/* How many bytes a text has, and the bytes in hexadecimal digits. */
static void print_text(const uint8_t *text, bootcore_range range) {
    printf(range.length ? "%" PRIu64 " " : "%" PRIu64, range.length);
    print_digits(text, range);
}

static void print_copy(const char *name, const uint8_t *text, bootcore_range range) {
    if (range.offset != BOOTCORE_ABSENT) {
        printf("%s ", name);
        print_text(text, range);
    }
}

static void print_screen(const bootcore_screen *screen) {
    printf("screen %016" PRIx64 " %" PRIu32 " %" PRIu32 " %" PRIu32 " %d", screen->base, screen->pitch,
           screen->width, screen->height, screen->depth);
    printf(" %d+%d %d+%d %d+%d\n", screen->red.position, screen->red.size, screen->green.position,
           screen->green.size, screen->blue.position, screen->blue.size);
}

/* Linux is told where UEFI's memory map lies, and the state of secure boot; a Multiboot2 kernel has a copy. */
static void print_efi(const uint8_t *text, const bootcore_seen_efi *efi) {
    bool is_copied = efi->map.offset != BOOTCORE_ABSENT;
    printf("efi %" PRIu32 " %016" PRIx64 "\nefi-map ", efi->bits, efi->system_table);
    if (!is_copied) {
        printf("%016" PRIx64, efi->map_address);
    }
    printf("%s %" PRIu64 " %" PRIu32 " %" PRIu32 " ", is_copied ? "-" : "", efi->map_length, efi->descriptor_size,
           efi->descriptor_version);
    if (is_copied) {
        print_digits(text, efi->map);
    } else {
        printf("-\nsecure-boot %" PRIu32 "\n", efi->secure_boot);
    }
}

/* What is not told is 0, of the tables of SMBIOS their offset BOOTCORE_ABSENT. */
static void print_firmware(const uint8_t *text, const bootcore_seen_firmware *firmware) {
    const bootcore_seen_smbios *smbios = &firmware->smbios;
    if (firmware->screen.base) {
        print_screen(&firmware->screen);
    }
    if (firmware->rsdp) {
        printf("rsdp %016" PRIx64 "\n", firmware->rsdp);
    }
    if (firmware->efi.system_table) {
        print_efi(text, &firmware->efi);
    }
    if (smbios->tables.offset != BOOTCORE_ABSENT) {
        printf("smbios %d %d %" PRIu64 " ", smbios->major, smbios->minor, smbios->tables.length);
        print_digits(text, smbios->tables);
    }
}

static void print_seen(const bootcore_seen *seen, const bootcore_seen_arrays *arrays) {
    bootcore_range line = {0, seen->line_length};
    printf("protocol %s\nentry %08" PRIx64 "\nline ", protocols[seen->protocol], seen->entry_address);
    print_text(arrays->text, line);
    for (uint64_t i = 0; i < seen->kernel_part_count; i++) {
        const bootcore_seen_part *part = &arrays->kernel_parts[i];
        printf("kernel %08" PRIx64 " %" PRIu64 "\n", part->address, part->length);
    }
    for (uint64_t i = 0; i < seen->module_count; i++) {
        const bootcore_seen_module *module = &arrays->modules[i];
        printf("module %08" PRIx64 " %" PRIu64 " ", module->address, module->length);
        print_text(arrays->text, module->line);
    }
    if (seen->initrd_length) {
        printf("initrd %08" PRIx64 " %" PRIu64 "\n", seen->initrd, seen->initrd_length);
    }
    for (uint64_t i = 0; i < seen->run_count; i++) {
        const bootcore_region *run = &arrays->runs[i];
        printf("map %016" PRIx64 " %016" PRIx64 " %" PRIu32 "\n", run->base,
               run->base + run->length, run->kind);
    }
    print_copy("rsdp-old", arrays->text, seen->rsdp_old);
    print_copy("rsdp-new", arrays->text, seen->rsdp_new);
    print_firmware(arrays->text, arrays->firmware);
}

/* Prints what is seen, or why nothing is; the status that the program ends with. */
static int tell(uint32_t status, const bootcore_seen *seen, const bootcore_seen_arrays *arrays,
                const bootcore_refusal *fault) {
    if (status == BOOTCORE_STATUS_DONE) {
        print_seen(seen, arrays);
        return 0;
    }
    if (status == BOOTCORE_STATUS_REFUSED) {
        fprintf(stderr, "bad image %" PRIu32 "\n", fault->number);
        return 2;
    }
    fprintf(stderr, "no memory\n");
    return 4;
}

int main(int argc, char **argv) {
    bootcore_seen_arrays arrays = {.text = NULL}; /* without any room */
    bootcore_seen seen;
    bootcore_refusal fault;
    size_t length;
    uint8_t *image = argc == 2 ? read_file(argv[1], &length) : NULL;
    if (!image) {
        fprintf(stderr, "file fault\n");
        return 3;
    }
    uint32_t status = bootcore_walk_all(image, length, &seen, &arrays, &fault);
    if (status == BOOTCORE_STATUS_SMALL_ROOM) {
        arrays = arrays_for(&seen);
        status = bootcore_walk_all(image, length, &seen, &arrays, &fault);
    }
    int answer = tell(status, &seen, &arrays, &fault);
    free(arrays.kernel_parts);
    free(arrays.modules);
    free(arrays.runs);
    free(arrays.text);
    free(image);
    return answer;
}
