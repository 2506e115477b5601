/* An entry, planned and loaded. No file is held here whole but the kernel's: the others go from their files
 * straight to their places. */
#define _DEFAULT_SOURCE
#include "vmm.h"

#include <errno.h>
#include <fcntl.h>
#include <inttypes.h>
#include <stdlib.h>
#include <string.h>
#include <sys/stat.h>
#include <unistd.h>

enum { MAX_FILES = 1 + BOOTCORE_MAX_MODULES };

static void *allocated(size_t count, size_t size) {
    void *bytes = calloc(count + 1, size);
    if (!bytes) {
        fail(FAILED, "memory ran out");
    }
    return bytes;
}

static int open_file(const char *path, size_t *length) {
    struct stat about;
    int file = open(path, O_RDONLY | O_CLOEXEC);
    if (file < 0 || fstat(file, &about)) {
        fail(FAILED, "%s: %s", path, strerror(errno));
    }
    if (!S_ISREG(about.st_mode)) {
        fail(FAILED, "%s is no regular file", path);
    }
    *length = (size_t)about.st_size;
    return file;
}

static void read_at(const char *path, int file, uint64_t offset, uint8_t *to, uint64_t length) {
    for (ssize_t count; length; to += count, offset += (uint64_t)count, length -= (uint64_t)count) {
        count = pread(file, to, length, (off_t)offset);
        if (count <= 0) {
            fail(FAILED, "%s: %s", path, count ? strerror(errno) : "it became shorter");
        }
    }
}

static void make_plan(const bootcore_machine *machine, const bootcore_entry *entry, bootcore_layout *layout) {
    uint32_t status = bootcore_plan(machine, entry, layout);
    if (status == BOOTCORE_STATUS_SMALL_ROOM) { /* now it is known how much room is wanted */
        layout->steps = allocated(layout->step_room = layout->step_count, sizeof *layout->steps);
        layout->own = allocated(layout->own_room = layout->own_length, 1);
        status = bootcore_plan(machine, entry, layout);
    }
    if (status == BOOTCORE_STATUS_REFUSED) {
        char words[256];
        bootcore_refusal_line(&layout->refusal, words, sizeof words);
        fail(REFUSED, "%s", words);
    }
    if (status != BOOTCORE_STATUS_DONE) {
        fail(FAILED, "the plan ends with the status %" PRIu32 " of bootcore.h", status);
    }
}

bootcore_handoff load_guest(const guest_memory *memory, bootcore_bytes rsdp, uint32_t protocol, const char *line,
                            char **paths, int count, bootcore_place *places) {
    int files[MAX_FILES];
    bootcore_module modules[MAX_FILES]; /* the first is the kernel, which is no module */
    if (count > (protocol == BOOTCORE_PROTOCOL_MULTIBOOT2 ? MAX_FILES : 2)) {
        fail(BAD_WORDS, "there are too many files");
    }
    memset(modules, 0, sizeof modules);
    for (int i = 0; i < count; i++) {
        files[i] = open_file(paths[i], &modules[i].file.length);
        modules[i].line = (bootcore_bytes){paths[i], strlen(paths[i])};
    }
    /* The plan is made for this copy of the kernel, whose file may change before the steps are carried out. */
    size_t length = modules[0].file.length;
    uint8_t *kernel = allocated(length, 1);
    read_at(paths[0], files[0], 0, kernel, length);

    const bootcore_region regions[] = {{0, 0x9F000, BOOTCORE_KIND_USABLE, 0}, /* above is a PC's BIOS */
                                       {0x100000, memory->low_size - 0x100000, BOOTCORE_KIND_USABLE, 0},
                                       {TABLES_BASE, TABLES_SIZE, BOOTCORE_KIND_ACPI, 0},
                                       {FACS_PLACE, TABLES_BASE + TABLES_SIZE - FACS_PLACE, BOOTCORE_KIND_NVS, 0},
                                       {HIGH_BASE, memory->high_size, BOOTCORE_KIND_USABLE, 0}};
    const bootcore_firmware firmware = {.rsdp = RSDP_PLACE};
    const bootcore_machine machine = {.size = memory->low_size, .regions = regions,
                                      .region_count = memory->high_size ? 5 : 4, .firmware = &firmware};
    const bootcore_entry entry = {.protocol = protocol, .kernel = {kernel, length},
                                  .line = {line, strlen(line)}, .initrd = modules[1].file, /* of Linux */
                                  .rsdp_new = rsdp, /* of Multiboot2, like the modules; Linux is told the place */
                                  .modules = modules + 1, .module_count = (size_t)count - 1};
    bootcore_layout layout = {.places = places, .place_room = BOOTCORE_MAX_PLACES};
    make_plan(&machine, &entry, &layout);
    for (const bootcore_step *step = layout.steps; step < layout.steps + layout.step_count; step++) {
        uint8_t *to = memory->low + step->address; /* no part ends above the machine's size */
        if (step->source == BOOTCORE_SOURCE_LAYOUT) {
            memcpy(to, layout.own + step->offset, step->length);
        } else if (step->source == BOOTCORE_SOURCE_FILE && step->file == 0) {
            memcpy(to, kernel + step->offset, step->length);
        } else if (step->source == BOOTCORE_SOURCE_FILE) {
            read_at(paths[step->file], files[step->file], step->offset, to, step->length);
        } /* zeros are there: the mapping is fresh */
    }
    for (int i = 0; i < count; i++) {
        close(files[i]);
    }
    free(layout.steps), free(layout.own), free(kernel);
    return layout.handoff;
}
