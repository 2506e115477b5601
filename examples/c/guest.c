/*
 * A guest loader: plans what goes where in a guest's memory, reads files straight to their places, and
 * prints how the kernel is entered and what stands where: all that a virtual processor is set from.
 *     guest multiboot2 KERNEL LINE [MODULE..]      a module's line is its file's name
 *     guest linux|linux64 KERNEL LINE [INITRD]
 */
#define _DEFAULT_SOURCE
#include "bootcore.h"

#include <errno.h>
#include <fcntl.h>
#include <inttypes.h>
#include <stdio.h>
#include <stdlib.h>
#include <string.h>
#include <sys/mman.h>
#include <sys/stat.h>
#include <unistd.h>

enum { GUEST_SIZE = 0x20000000, MAX_FILES = 1 + BOOTCORE_MAX_MODULES };

static void check(bool holds, const char *what, const char *why) {
    if (!holds) {
        fprintf(stderr, "guest: %s: %s\n", what, why);
        exit(2);
    }
}

static int open_file(const char *path, size_t *length) {
    struct stat about;
    int file = open(path, O_RDONLY);
    check(file >= 0 && !fstat(file, &about), path, strerror(errno));
    *length = (size_t)about.st_size;
    return file;
}

static void read_at(const char *path, int file, uint64_t offset, uint8_t *to, size_t length) {
    for (ssize_t count; length; to += count, offset += (size_t)count, length -= (size_t)count) {
        count = pread(file, to, length, (off_t)offset);
        check(count > 0, path, count ? strerror(errno) : "it became shorter");
    }
}

/* A bzImage that is not refused says how long it is: its setup's sectors of 512 bytes after the first
 * one, 0 for 4, and then units of 16 bytes, the last of which may be short. More may follow. */
static bool is_cut(const uint8_t *kernel, size_t length) {
    uint32_t units;
    memcpy(&units, kernel + 0x1F4, sizeof units);
    uint64_t sectors = kernel[0x1F1] ? kernel[0x1F1] : 4;
    return length + 16 < (sectors + 1) * 512 + (uint64_t)units * 16;
}

static void print_entering(const bootcore_registers *r, const bootcore_place *places, uint32_t count) {
    static const char *const names[] = {"cs", "ds", "es", "fs", "gs", "ss"};
    bootcore_segment s[6];
    printf("bits %" PRIu64 "\nip %" PRIx64 " ax %" PRIx64 " bx %" PRIx64 " si %" PRIx64 "\n", r->bits,
           r->rip, r->rax, r->rbx, r->rsi);
    printf("cr0 %" PRIx64 " cr3 %" PRIx64 " cr4 %" PRIx64 " efer %" PRIx64 " gdt %" PRIx64 "\n", r->cr0,
           r->cr3, r->cr4, r->efer, r->gdt_base);
    bootcore_segments(r, s);
    for (int i = 0; i < 6; i++) {
        printf("%s %x base %" PRIx64 " limit %" PRIx32 " type %x s %d dpl %d p %d avl %d l %d db %d g %d\n",
               names[i], s[i].selector, s[i].base, s[i].limit, s[i].type, s[i].s, s[i].dpl, s[i].p,
               s[i].avl, s[i].l, s[i].db, s[i].g);
    }
    for (uint32_t i = 0; i < count; i++) {
        printf("part %" PRIu32 " %" PRIu32 " at %" PRIx64 ", %" PRIu64 " bytes\n", places[i].role,
               places[i].index, places[i].address, places[i].length);
    }
}

int main(int argc, char **argv) {
    static bootcore_module modules[BOOTCORE_MAX_MODULES];
    static bootcore_place places[BOOTCORE_MAX_PLACES];
    int files[MAX_FILES], count = argc - 3;
    const char *name = count < 1 ? "" : argv[1];
    uint32_t protocol = !strcmp(name, "multiboot2") ? BOOTCORE_PROTOCOL_MULTIBOOT2
                        : !strcmp(name, "linux")    ? BOOTCORE_PROTOCOL_LINUX
                        : !strcmp(name, "linux64")  ? BOOTCORE_PROTOCOL_LINUX64
                                                    : 0;
    check(protocol && count <= (protocol == BOOTCORE_PROTOCOL_MULTIBOOT2 ? MAX_FILES : 2), "usage",
          "guest multiboot2 KERNEL LINE [MODULE..], guest linux|linux64 KERNEL LINE [INITRD]");
    bootcore_entry entry = {.protocol = protocol, .line = {argv[3], strlen(argv[3])},
                            .modules = modules, .module_count = (size_t)count - 1};
    files[0] = open_file(argv[2], &entry.kernel.length);
    uint8_t *kernel = malloc(entry.kernel.length + 1);
    check(kernel, argv[2], strerror(errno));
    read_at(argv[2], files[0], 0, kernel, entry.kernel.length);
    entry.kernel.bytes = kernel;
    for (int i = 1; i < count; i++) { /* of the others the length is enough */
        modules[i - 1].line = (bootcore_bytes){argv[i + 3], strlen(argv[i + 3])};
        files[i] = open_file(argv[i + 3], &modules[i - 1].file.length);
    }
    entry.initrd = modules[0].file; /* one protocol looks at modules, the other two at this */
    const bootcore_region regions[] = {{0, 0x9F000, BOOTCORE_KIND_USABLE, 0},
                                       {0x100000, GUEST_SIZE - 0x100000, BOOTCORE_KIND_USABLE, 0}};
    const bootcore_machine machine = {.size = GUEST_SIZE, .regions = regions, .region_count = 2};
    bootcore_layout layout = {.places = places, .place_room = BOOTCORE_MAX_PLACES};
    uint32_t status = bootcore_plan(&machine, &entry, &layout);
    if (status == BOOTCORE_STATUS_SMALL_ROOM) { /* now it is known how much room is wanted */
        layout.steps = calloc(layout.step_room = layout.step_count, sizeof *layout.steps);
        layout.own = calloc(layout.own_room = layout.own_length, 1);
        check(layout.steps && layout.own, "plan", strerror(errno));
        status = bootcore_plan(&machine, &entry, &layout);
    }
    if (status == BOOTCORE_STATUS_REFUSED) {
        char words[256];
        bootcore_refusal_line(&layout.refusal, words, sizeof words);
        puts(words);
        exit(1);
    }
    check(status == BOOTCORE_STATUS_DONE, "plan", status == BOOTCORE_STATUS_NO_MEMORY ? "memory ran out" : "a misuse");
    check(protocol == BOOTCORE_PROTOCOL_MULTIBOOT2 || !is_cut(kernel, entry.kernel.length), argv[2],
          "it is cut");
    uint8_t *memory = mmap(NULL, GUEST_SIZE, PROT_READ | PROT_WRITE,
                           MAP_PRIVATE | MAP_ANONYMOUS | MAP_NORESERVE, -1, 0);
    check(memory != MAP_FAILED, "the guest's memory", strerror(errno));
    for (const bootcore_step *step = layout.steps; step < layout.steps + layout.step_count; step++) {
        if (step->source == BOOTCORE_SOURCE_LAYOUT) {
            memcpy(memory + step->address, layout.own + step->offset, step->length);
        } else if (step->source == BOOTCORE_SOURCE_FILE && step->file == 0) {
            memcpy(memory + step->address, kernel + step->offset, step->length);
        } else if (step->source == BOOTCORE_SOURCE_FILE) {
            read_at(argv[step->file + 3], files[step->file], step->offset, memory + step->address,
                    step->length);
        } /* zeros: the mapping is fresh */
    }
    print_entering(&layout.handoff.registers, places, layout.handoff.place_count);
    free(layout.steps), free(layout.own), free(kernel);
    return 0;
}
