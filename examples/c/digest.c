/*
 * Measures what a guest is to be handed, before it is: prints the SHA-256 of its image, of the image's head,
 * and of each part, as examples/digests.sh does of an image that was written. Files are read in pieces, and
 * nothing is loaded.
 *
 *     digest SIZE multiboot2 KERNEL LINE [MODULE..]      a module's line is its file's name
 *     digest SIZE linux|linux64 KERNEL LINE [INITRD]
 *
 * The guest has SIZE bytes of memory, usable but for what lies from 0x9F000 up to 1 MiB.
 */
#define _DEFAULT_SOURCE
#include "bootcore.h"

#include <errno.h>
#include <fcntl.h>
#include <inttypes.h>
#include <stdio.h>
#include <stdlib.h>
#include <string.h>
#include <sys/stat.h>
#include <unistd.h>

enum { MAX_FILES = 1 + BOOTCORE_MAX_MODULES, BUFFER = 1 << 16 };

static void check(bool holds, const char *what, const char *why) {
    if (!holds) {
        fprintf(stderr, "digest: %s: %s\n", what, why);
        exit(2);
    }
}

static int open_file(const char *path, size_t *length) {
    struct stat about;
    int file = open(path, O_RDONLY);
    check(file >= 0 && !fstat(file, &about), path, strerror(errno));
    *length = (size_t)about.st_size;
    return file;
}

/* Reads some of these bytes, at most a buffer full, and says how many. */
static size_t read_some(const char *path, int file, bootcore_file_range range, uint8_t *buffer) {
    size_t most = range.length < BUFFER ? (size_t)range.length : BUFFER;
    ssize_t count = pread(file, buffer, most, (off_t)range.offset);
    check(count > 0, path, count ? strerror(errno) : "it became shorter");
    return (size_t)count;
}

static void print_line(const char *what, const char *index, const char *address, uint64_t length,
                       const uint8_t sha256[32]) {
    printf("%-11s %5s %8s %10" PRIu64 " ", what, index, address, length);
    for (int i = 0; i < 32; i++) {
        printf("%02x", sha256[i]);
    }
    putchar('\n');
}

static void print_digests(const bootcore_digests *digests, const bootcore_part_digest *parts) {
    static const char *const roles[] = {"",     "kernel", "module", "information", "parameters",
                                        "line", "gdt",    "initrd", "tables"};
    print_line("image", "-", "-", digests->image_length, digests->image_sha256);
    print_line("head", "-", "-", digests->head_length, digests->head_sha256);
    for (uint64_t i = 0; i < digests->part_count; i++) {
        const bootcore_place *place = &parts[i].place;
        char index[16], address[24];
        snprintf(index, sizeof index, "%" PRIu32, place->index);
        snprintf(address, sizeof address, "%08" PRIx64, place->address);
        print_line(place->role <= BOOTCORE_ROLE_PAGE_TABLES ? roles[place->role] : "?", index, address,
                   place->length, parts[i].sha256);
    }
}

int main(int argc, char **argv) {
    static bootcore_module modules[BOOTCORE_MAX_MODULES];
    static bootcore_part_digest parts[BOOTCORE_MAX_PLACES];
    static uint8_t buffer[BUFFER];
    int files[MAX_FILES], count = argc - 4;
    const char *name = count < 1 ? "" : argv[2];
    uint32_t protocol = !strcmp(name, "multiboot2") ? BOOTCORE_PROTOCOL_MULTIBOOT2
                        : !strcmp(name, "linux")    ? BOOTCORE_PROTOCOL_LINUX
                        : !strcmp(name, "linux64")  ? BOOTCORE_PROTOCOL_LINUX64
                                                    : 0;
    check(protocol && count <= (protocol == BOOTCORE_PROTOCOL_MULTIBOOT2 ? MAX_FILES : 2), "usage",
          "digest SIZE multiboot2 KERNEL LINE [MODULE..], digest SIZE linux|linux64 KERNEL LINE [INITRD]");
    char **paths = argv + 4; /* of the files behind the kernel, from paths[1] on */
    bootcore_entry entry = {.protocol = protocol, .line = {argv[4], strlen(argv[4])},
                            .modules = modules, .module_count = (size_t)count - 1};
    files[0] = open_file(argv[3], &entry.kernel.length);
    uint8_t *kernel = malloc(entry.kernel.length + 1);
    check(kernel, argv[3], strerror(errno));
    for (bootcore_file_range all = {.length = entry.kernel.length}; all.length;) {
        size_t some = read_some(argv[3], files[0], all, buffer);
        memcpy(kernel + all.offset, buffer, some);
        all.offset += some, all.length -= some;
    }
    entry.kernel.bytes = kernel;
    for (int i = 1; i < count; i++) { /* of the others the length is enough */
        modules[i - 1].line = (bootcore_bytes){paths[i], strlen(paths[i])};
        files[i] = open_file(paths[i], &modules[i - 1].file.length);
    }
    entry.initrd = modules[0].file; /* one protocol looks at modules, the other two at this */
    uint64_t size = strtoull(argv[1], NULL, 0);
    const bootcore_region regions[] = {{0, 0x9F000, BOOTCORE_KIND_USABLE, 0},
                                       {0x100000, size - 0x100000, BOOTCORE_KIND_USABLE, 0}};
    const bootcore_machine machine = {.size = size, .regions = regions, .region_count = 2};
    bootcore_refusal refusal;
    bootcore_digest digest = {NULL};
    uint32_t status = bootcore_digest_make(&digest, &machine, &entry, &refusal);
    if (status == BOOTCORE_STATUS_REFUSED) {
        char words[256];
        bootcore_refusal_line(&refusal, words, sizeof words);
        puts(words);
        exit(1);
    }
    bootcore_file_range range;
    while (status == BOOTCORE_STATUS_DONE && bootcore_digest_wanted(&digest, &range)) {
        const uint8_t *bytes = kernel + range.offset; /* for which the digest was made */
        size_t length = range.length;
        if (range.file) {
            bytes = buffer;
            length = read_some(paths[range.file], files[range.file], range, buffer);
        }
        status = bootcore_digest_feed(&digest, bytes, length);
    }
    bootcore_digests digests;
    if (status == BOOTCORE_STATUS_DONE) {
        status = bootcore_digest_told(&digest, &digests, parts, BOOTCORE_MAX_PLACES);
    }
    bootcore_digest_free(&digest);
    check(status == BOOTCORE_STATUS_DONE, "digest", bootcore_status_text(status));
    print_digests(&digests, parts);
    free(kernel);
    return 0;
}
