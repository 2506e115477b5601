/*
 * A check for a measured boot: reckons what a machine has to be handed, and compares it with an image
 * that `bootcore boot` wrote. Tells the first difference, and what a kernel sees in the image.
 *
 *     measured SIZE MAP IMAGE multiboot2 LINE KERNEL [FILE LINE ..]
 *     measured SIZE MAP IMAGE linux|linux64 LINE KERNEL [RAMDISK]
 *
 * SIZE is the machine's, in bytes, MAP a file of what `bootcore map` prints. The status is 0 if the
 * image is the one that is reckoned, 1 if it is another one, 2 if none can be reckoned.
 */
#include "bootcore.h"

#include <inttypes.h>
#include <stdio.h>
#include <stdlib.h>
#include <string.h>

enum { MAX_RUNS = 256 }; /* of a map that is printed; the core refuses more than 128 regions */

static bootcore_region regions[MAX_RUNS];
static bootcore_machine machine = {.regions = regions};
static bootcore_module modules[BOOTCORE_MAX_MODULES];
static bootcore_place places[BOOTCORE_MAX_PLACES];
static bootcore_layout layout = {.places = places, .place_room = BOOTCORE_MAX_PLACES};
static bootcore_bytes image, files[1 + BOOTCORE_MAX_MODULES];
static const uint8_t *rest; /* what of the image is not compared yet */
static size_t rest_length;

static void give_up(const char *why) {
    fprintf(stderr, "measured: %s\n", why);
    exit(2);
}

static void *allocate(size_t length) {
    void *room = malloc(length ? length : 1);
    if (!room) {
        give_up("no memory");
    }
    return room;
}

static bootcore_bytes read_file(const char *path) {
    FILE *file = fopen(path, "rb");
    long end = file && !fseek(file, 0, SEEK_END) ? ftell(file) : -1;
    if (end < 0) {
        give_up(path);
    }
    size_t length = (size_t)end;
    void *bytes = allocate(length);
    rewind(file);
    if (fread(bytes, 1, length, file) != length || fclose(file)) {
        give_up(path);
    }
    return (bootcore_bytes){bytes, length};
}

/* Lines of a start, an end and a kind, which its first letter tells; nothing behind them is read. */
static void read_map(const char *path) {
    FILE *file = fopen(path, "r");
    uint64_t start, end;
    char kind[2];
    while (file && machine.region_count < MAX_RUNS &&
           fscanf(file, "%" SCNx64 " %" SCNx64 " %1s%*[a-z]", &start, &end, kind) == 3) {
        regions[machine.region_count++] =
            (bootcore_region){start, end - start, (uint32_t)strcspn(" uranb", kind), 0};
    }
    if (!file || fclose(file)) {
        give_up(path);
    }
}

/* Plans the entry, in arrays that are as long as it wants. */
static void plan(const bootcore_entry *entry) {
    uint32_t status = bootcore_plan(&machine, entry, &layout);
    if (status == BOOTCORE_STATUS_SMALL_ROOM) {
        layout.step_room = layout.step_count;
        layout.steps = allocate(layout.step_room * sizeof *layout.steps);
        layout.own_room = layout.own_length;
        layout.own = allocate(layout.own_room);
        status = bootcore_plan(&machine, entry, &layout);
    }
    char words[256] = "no memory";
    if (status == BOOTCORE_STATUS_REFUSED) {
        bootcore_refusal_line(&layout.refusal, words, sizeof words);
    } else if (status != BOOTCORE_STATUS_NO_MEMORY) {
        snprintf(words, sizeof words, "a misuse of bootcore_plan, %" PRIu32, status);
    }
    if (status != BOOTCORE_STATUS_DONE) {
        give_up(words);
    }
}

/* Whether the image goes on with these bytes, or zeros if they are null; tells where it does not. */
static bool goes_on(const char *what, uint64_t at, const uint8_t *wanted, uint64_t count) {
    uint64_t i = 0;
    while (i < count && i < rest_length && rest[i] == (wanted ? wanted[i] : 0)) {
        i++;
    }
    if (i < count) {
        printf("differs: %s at 0x%" PRIx64 "\n", what, at + i);
    }
    rest += i;
    rest_length -= i;
    return i == count;
}

/* An image has its head with the registers and the places, and then the parts' bytes, which the steps
 * give in the same order: docs/FORMATS.md. */
static bool is_image(void) {
    static uint8_t head[BOOTCORE_MAX_IMAGE_HEAD];
    size_t length = bootcore_image_head(&layout.handoff, places, head, sizeof head);
    bool same = goes_on("head", 0, head, length);
    for (size_t i = 0; same && i < layout.step_count; i++) {
        const bootcore_step *step = &layout.steps[i];
        const uint8_t *source = step->source == BOOTCORE_SOURCE_FILE     ? files[step->file].bytes
                                : step->source == BOOTCORE_SOURCE_LAYOUT ? layout.own
                                                                       : NULL;
        same = goes_on("memory", step->address, source ? source + step->offset : NULL, step->length);
    }
    if (same) {
        puts(rest_length ? "differs: more bytes behind the parts" : "equal");
    }
    return same && !rest_length;
}

int main(int argc, char **argv) {
    bootcore_refusal fault;
    bootcore_seen seen;
    bool is_linux = argc > 4 && !strncmp(argv[4], "linux", 5);
    if (argc < 7 || argc > (is_linux ? 8 : 7 + 2 * BOOTCORE_MAX_MODULES)) {
        give_up("SIZE MAP IMAGE multiboot2|linux|linux64 LINE KERNEL [FILE ..]");
    }
    machine.size = strtoull(argv[1], NULL, 0);
    read_map(argv[2]);
    image = read_file(argv[3]);
    bootcore_entry entry = {.protocol = BOOTCORE_PROTOCOL_MULTIBOOT2, .line = {argv[5], strlen(argv[5])},
                            .modules = modules};
    if (is_linux) {
        entry.protocol = argv[4][5] ? BOOTCORE_PROTOCOL_LINUX64 : BOOTCORE_PROTOCOL_LINUX;
    }
    entry.kernel = files[0] = read_file(argv[6]);
    for (int i = 7; i < argc; i += 2) {
        const char *line = i + 1 < argc ? argv[i + 1] : "";
        bootcore_module *module = &modules[entry.module_count++];
        module->line = (bootcore_bytes){line, strlen(line)};
        files[entry.module_count] = module->file = read_file(argv[i]);
    }
    entry.initrd = modules[0].file; /* one protocol looks at the modules, the others at this */
    plan(&entry);
    rest = image.bytes;
    rest_length = image.length;
    bool same = is_image();
    if (bootcore_walk(image.bytes, image.length, &seen, &fault) == BOOTCORE_STATUS_DONE) {
        printf("a kernel sees: entry %" PRIx64 ", line of %" PRIu64 " bytes, %" PRIu64 " modules, %"
               PRIu64 " runs\n", seen.entry_address, seen.line_length, seen.module_count, seen.run_count);
    } else {
        printf("no kernel can be entered: %" PRIu32 "\n", fault.number);
    }
    return !same;
}
