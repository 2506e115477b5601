/*
 * Each status of bootcore_walk_all: a call over an image that is right, and that call with one thing
 * changed. Prints the name of each change whose status, or what is told with it, is another than it
 * should be, and then how many were tried.
 *
 *     walks IMAGE
 */
#include "bootcore.h"

#include <inttypes.h>
#include <stdio.h>
#include <string.h>

enum { ROOM = 64, MOST = 0x100000 };

/* Where a call tells. No byte of it is padding. */
typedef struct telling {
    bootcore_seen seen;
    bootcore_seen_part parts[ROOM];
    bootcore_seen_module modules[ROOM];
    bootcore_region runs[ROOM];
    uint8_t text[ROOM];
    bootcore_seen_firmware firmware;
    bootcore_refusal fault;
} telling;

/* What a call is given; each change starts from `right`. */
typedef struct call {
    const uint8_t *image;
    size_t length;
    bootcore_seen *seen;
    int has_arrays;
    bootcore_seen_arrays arrays;
    bootcore_refusal *fault;
} call;

static uint8_t image[MOST];
static size_t length;
static telling told;        /* by the last call */
static telling before, all; /* before each call; what the right one tells */

static call right(void) {
    call c = {image,
              length,
              &told.seen,
              1,
              {told.parts, ROOM, told.modules, ROOM, told.runs, ROOM, told.text, ROOM, &told.firmware, {0, 0, 0}},
              &told.fault};
    return c;
}

static uint32_t walk_all(call c) {
    told = before;
    return bootcore_walk_all(c.image, c.length, c.seen, c.has_arrays ? &c.arrays : NULL, c.fault);
}

static int tried, wrong;

static void expect(const char *name, call c, uint32_t wanted) {
    uint32_t status = walk_all(c);
    telling after = wanted == BOOTCORE_STATUS_DONE ? all : before;
    if (!c.arrays.firmware) { /* it is not told */
        after.firmware = before.firmware;
    }
    if (wanted == BOOTCORE_STATUS_SMALL_ROOM) {
        after.seen = all.seen;
    }
    if (wanted == BOOTCORE_STATUS_REFUSED) {
        after.fault = (bootcore_refusal){0, 75, 0, 0, 0}; /* the bytes end too soon */
    }
    if (status != wanted || memcmp(&told, &after, sizeof told)) {
        printf("%s: %" PRIu32 ", not %" PRIu32 "\n", name, status, wanted);
        wrong++;
    }
    tried++;
}

#define CHANGED(wanted, change)     \
    do {                            \
        call c = right();           \
        change;                     \
        expect(#change, c, wanted); \
    } while (0)

/* Whether the right call tells the summary that bootcore_walk does, and behind it nothing. */
static int is_right(void) {
    bootcore_seen seen;
    bootcore_refusal fault;
    if (bootcore_walk(image, length, &seen, &fault) != BOOTCORE_STATUS_DONE ||
        walk_all(right()) != BOOTCORE_STATUS_DONE || seen.kernel_part_count > ROOM || seen.module_count > ROOM ||
        seen.run_count > ROOM || seen.text_length > ROOM || !seen.module_count || !seen.text_length) {
        return 0;
    }
    all = told;
    memcpy(told.parts, before.parts, seen.kernel_part_count * sizeof *told.parts);
    memcpy(told.modules, before.modules, seen.module_count * sizeof *told.modules);
    memcpy(told.runs, before.runs, seen.run_count * sizeof *told.runs);
    memcpy(told.text, before.text, seen.text_length);
    told.seen = before.seen;
    told.firmware = before.firmware;
    return !memcmp(&all.seen, &seen, sizeof seen) && !memcmp(&told, &before, sizeof told);
}

int main(int argc, char **argv) {
    FILE *file = argc == 2 ? fopen(argv[1], "rb") : NULL;
    length = file ? fread(image, 1, MOST, file) : 0;
    memset(&before, 0xA5, sizeof before);
    if (!is_right()) {
        printf("the right call is wrong: it wants an image with a module and a line\n");
        return 2;
    }
    bootcore_seen seen = all.seen;
    CHANGED(BOOTCORE_STATUS_DONE, (void)c);
    CHANGED(BOOTCORE_STATUS_DONE, c.arrays.kernel_part_room = seen.kernel_part_count);
    CHANGED(BOOTCORE_STATUS_DONE, c.arrays.module_room = seen.module_count);
    CHANGED(BOOTCORE_STATUS_DONE, c.arrays.run_room = seen.run_count);
    CHANGED(BOOTCORE_STATUS_DONE, c.arrays.text_room = seen.text_length);
    CHANGED(BOOTCORE_STATUS_DONE, c.arrays.firmware = NULL);
    CHANGED(BOOTCORE_STATUS_NULL, c.image = NULL);
    CHANGED(BOOTCORE_STATUS_NULL, c.seen = NULL);
    CHANGED(BOOTCORE_STATUS_NULL, c.has_arrays = 0);
    CHANGED(BOOTCORE_STATUS_NULL, c.arrays.kernel_parts = NULL);
    CHANGED(BOOTCORE_STATUS_NULL, c.arrays.modules = NULL);
    CHANGED(BOOTCORE_STATUS_NULL, c.arrays.runs = NULL);
    CHANGED(BOOTCORE_STATUS_NULL, c.arrays.text = NULL);
    CHANGED(BOOTCORE_STATUS_NULL, c.fault = NULL);
    CHANGED(BOOTCORE_STATUS_BAD_RESERVED, c.arrays.reserved[2] = 1);
    CHANGED(BOOTCORE_STATUS_SMALL_ROOM, c.arrays.kernel_part_room = seen.kernel_part_count - 1);
    CHANGED(BOOTCORE_STATUS_SMALL_ROOM, c.arrays.module_room = seen.module_count - 1);
    CHANGED(BOOTCORE_STATUS_SMALL_ROOM, c.arrays.run_room = seen.run_count - 1);
    CHANGED(BOOTCORE_STATUS_SMALL_ROOM, c.arrays.text_room = seen.text_length - 1);
    CHANGED(BOOTCORE_STATUS_SMALL_ROOM, memset(&c.arrays, 0, sizeof c.arrays));
    CHANGED(BOOTCORE_STATUS_REFUSED, c.length = length - 1);
    CHANGED(BOOTCORE_STATUS_REFUSED, c.length = 0; c.image = NULL);
    CHANGED(BOOTCORE_STATUS_REFUSED, c.length = 0; memset(&c.arrays, 0, sizeof c.arrays));
    printf("%d tried, %d wrong\n", tried, wrong);
    return wrong != 0;
}
