/*
 * Each way a boot ends: a menu of two entries, with one thing changed. Prints the name of each change
 * that ends in another way than it should, and then how many were tried.
 *
 *     menu KERNEL          a kernel of Multiboot2
 */
#include "bootcore.h"

#include <inttypes.h>
#include <stdio.h>
#include <string.h>

enum { SIZE = 0x400000, POOL = 0x300000, MOST = 70000 };

typedef struct call {
    bootcore_memory memory;
    bootcore_machine machine;
    bootcore_menu menu;
    bootcore_entry entries[2];
    bootcore_module module;
    bootcore_outcome outcome;
} call;

/* How a boot ends: its status, the entry, how many were refused, the first refusal's number. */
typedef struct ending {
    uint32_t status;
    uint32_t entry;
    uint64_t refused;
    uint32_t number;
} ending;

static const bootcore_region usable[] = {{0, SIZE, BOOTCORE_KIND_USABLE, 0}};
static const uint32_t second[] = {1, 0};
static uint8_t memory[SIZE], kernel[MOST];
static size_t kernel_length;
static bootcore_place places[BOOTCORE_MAX_PLACES];
static bootcore_refusal refusals[BOOTCORE_MAX_REFUSALS];

/* Entry 0 is a Linux kernel that is none, and entry 1 a Multiboot2 kernel with a module. */
static call right(void) {
    return (call){
        .memory = {.bytes = memory, .length = SIZE},
        .machine = {.size = SIZE, .pool_base = POOL, .pool_length = SIZE - POOL,
                    .regions = usable, .region_count = 1},
        .menu = {.entry_count = 2, .fallbacks = second, .fallback_count = 2},
        .entries = {{.protocol = BOOTCORE_PROTOCOL_LINUX, .kernel = {"no kernel", 9}, .line = {"quiet", 5}},
                    {.protocol = BOOTCORE_PROTOCOL_MULTIBOOT2, .kernel = {kernel, kernel_length},
                     .line = {"kernel", 6}, .module_count = 1}},
        .module = {.file = {"hello", 5}, .line = {"module", 6}},
        .outcome = {.places = places, .place_room = BOOTCORE_MAX_PLACES,
                    .refusals = refusals, .refusal_room = BOOTCORE_MAX_REFUSALS}};
}

static int tried, wrong;

static void expect(const char *name, call c, ending wanted) {
    memset(memory, 0xA5, SIZE);
    memset(refusals, 0, sizeof refusals);
    c.menu.entries = c.menu.entry_count ? c.entries : NULL;
    c.entries[1].modules = &c.module;
    uint32_t status = bootcore_boot(&c.memory, &c.machine, &c.menu, &c.outcome);
    ending got = {status, c.outcome.handoff.entry, c.outcome.refusal_count, refusals[0].number};
    /* each byte of the pool is 0 once a boot ended, and else as it was; all others are, but of parts */
    uint8_t pool = status <= BOOTCORE_STATUS_REFUSED && c.machine.pool_length ? 0 : 0xA5;
    bool is_right = true;
    for (size_t i = status == BOOTCORE_STATUS_DONE ? POOL : 0; i < SIZE; i++) {
        is_right = is_right && (memory[i] == (i < POOL ? 0xA5 : pool) || status == BOOTCORE_STATUS_NO_MEMORY);
    }
    if (got.status != wanted.status || got.entry != wanted.entry || got.refused != wanted.refused ||
        got.number != wanted.number || !is_right) {
        printf("%s: %" PRIu32 " %" PRIu32 " %" PRIu64 " %" PRIu32 " %d\n", name, got.status, got.entry,
               got.refused, got.number, is_right);
        wrong++;
    }
    tried++;
}

#define CHANGED(status, entry, refused, number, change)               \
    do {                                                              \
        call c = right();                                             \
        change;                                                       \
        expect(#change, c, (ending){status, entry, refused, number}); \
    } while (0)
#define MISUSE(status, change) CHANGED(status, 0, 0, 0, change)

int main(int argc, char **argv) {
    FILE *file = argc == 2 ? fopen(argv[1], "rb") : NULL;
    if (!file) {
        fputs("menu KERNEL\n", stderr);
        return 2;
    }
    kernel_length = fread(kernel, 1, MOST, file);
    if (ferror(file) || fclose(file) || kernel_length == MOST) {
        fputs("menu: the kernel can't be read, or is too long\n", stderr);
        return 2;
    }
    CHANGED(BOOTCORE_STATUS_DONE, 1, 1, 22, (void)c);
    CHANGED(BOOTCORE_STATUS_DONE, 1, 1, 0, c.outcome.refusal_room = 0);
    CHANGED(BOOTCORE_STATUS_DONE, 1, 1, 0, c.outcome.refusal_room = 0; c.outcome.refusals = NULL);
    CHANGED(BOOTCORE_STATUS_DONE, 1, 0, 0, c.menu.first = 1);
    CHANGED(BOOTCORE_STATUS_DONE, 1, 1, 1, c.entries[0].kernel.length = BOOTCORE_UNREADABLE);
    CHANGED(BOOTCORE_STATUS_REFUSED, 0, 1, 22, c.menu.fallback_count = 0);
    CHANGED(BOOTCORE_STATUS_REFUSED, 0, 2, 22, c.module.file.length = BOOTCORE_UNREADABLE);
    CHANGED(BOOTCORE_STATUS_REFUSED, 0, 2, 21, c.machine.pool_length = 0; c.machine.pool_base = SIZE);
    CHANGED(BOOTCORE_STATUS_NO_MEMORY, 0, 0, 0, /* a part would lie below this memory */
            c.memory = ((bootcore_memory){0x2000, memory + 0x2000, SIZE - 0x2000, 0}));
    MISUSE(BOOTCORE_STATUS_NULL, c.entries[0].kernel.bytes = NULL);
    MISUSE(BOOTCORE_STATUS_NULL, c.entries[1].line.bytes = NULL);
    MISUSE(BOOTCORE_STATUS_NULL, c.module.line.bytes = NULL);
    MISUSE(BOOTCORE_STATUS_NULL, c.menu.fallbacks = NULL);
    MISUSE(BOOTCORE_STATUS_NULL, c.outcome.refusals = NULL);
    MISUSE(BOOTCORE_STATUS_BAD_RESERVED, c.memory.reserved = 1);
    MISUSE(BOOTCORE_STATUS_BAD_RESERVED, c.machine.reserved[0] = 1);
    MISUSE(BOOTCORE_STATUS_BAD_RESERVED, c.menu.reserved32 = 1);
    MISUSE(BOOTCORE_STATUS_BAD_RESERVED, c.menu.reserved[3] = 1);
    MISUSE(BOOTCORE_STATUS_BAD_RESERVED, c.entries[1].reserved32 = 1);
    MISUSE(BOOTCORE_STATUS_BAD_RESERVED, c.entries[0].reserved[2] = 1);
    MISUSE(BOOTCORE_STATUS_BAD_RESERVED, c.module.reserved[1] = 1);
    MISUSE(BOOTCORE_STATUS_BAD_RESERVED, c.outcome.reserved[0] = 1);
    MISUSE(BOOTCORE_STATUS_SMALL_ROOM, c.outcome.place_room = BOOTCORE_MAX_PLACES - 1);
    MISUSE(BOOTCORE_STATUS_BAD_SIZE, c.machine.size = SIZE + 1);
    MISUSE(BOOTCORE_STATUS_BAD_POOL, c.machine.pool_length = SIZE);
    MISUSE(BOOTCORE_STATUS_BAD_MEMORY, c.memory.length = SIZE - 1);
    MISUSE(BOOTCORE_STATUS_BAD_MEMORY, c.machine.size = SIZE - 4096; c.machine.pool_length -= 4096);
    MISUSE(BOOTCORE_STATUS_BAD_PROTOCOL, c.entries[1].protocol = 4);
    MISUSE(BOOTCORE_STATUS_BAD_PROTOCOL, c.entries[1].protocol = 4; /* comes before an earlier entry's size */
           c.entries[0] = ((bootcore_entry){.protocol = BOOTCORE_PROTOCOL_MULTIBOOT2,
                                            .rsdp_new = {kernel, BOOTCORE_MAX_RSDP + 1}}));
    MISUSE(BOOTCORE_STATUS_LONG_RSDP, c.entries[1].rsdp_old = ((bootcore_bytes){kernel, BOOTCORE_MAX_RSDP + 1}));
    MISUSE(BOOTCORE_STATUS_BAD_INDEX, c.menu.first = 2);
    MISUSE(BOOTCORE_STATUS_BAD_INDEX, c.menu.entry_count = 0);
    MISUSE(BOOTCORE_STATUS_LOW_POOL,
           c.memory = ((bootcore_memory){POOL + 4096, memory + POOL + 4096, SIZE - POOL - 4096, 0}));
    printf("%d tried, %d wrong\n", tried, wrong);
    return wrong != 0;
}
