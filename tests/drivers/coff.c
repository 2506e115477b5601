/*
 * Loads a kernel and is refused another: prints what it was told, and a sum of all memory. As a program of a system it prints
 * on standard output; as one of UEFI, linked by a linker of PE/COFF, on the port that QEMU writes to a file. `kernel.h` has the kernel.
 */
#include "bootcore.h"
#include "bootcore_arena.h"
#include "kernel.h"

enum { SIZE = 4 << 20 };

#ifdef _WIN32
static void put(char letter) {
    __asm__ volatile("outb %0, %1" : : "a"(letter), "Nd"((unsigned short)0x402));
}
/* what the compiler calls */
void *memset(void *to, int byte, size_t count) {
    volatile unsigned char *at = to;
    while (count--) {
        *at++ = (unsigned char)byte;
    }
    return to;
}
#define MAIN int efi_main(void *image, void *table)
#define UNUSED ((void)image, (void)table)
#else
#include <stdio.h>
static void put(char letter) {
    putchar(letter);
}
#define MAIN int main(void)
#define UNUSED ((void)0)
#endif

static unsigned char guest[SIZE], room[BOOTCORE_ARENA];

static void say(const char *text) {
    while (*text) {
        put(*text++);
    }
}

static void number(const char *what, uint64_t value) {
    int shift;
    say(what);
    for (shift = 60; shift >= 0; shift -= 4) {
        put("0123456789abcdef"[value >> shift & 15]);
    }
    put('\n');
}

static void try_kernel(const unsigned char *bytes, size_t length) {
    static bootcore_place places[BOOTCORE_MAX_PLACES];
    static char words[256];
    static const bootcore_region regions[] = {{0, 0x9F000, BOOTCORE_KIND_USABLE, 0},
                                              {0x100000, SIZE - 0x100000, BOOTCORE_KIND_USABLE, 0}};
    bootcore_machine machine = {0};
    bootcore_entry entry = {0};
    bootcore_memory memory = {0};
    bootcore_refusal refusal = {0};
    bootcore_outcome outcome = {0};
    uint64_t sum = 0xCBF29CE484222325;
    uint32_t status;
    size_t i;
    machine.size = SIZE, machine.regions = regions, machine.region_count = 2;
    entry.protocol = BOOTCORE_PROTOCOL_MULTIBOOT2;
    entry.kernel.bytes = bytes, entry.kernel.length = length;
    memory.bytes = guest, memory.length = SIZE;
    outcome.places = places, outcome.place_room = BOOTCORE_MAX_PLACES;
    outcome.refusals = &refusal, outcome.refusal_room = 1;
    bootcore_arena(room, sizeof room);
    status = bootcore_load(&memory, &machine, &entry, &outcome);
    say(bootcore_status_text(status));
    put('\n');
    if (status == BOOTCORE_STATUS_REFUSED) {
        bootcore_refusal_line(&refusal, words, sizeof words);
        say(words);
        put('\n');
        return;
    }
    number("entered at ", outcome.handoff.registers.rip);
    number("parts ", outcome.handoff.place_count);
    for (i = 0; i < SIZE; i++) {
        sum = (sum ^ guest[i]) * 0x100000001B3;
    }
    number("memory ", sum);
}

MAIN {
    UNUSED;
    number("version ", bootcore_version());
    try_kernel(kernel, sizeof kernel);
    try_kernel(kernel, 100);
    number("arena ", bootcore_arena_peak());
    say("the end\n");
    return 0;
}
