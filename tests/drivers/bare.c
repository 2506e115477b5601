/* A program without a libc over libbootcore_freestanding.a: without an arena a load has no memory, with one it is done, and a session
 * comes to its end. The status is 0 if all is so, else that of the first thing that is not. */
#include "bootcore.h"
#include "bootcore_arena.h"

enum { MEMORY = 0x200000, ARENA = 0x80000 };

static const uint32_t kernel[] = {0xE85250D6, 0, 64, 0u - 0xE85250D6 - 64, 2, 24, 0x100000, 0x100000, 0, 0x102000, 3, 12, 0x100000, 0,
                                  0, 8};
static uint8_t memory[MEMORY], arena[ARENA];
static const bootcore_region region = {0, MEMORY, BOOTCORE_KIND_USABLE, 0};
static bootcore_place places[BOOTCORE_MAX_PLACES];
static bootcore_refusal refusals[BOOTCORE_MAX_REFUSALS];
static bootcore_step steps[64];
static uint8_t own[8192], head[BOOTCORE_MAX_IMAGE_HEAD];
static char line[256];
static bootcore_machine machine;
static bootcore_entry entry;
static bootcore_menu menu;
static bootcore_outcome outcome;
static bootcore_layout layout;
static bootcore_session session;
static bootcore_request request;
static bootcore_seen seen;
static bootcore_segment segments[6];
static bootcore_digest digest;
static bootcore_file_range range;
static bootcore_digests fed, digests;
static bootcore_part_digest part_digests[4];
static bootcore_memory whole;

static void set(void) {
    whole.bytes = memory;
    whole.length = MEMORY;
    machine.size = MEMORY;
    machine.pool_base = 0x180000;
    machine.pool_length = 0x1000;
    machine.regions = &region;
    machine.region_count = 1;
    entry.protocol = BOOTCORE_PROTOCOL_MULTIBOOT2;
    entry.kernel.bytes = kernel;
    entry.kernel.length = sizeof kernel;
    menu.entries = &entry;
    menu.entry_count = 1;
    outcome.places = layout.places = places;
    outcome.place_room = layout.place_room = BOOTCORE_MAX_PLACES;
    outcome.refusals = refusals;
    outcome.refusal_room = BOOTCORE_MAX_REFUSALS;
    layout.steps = steps;
    layout.step_room = sizeof steps / sizeof *steps;
    layout.own = own;
    layout.own_room = sizeof own;
}

static int is_loaded(void) {
    return memory[0x100000] == 0xD6 && memory[0x100003] == 0xE8 && outcome.handoff.registers.rip == 0x100000;
}

int run(void);
int run(void) {
    bootcore_seen_arrays none = {NULL, 0, NULL, 0, NULL, 0, NULL, 0, NULL, {0, 0, 0}};
    set();
    if (bootcore_load(&whole, &machine, &entry, &outcome) != BOOTCORE_STATUS_NO_MEMORY) return 1;
    bootcore_arena(arena, ARENA);
    if (bootcore_load(&whole, &machine, &entry, &outcome) != BOOTCORE_STATUS_DONE || !is_loaded()) return 2;
    if (bootcore_prepare(&machine, &entry, &outcome) != BOOTCORE_STATUS_DONE) return 3;
    if (bootcore_plan(&machine, &entry, &layout) != BOOTCORE_STATUS_DONE) return 4;
    memory[0x100000] = 0;
    if (bootcore_carry_out(&layout, &entry.kernel, 1, &whole, 1) != BOOTCORE_STATUS_DONE || !is_loaded()) return 5;
    memory[0x100000] = 0;
    if (bootcore_boot(&whole, &machine, &menu, &outcome) != BOOTCORE_STATUS_DONE || !is_loaded()) return 6;
    memory[0x100000] = 0;
    if (bootcore_session_make(&session, &machine, &menu) != BOOTCORE_STATUS_DONE) return 7;
    if (bootcore_session_start(&session, &whole) != BOOTCORE_STATUS_WAITING) return 8;
    if (!bootcore_session_missing(&session, 4096, &request) || request.length != sizeof kernel) return 9;
    if (bootcore_session_missing_after(&session, 4096, &request)) return 10;
    if (bootcore_session_pieces(&session, &whole, &request, kernel, sizeof kernel) != BOOTCORE_STATUS_DONE || !is_loaded()) return 11;
    if (bootcore_session_fault(&session, &whole, &request) != BOOTCORE_STATUS_DONE) return 12;
    if (bootcore_session_outcome(&session, &outcome) != BOOTCORE_STATUS_DONE) return 13;
    bootcore_session_free(&session);
    if (bootcore_arena_peak() == 0 || bootcore_arena_peak() > ARENA) return 14;
    if (bootcore_image_head(&outcome.handoff, places, head, sizeof head) == 0) return 15;
    if (bootcore_image_head_read(head, sizeof head, &outcome.handoff, places, BOOTCORE_MAX_PLACES, refusals)) return 24;
    if (bootcore_bad_region(&machine) != machine.region_count) return 25;
    if (bootcore_walk(head, 9, &seen, refusals) != BOOTCORE_STATUS_REFUSED) return 16;
    if (bootcore_walk_all(head, 9, &seen, &none, refusals) != BOOTCORE_STATUS_REFUSED) return 17;
    if (bootcore_refusal_line(refusals, line, sizeof line) == 0 || bootcore_refusal_text(4)[0] == 0) return 18;
    bootcore_segments(&outcome.handoff.registers, segments);
    if (bootcore_version() != BOOTCORE_VERSION || segments[0].type != 11) return 19;
    if (bootcore_digest_entry(&machine, &entry, &digests, part_digests, 4, refusals) != BOOTCORE_STATUS_DONE) return 20;
    if (bootcore_digest_make(&digest, &machine, &entry, refusals) != BOOTCORE_STATUS_DONE) return 21;
    while (bootcore_digest_wanted(&digest, &range)) {
        if (bootcore_digest_feed(&digest, (const uint8_t *)kernel + range.offset, range.length) != BOOTCORE_STATUS_DONE) return 22;
    }
    if (bootcore_digest_told(&digest, &fed, part_digests, 4) != BOOTCORE_STATUS_DONE) return 23;
    bootcore_digest_free(&digest);
    return fed.image_sha256[0] == digests.image_sha256[0] && fed.image_sha256[31] == digests.image_sha256[31] ? 0 : 24;
}

/* A process begins here, with the stack as no function has it; 231 is exit_group. */
__asm__(".globl _start\n"
        "_start:\n"
        "    and $-16, %rsp\n"
        "    call run\n"
        "    mov %eax, %edi\n"
        "    mov $231, %eax\n"
        "    syscall\n");
