/*
 * The plan and the image's digest of each entry of a menu. model/fuzz --plans runs it on what it draws.
 *
 *     plans <CASE
 *
 * CASE is as case.h says. Of each entry it prints a line `entry`, and then
 *     status NUMBER                                          the status of bootcore_plan
 *     refusal NUMBER FIRST SECOND                            if the entry is refused
 *     handoff PROTOCOL BITS REGISTER ..                      if it is planned: the registers in the order of the struct,
 *     place ROLE INDEX ADDRESS LENGTH                        each place,
 *     step ADDRESS LENGTH OFFSET SOURCE FILE                 each step,
 *     own BYTES                                              the plan's own bytes, if there are some, in hexadecimal digits,
 *     image LENGTH SHA256                                    what bootcore_digest_entry says, unless the image is large
 * The plan is given no byte of the files beside the kernel, and just the room that it asks for.
 */
#include "case.h"

#include <inttypes.h>

enum { LARGE = 16 << 20, REGISTERS = offsetof(bootcore_registers, reserved) / sizeof(uint64_t) };

static bootcore_place places[BOOTCORE_MAX_PLACES];

static void *room_for(size_t count, size_t size) {
    void *room = calloc(count + !count, size);
    if (!room) {
        stop("no memory");
    }
    return room;
}

static void print_digits(const uint8_t *digits, size_t length) {
    size_t i;
    for (i = 0; i < length; i++) {
        printf("%02x", digits[i]);
    }
    putchar('\n');
}

static void print_plan(const bootcore_layout *layout) {
    uint64_t registers[REGISTERS];
    size_t i;
    memcpy(registers, &layout->handoff.registers, sizeof registers);
    printf("handoff %" PRIu32, layout->handoff.protocol);
    for (i = 0; i < REGISTERS; i++) {
        printf(" %" PRIu64, registers[i]);
    }
    putchar('\n');
    for (i = 0; i < layout->handoff.place_count; i++) {
        const bootcore_place *place = &places[i];
        printf("place %" PRIu32 " %" PRIu32 " %" PRIu64 " %" PRIu64 "\n", place->role, place->index, place->address, place->length);
    }
    for (i = 0; i < layout->step_count; i++) {
        const bootcore_step *step = &layout->steps[i];
        printf("step %" PRIu64 " %" PRIu64 " %" PRIu64 " %" PRIu32 " %" PRIu32 "\n", step->address, step->length, step->offset,
               step->source, step->file);
    }
    if (layout->own_length) {
        printf("own ");
        print_digits(layout->own, layout->own_length);
    }
}

/* The entry of whose files beside the kernel the lengths are known alone. */
static uint32_t plan(const bootcore_entry *entry, bootcore_layout *layout) {
    bootcore_module *modules = room_for(entry->module_count, sizeof *modules);
    bootcore_entry bare = *entry;
    uint32_t status;
    size_t i;
    for (i = 0; i < entry->module_count; i++) {
        modules[i] = entry->modules[i];
        modules[i].file.bytes = NULL;
    }
    bare.modules = modules;
    bare.initrd.bytes = NULL;
    memset(layout, 0, sizeof *layout);
    layout->places = places;
    layout->place_room = BOOTCORE_MAX_PLACES;
    status = bootcore_plan(&machine, &bare, layout);
    if (status == BOOTCORE_STATUS_SMALL_ROOM) {
        layout->step_room = layout->step_count;
        layout->own_room = layout->own_length;
        layout->steps = room_for(layout->step_room, sizeof *layout->steps);
        layout->own = room_for(layout->own_room, 1);
        status = bootcore_plan(&machine, &bare, layout);
    }
    free(modules);
    return status;
}

static void print_image(const bootcore_entry *entry, const bootcore_layout *layout) {
    bootcore_digests digests;
    bootcore_refusal refusal;
    uint64_t length = 0;
    uint32_t i;
    for (i = 0; i < layout->handoff.place_count; i++) {
        length += places[i].length;
    }
    if (length > LARGE) {
        return;
    }
    if (bootcore_digest_entry(&machine, entry, &digests, NULL, 0, &refusal) != BOOTCORE_STATUS_DONE) {
        stop("an entry that is planned has no digests");
    }
    printf("image %" PRIu64 " ", digests.image_length);
    print_digits(digests.image_sha256, sizeof digests.image_sha256);
}

int main(void) {
    size_t i;
    read_case();
    for (i = 0; i < menu.entry_count; i++) {
        bootcore_layout layout;
        uint32_t status = plan(&entries[i], &layout);
        printf("entry\nstatus %" PRIu32 "\n", status);
        if (status == BOOTCORE_STATUS_REFUSED) {
            printf("refusal %" PRIu32 " %" PRIu64 " %" PRIu64 "\n", layout.refusal.number, layout.refusal.first, layout.refusal.second);
        } else if (status == BOOTCORE_STATUS_DONE) {
            print_plan(&layout);
            print_image(&entries[i], &layout);
        }
        free(layout.steps);
        free(layout.own);
    }
    return 0;
}
