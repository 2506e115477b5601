/*
 * A boot piece by piece, over a made-up disk: it is asked for runs of pieces, and answers in no order,
 * and each request twice, the second time with other bytes, which must not count; one piece of the first
 * entry's module can't be read, so that the fallback boots. Prints the outcome, and then whether memory
 * is what bootcore_boot leaves for the same menu if that module is missing.
 *
 *     disk KERNEL          a kernel of Multiboot2
 */
#include "bootcore.h"

#include <inttypes.h>
#include <stdio.h>
#include <string.h>

enum { SIZE = 0x400000, POOL = 0x300000, MOST = 70000, RUN = 2 * BOOTCORE_PIECE, MAX_PENDING = 64 };

/* A request that the disk has still to answer, and how often it did. */
typedef struct pending {
    bootcore_request request;
    int answers;
} pending;

static pending queue[MAX_PENDING];
static uint32_t waiting;

static uint8_t memory[SIZE], other[SIZE], kernel[MOST], files[2][40000]; /* a module of each entry */

/* Asks the disk for all that a session awaits. */
static void ask(const bootcore_session *session) {
    bootcore_request request;
    bool more = bootcore_session_missing(session, RUN, &request);
    while (more && waiting < MAX_PENDING) {
        queue[waiting++] = (pending){request, 0};
        more = bootcore_session_missing_after(session, RUN, &request);
    }
}

/* The disk answers one of its requests, any of them. */
static uint32_t answer(bootcore_session *session, const bootcore_memory *all) {
    static uint32_t lot = 1;
    lot = lot * 1103515245 + 12345;
    pending *one = &queue[(lot >> 16) % waiting];
    bootcore_request request = one->request;
    bool is_again = one->answers++ > 0;
    if (is_again) {
        *one = queue[--waiting];
    }
    const uint8_t *file = request.file ? files[request.entry] : kernel;
    bool has_fault = request.entry == 0 && request.file == 1 && request.piece == 0;
    size_t length = has_fault ? BOOTCORE_PIECE : request.length; /* the piece behind it has the fault */
    uint8_t bytes[RUN];
    for (size_t i = 0; i < length; i++) {
        uint8_t byte = file[(size_t)request.piece * BOOTCORE_PIECE + i];
        bytes[i] = is_again ? (uint8_t)~byte : byte;
    }
    uint32_t status = bootcore_session_pieces(session, all, &request, bytes, length);
    if (has_fault) {
        request.piece++;
        status = bootcore_session_fault(session, all, &request);
    }
    return status;
}

static void print_outcome(const bootcore_outcome *outcome) {
    const bootcore_handoff *handoff = &outcome->handoff;
    for (size_t i = 0; i < outcome->refusal_count; i++) {
        printf("entry %" PRIu32 " refused %" PRIu32 " %" PRIu64 "\n", outcome->refusals[i].entry,
               outcome->refusals[i].number, outcome->refusals[i].first);
    }
    printf("entry %" PRIu32 " ip %" PRIx64 " bx %" PRIx64 "\n", handoff->entry, handoff->registers.rip,
           handoff->registers.rbx);
    for (uint32_t i = 0; i < handoff->place_count; i++) {
        const bootcore_place *place = &outcome->places[i];
        printf("part %" PRIu32 " %" PRIu32 " at %" PRIx64 ", %" PRIu64 " bytes\n", place->role,
               place->index, place->address, place->length);
    }
}

int main(int argc, char **argv) {
    FILE *file = argc == 2 ? fopen(argv[1], "rb") : NULL;
    size_t kernel_length = file ? fread(kernel, 1, MOST, file) : 0;
    if (!file || ferror(file) || fclose(file) || kernel_length == MOST) {
        fputs("disk KERNEL: it can't be read, or is too long\n", stderr);
        return 2;
    }
    for (size_t i = 0; i < sizeof files; i++) {
        files[i / sizeof files[0]][i % sizeof files[0]] = (uint8_t)(i * 7 + i / 256);
    }
    memset(memory, 0xA5, SIZE);
    memset(other, 0xA5, SIZE);

    const bootcore_region usable[] = {{0, SIZE, BOOTCORE_KIND_USABLE, 0}};
    const bootcore_machine machine = {.size = SIZE, .pool_base = POOL, .pool_length = SIZE - POOL,
                                      .regions = usable, .region_count = 1};
    bootcore_module modules[] = {{.file = {files[0], 20000}, .line = {"first", 5}},
                                 {.file = {files[1], 40000}, .line = {"second", 6}}};
    const bootcore_entry entries[] = {
        {.protocol = BOOTCORE_PROTOCOL_MULTIBOOT2, .kernel = {kernel, kernel_length},
         .modules = &modules[0], .module_count = 1},
        {.protocol = BOOTCORE_PROTOCOL_MULTIBOOT2, .kernel = {kernel, kernel_length},
         .modules = &modules[1], .module_count = 1}};
    const uint32_t fallbacks[] = {1};
    const bootcore_menu menu = {.entries = entries, .entry_count = 2, .first = 0,
                                .fallbacks = fallbacks, .fallback_count = 1};
    const bootcore_memory all = {.bytes = memory, .length = SIZE},
                          all_other = {.bytes = other, .length = SIZE};
    bootcore_place places[BOOTCORE_MAX_PLACES], wanted_places[BOOTCORE_MAX_PLACES];
    bootcore_refusal refusals[BOOTCORE_MAX_REFUSALS];
    bootcore_outcome outcome = {.places = places, .place_room = BOOTCORE_MAX_PLACES,
                                .refusals = refusals, .refusal_room = BOOTCORE_MAX_REFUSALS};
    bootcore_outcome wanted = {.places = wanted_places, .place_room = BOOTCORE_MAX_PLACES};

    bootcore_session session = {NULL};
    uint32_t status = bootcore_session_make(&session, &machine, &menu);
    if (status == BOOTCORE_STATUS_DONE) {
        status = bootcore_session_start(&session, &all);
        ask(&session);
    }
    int answers = 0;
    while ((status == BOOTCORE_STATUS_WAITING || status == BOOTCORE_STATUS_NEXT) && waiting) {
        status = answer(&session, &all);
        answers++;
        if (status == BOOTCORE_STATUS_NEXT) {
            ask(&session);
        }
    }
    status = bootcore_session_outcome(&session, &outcome);
    bootcore_session_free(&session);
    if (status != BOOTCORE_STATUS_DONE) {
        printf("status %" PRIu32 "\n", status);
        return 1;
    }
    print_outcome(&outcome);
    printf("%d answers\n", answers);

    modules[0].file.length = BOOTCORE_UNREADABLE;
    bool same = bootcore_boot(&all_other, &machine, &menu, &wanted) == BOOTCORE_STATUS_DONE &&
                !memcmp(&outcome.handoff, &wanted.handoff, sizeof wanted.handoff) &&
                !memcmp(places, wanted_places, wanted.handoff.place_count * sizeof places[0]) &&
                !memcmp(memory, other, SIZE);
    puts(same ? "memory as after bootcore_boot" : "memory differs");
    return !same;
}
