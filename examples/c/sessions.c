/*
 * Each status of a session's calls: a call that is right, and that call with one thing changed. Prints
 * the line of each call that answers another status than it should, and then how many were tried.
 */
#include "bootcore.h"

#include <inttypes.h>
#include <stdio.h>
#include <string.h>

enum { SIZE = 0x200000, POOL = 0x100000 };

static const bootcore_region usable[] = {{0, SIZE, BOOTCORE_KIND_USABLE, 0}};
static const bootcore_region no_kind[] = {{0, SIZE, 6, 0}};
static const bootcore_region high[] = {{0, SIZE, BOOTCORE_KIND_USABLE, 0},
                                       {UINT64_MAX, 1, BOOTCORE_KIND_USABLE, 0}};
static bootcore_region many[BOOTCORE_MAX_REGIONS + 1];
static bootcore_module modules[BOOTCORE_MAX_MODULES + 1];
static bootcore_entry entries[BOOTCORE_MAX_ENTRIES + 1];
static const uint32_t second[] = {1};
static const uint8_t bytes[2 * BOOTCORE_PIECE];
/* A kernel of Multiboot2 that is a header alone, with where it lies and where it is entered. */
static const uint32_t kernel[] = {0xE85250D6, 0, 64, 0u - 0xE85250D6 - 64,
                                  2, 24, 0x100000, 0x100000, 0, 0,
                                  3, 12, 0x100000, 0,
                                  0, 8};

static bootcore_machine machine;
static bootcore_menu menu;
static bootcore_session session;
static bootcore_request request;
static uint8_t memory[SIZE];
static bootcore_place places[BOOTCORE_MAX_PLACES];
static bootcore_refusal refusals[BOOTCORE_MAX_REFUSALS];
static bootcore_outcome outcome;

/* One entry, a kernel of two pieces that is none; nothing is given of its bytes. */
static void right(void) {
    machine = (bootcore_machine){.size = SIZE, .pool_base = POOL, .pool_length = SIZE - POOL,
                                 .regions = usable, .region_count = 1};
    for (int i = 0; i <= BOOTCORE_MAX_ENTRIES; i++) {
        entries[i] = (bootcore_entry){.protocol = BOOTCORE_PROTOCOL_MULTIBOOT2, .line = {"line", 4},
                                      .kernel = {NULL, BOOTCORE_PIECE + 9}};
    }
    menu = (bootcore_menu){.entries = entries, .entry_count = 1};
    outcome = (bootcore_outcome){.places = places, .place_room = BOOTCORE_MAX_PLACES,
                                 .refusals = refusals, .refusal_room = BOOTCORE_MAX_REFUSALS};
}

static int tried, wrong;

static void expect(int line, uint32_t status, uint32_t wanted) {
    if (status != wanted) {
        printf("line %d: %" PRIu32 ", not %" PRIu32 "\n", line, status, wanted);
        wrong++;
    }
    tried++;
}
#define EXPECT(wanted, call) expect(__LINE__, call, wanted)

#define MAKE() bootcore_session_make(&session, &machine, &menu)
#define START(address, length) \
    bootcore_session_start(&session, &(bootcore_memory){address, memory, length, 0})
#define PIECES(from, length) \
    bootcore_session_pieces(&session, &(bootcore_memory){0, memory, SIZE, 0}, &request, from, length)
#define FAULT(length) bootcore_session_fault(&session, &(bootcore_memory){0, memory, length, 0}, &request)
#define MISSING(most) bootcore_session_missing(&session, most, &request)
#define MISSING_AFTER(most) bootcore_session_missing_after(&session, most, &request)
#define OUTCOME() bootcore_session_outcome(&session, &outcome)
#define IS_REQUEST(first, count) (request.piece == (first) && request.length == (count))

/* Makes a session with one thing changed; the one that is kept stays so, unless it is made. */
#define CHANGED(wanted, change)                                                         \
    do {                                                                                \
        uintptr_t kept = (uintptr_t)session.kept;                                       \
        right();                                                                        \
        change;                                                                         \
        EXPECT(wanted, MAKE());                                                         \
        EXPECT(true, ((uintptr_t)session.kept == kept) == ((wanted) != BOOTCORE_STATUS_DONE)); \
    } while (0)

static void try_make(void) {
    for (int i = 0; i <= BOOTCORE_MAX_REGIONS; i++) {
        many[i] = usable[0];
    }
    CHANGED(BOOTCORE_STATUS_DONE, (void)0);
    CHANGED(BOOTCORE_STATUS_DONE, entries[0].kernel.length = BOOTCORE_UNREADABLE);
    CHANGED(BOOTCORE_STATUS_DONE, entries[0].initrd.length = 1; entries[0].protocol = BOOTCORE_PROTOCOL_LINUX);
    CHANGED(BOOTCORE_STATUS_NULL, machine.regions = NULL);
    CHANGED(BOOTCORE_STATUS_NULL, entries[0].modules = NULL; entries[0].module_count = 1);
    CHANGED(BOOTCORE_STATUS_NULL, entries[0].line.bytes = NULL);
    CHANGED(BOOTCORE_STATUS_NULL, menu.entries = NULL);
    CHANGED(BOOTCORE_STATUS_NULL, menu.fallback_count = 1);
    CHANGED(BOOTCORE_STATUS_BAD_RESERVED, machine.reserved[2] = 1);
    CHANGED(BOOTCORE_STATUS_BAD_RESERVED, entries[0].reserved32 = 1);
    CHANGED(BOOTCORE_STATUS_BAD_RESERVED, entries[0].reserved[0] = 1);
    CHANGED(BOOTCORE_STATUS_BAD_RESERVED, menu.reserved32 = 1);
    CHANGED(BOOTCORE_STATUS_BAD_RESERVED, menu.reserved[1] = 1);
    CHANGED(BOOTCORE_STATUS_BAD_KIND, machine.regions = no_kind);
    CHANGED(BOOTCORE_STATUS_BAD_SIZE, machine.size = SIZE + 1);
    CHANGED(BOOTCORE_STATUS_TOO_MANY_REGIONS, machine.regions = many;
            machine.region_count = BOOTCORE_MAX_REGIONS + 1);
    CHANGED(BOOTCORE_STATUS_BAD_REGION, machine.regions = high; machine.region_count = 2);
    CHANGED(BOOTCORE_STATUS_BAD_POOL, machine.pool_length = 1);
    CHANGED(BOOTCORE_STATUS_BAD_PROTOCOL, entries[0].protocol = 4);
    CHANGED(BOOTCORE_STATUS_TOO_MANY_ENTRIES, menu.entry_count = BOOTCORE_MAX_ENTRIES + 1);
    CHANGED(BOOTCORE_STATUS_TOO_MANY_ENTRIES, menu.entry_count = SIZE_MAX); /* not looked at behind those */
    CHANGED(BOOTCORE_STATUS_TOO_MANY_MODULES, entries[0].modules = modules;
            entries[0].module_count = BOOTCORE_MAX_MODULES + 1);
    CHANGED(BOOTCORE_STATUS_BAD_INDEX, menu.first = 1);
    CHANGED(BOOTCORE_STATUS_BAD_INDEX, menu.fallbacks = second; menu.fallback_count = 1);
    right();
    EXPECT(BOOTCORE_STATUS_NULL, bootcore_session_make(NULL, &machine, &menu));
    EXPECT(BOOTCORE_STATUS_NULL, bootcore_session_make(&session, NULL, &menu));
    EXPECT(BOOTCORE_STATUS_NULL, bootcore_session_make(&session, &machine, NULL));
}

/* A struct that keeps no session. */
static void try_none(void) {
    right();
    EXPECT(BOOTCORE_STATUS_NO_SESSION, START(0, SIZE));
    EXPECT(BOOTCORE_STATUS_NO_SESSION, START(0, 0));
    EXPECT(BOOTCORE_STATUS_BAD_MEMORY, START((uint64_t)1 << 32, SIZE));
    EXPECT(BOOTCORE_STATUS_NO_SESSION, PIECES(bytes, 1));
    EXPECT(BOOTCORE_STATUS_NO_SESSION, FAULT(SIZE));
    EXPECT(BOOTCORE_STATUS_NO_SESSION, OUTCOME());
    EXPECT(false, MISSING(SIZE));
    EXPECT(false, MISSING_AFTER(SIZE));
    bootcore_session_free(&session);
}

static void try_null(void) {
    const bootcore_memory whole = {0, memory, SIZE, 0}, none = {0, NULL, SIZE, 0};
    right();
    EXPECT(BOOTCORE_STATUS_NULL, bootcore_session_start(NULL, &whole));
    EXPECT(BOOTCORE_STATUS_NULL, bootcore_session_start(&session, NULL));
    EXPECT(BOOTCORE_STATUS_NULL, bootcore_session_start(&session, &none));
    EXPECT(BOOTCORE_STATUS_NULL, bootcore_session_pieces(NULL, &whole, &request, bytes, 1));
    EXPECT(BOOTCORE_STATUS_NULL, bootcore_session_pieces(&session, NULL, &request, bytes, 1));
    EXPECT(BOOTCORE_STATUS_NULL, bootcore_session_pieces(&session, &none, &request, bytes, 1));
    EXPECT(BOOTCORE_STATUS_NULL, bootcore_session_pieces(&session, &whole, NULL, bytes, 1));
    EXPECT(BOOTCORE_STATUS_NULL, bootcore_session_pieces(&session, &whole, &request, NULL, 1));
    EXPECT(BOOTCORE_STATUS_NULL, bootcore_session_fault(NULL, &whole, &request));
    EXPECT(BOOTCORE_STATUS_NULL, bootcore_session_fault(&session, NULL, &request));
    EXPECT(BOOTCORE_STATUS_NULL, bootcore_session_fault(&session, &none, &request));
    EXPECT(BOOTCORE_STATUS_NULL, bootcore_session_fault(&session, &whole, NULL));
    EXPECT(false, bootcore_session_missing(NULL, SIZE, &request));
    EXPECT(false, bootcore_session_missing(&session, SIZE, NULL));
    EXPECT(false, bootcore_session_missing_after(NULL, SIZE, &request));
    EXPECT(false, bootcore_session_missing_after(&session, SIZE, NULL));
    EXPECT(BOOTCORE_STATUS_NULL, bootcore_session_outcome(NULL, &outcome));
    EXPECT(BOOTCORE_STATUS_NULL, bootcore_session_outcome(&session, NULL));
    outcome.places = NULL;
    EXPECT(BOOTCORE_STATUS_NULL, OUTCOME());
    right();
    outcome.refusals = NULL;
    EXPECT(BOOTCORE_STATUS_NULL, OUTCOME());
    bootcore_session_free(NULL);
}

/* A pool below the memory that is given, and all that is told before the start. */
static void try_start(void) {
    right();
    machine.pool_base = 4096;
    machine.pool_length = POOL;
    EXPECT(BOOTCORE_STATUS_DONE, MAKE());
    EXPECT(BOOTCORE_STATUS_LOW_POOL, START(8192, SIZE - 8192));
    right();
    EXPECT(BOOTCORE_STATUS_DONE, MAKE());
    EXPECT(BOOTCORE_STATUS_WAITING, PIECES(bytes, 9));
    EXPECT(BOOTCORE_STATUS_WAITING, FAULT(SIZE));
    EXPECT(BOOTCORE_STATUS_WAITING, OUTCOME());
    EXPECT(false, MISSING(SIZE));
    EXPECT(BOOTCORE_STATUS_BAD_MEMORY, START(0, SIZE - 1));
    EXPECT(BOOTCORE_STATUS_BAD_MEMORY, START(4096, SIZE));
    EXPECT(BOOTCORE_STATUS_BAD_MEMORY, START((uint64_t)1 << 32, SIZE));
    EXPECT(BOOTCORE_STATUS_WAITING, START(0, SIZE));
    EXPECT(BOOTCORE_STATUS_WAITING, START(0, SIZE));
}

/* What is awaited, how pieces are told, and a fault of the only entry. */
static void try_refused(void) {
    EXPECT(true, MISSING(SIZE) && IS_REQUEST(0, BOOTCORE_PIECE + 9));
    EXPECT(false, MISSING_AFTER(SIZE));
    EXPECT(true, MISSING(BOOTCORE_PIECE + 8) && IS_REQUEST(0, BOOTCORE_PIECE));
    EXPECT(true, MISSING(0) && IS_REQUEST(0, BOOTCORE_PIECE));
    EXPECT(true, MISSING_AFTER(0) && IS_REQUEST(1, 9));
    EXPECT(BOOTCORE_STATUS_WAITING, PIECES(bytes, 8)); /* of another length */
    EXPECT(BOOTCORE_STATUS_WAITING, PIECES(NULL, 0));
    EXPECT(BOOTCORE_STATUS_WAITING, PIECES(bytes, BOOTCORE_PIECE - 1)); /* cut */
    request.piece = 1;
    EXPECT(BOOTCORE_STATUS_WAITING, PIECES(bytes, BOOTCORE_PIECE)); /* padded */
    EXPECT(true, MISSING(SIZE) && IS_REQUEST(0, BOOTCORE_PIECE + 9));
    EXPECT(BOOTCORE_STATUS_WAITING, PIECES(bytes, BOOTCORE_PIECE + 8)); /* the second one is */
    EXPECT(true, MISSING(SIZE) && IS_REQUEST(1, 9));
    request.piece = 0;
    EXPECT(BOOTCORE_STATUS_WAITING, FAULT(SIZE)); /* of a piece that came */
    request.piece = 1;
    EXPECT(BOOTCORE_STATUS_WAITING, OUTCOME());
    EXPECT(BOOTCORE_STATUS_BAD_MEMORY, FAULT(SIZE - 1));
    EXPECT(BOOTCORE_STATUS_FAILED, FAULT(SIZE));
    EXPECT(BOOTCORE_STATUS_FAILED, PIECES(bytes, 9));
    EXPECT(BOOTCORE_STATUS_FAILED, START(0, SIZE));
    EXPECT(false, MISSING(SIZE));
    EXPECT(BOOTCORE_STATUS_REFUSED, OUTCOME());
    EXPECT(true, outcome.refusal_count == 1 && refusals[0].entry == 0 && refusals[0].number == 2);
    outcome.refusals = NULL;
    outcome.refusal_room = 0;
    EXPECT(BOOTCORE_STATUS_REFUSED, OUTCOME());
    outcome.place_room = BOOTCORE_MAX_PLACES - 1;
    EXPECT(BOOTCORE_STATUS_SMALL_ROOM, OUTCOME());
}

/* An entry that can't be read, one that is none, and one that is handed over. */
static void try_done(void) {
    right();
    entries[0].kernel.length = BOOTCORE_UNREADABLE;
    entries[2].kernel.length = sizeof kernel;
    menu.entry_count = 3;
    menu.fallbacks = (const uint32_t[]){1, 2};
    menu.fallback_count = 2;
    EXPECT(BOOTCORE_STATUS_DONE, MAKE());
    EXPECT(BOOTCORE_STATUS_NEXT, START(0, SIZE));
    EXPECT(true, MISSING(SIZE) && request.entry == 1 && request.attempt == 1);
    request.entry = 9; /* of a request neither its entry nor its length is looked at */
    request.length = 9;
    EXPECT(BOOTCORE_STATUS_NEXT, PIECES(bytes, BOOTCORE_PIECE + 9));
    EXPECT(true, MISSING_AFTER(SIZE) && IS_REQUEST(0, sizeof kernel)); /* of the attempt before */
    EXPECT(true, request.entry == 2 && request.attempt == 2);
    EXPECT(false, MISSING_AFTER(SIZE));
    EXPECT(true, MISSING(SIZE) && request.entry == 2 && request.attempt == 2);
    EXPECT(BOOTCORE_STATUS_DONE, PIECES(kernel, sizeof kernel));
    EXPECT(BOOTCORE_STATUS_DONE, START(0, SIZE));
    EXPECT(BOOTCORE_STATUS_DONE, PIECES(bytes, 9));
    EXPECT(BOOTCORE_STATUS_DONE, FAULT(SIZE));
    EXPECT(BOOTCORE_STATUS_DONE, OUTCOME());
    EXPECT(true, outcome.handoff.entry == 2 && outcome.refusal_count == 2);
    EXPECT(true, refusals[0].number == 1 && refusals[1].entry == 1 && refusals[1].number == 4);
}

int main(void) {
    try_none();
    try_make();
    try_null();
    try_start();
    try_refused();
    try_done();
    bootcore_session_free(&session);
    EXPECT(true, session.kept == NULL);
    try_none();
    printf("%d tried, %d wrong\n", tried, wrong);
    return wrong != 0;
}
