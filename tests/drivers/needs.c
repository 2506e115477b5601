/*
 * What calls need: of stack, and with libbootcore_freestanding.a of its arena. tests/drivers/needs runs it on each case.
 *
 *     needs <CASE
 *
 * CASE is as case.h says. Prints `stack CALL BYTES` for each call, and with -DARENA `arena CALL BYTES` too, of the whole of a session
 * or a digest as of one call. Each call runs on a stack of its own, which is painted before; a byte that is not as it was painted was
 * needed, and all above it. An arena of just the length that a call needed must be enough for the same answer, and none is not.
 */
#define _XOPEN_SOURCE 700
#define _DEFAULT_SOURCE
#include "case.h"
#ifdef ARENA
#include "bootcore_arena.h"
#endif

#include <inttypes.h>
#include <sys/mman.h>
#include <ucontext.h>

enum { STACK = 1 << 19, PAINT = 0xC3, ARENA_LENGTH = 1 << 26, MOST_STEPS = 2048, MOST_OWN = 1 << 20, CALLS = 64 };

static uint8_t *stack, *arena, *memory, *image;
static size_t image_length, last_peak;
static bootcore_memory whole;
static bootcore_place places[BOOTCORE_MAX_PLACES];
static bootcore_refusal refusals[BOOTCORE_MAX_REFUSALS];
static bootcore_outcome outcome;
static bootcore_step steps[MOST_STEPS];
static bootcore_layout layout;
static bootcore_session session;
static bootcore_request request;
static bootcore_digest digest;
static bootcore_file_range range;
static bootcore_digests digests;
static bootcore_part_digest part_digests[BOOTCORE_MAX_PLACES];
static const bootcore_entry *entry;
static bootcore_bytes files[BOOTCORE_MAX_MODULES + 1];
static size_t file_count;

/* ---- calls on a painted stack */

static struct need {
    const char *name;
    size_t stack, arena;
} needs[CALLS];

static struct need *need_of(const char *name) {
    size_t i;
    for (i = 0; needs[i].name && strcmp(needs[i].name, name); i++) {
    }
    needs[i].name = name;
    return &needs[i];
}

static uint32_t (*called)(void);
static uint32_t answer;
static uint8_t *began; /* the stack pointer before the call */
static ucontext_t here, there;

static void call_it(void) {
    volatile uint8_t mark = 0;
    began = (uint8_t *)(uintptr_t)&mark;
    answer = called();
}

static uint32_t on_stack(const char *name, uint32_t (*call)(void)) {
    struct need *need;
    uint8_t *deepest;
    memset(stack, PAINT, STACK);
    called = call;
    if (getcontext(&there)) {
        stop("no context");
    }
    there.uc_stack.ss_sp = stack;
    there.uc_stack.ss_size = STACK;
    there.uc_link = &here;
    makecontext(&there, call_it, 0);
    if (swapcontext(&here, &there)) {
        stop("no context");
    }
    for (deepest = stack; *deepest == PAINT;) {
        deepest++;
    }
    if (deepest == stack) {
        stop("a call needs more stack than there is here");
    }
    need = need_of(name);
    if (need->stack < (size_t)(began - deepest)) {
        need->stack = (size_t)(began - deepest);
    }
    return answer;
}

/* ---- the calls */

static void set_outcome(void) {
    memset(&outcome, 0, sizeof outcome);
    outcome.places = places;
    outcome.place_room = BOOTCORE_MAX_PLACES;
    outcome.refusals = refusals;
    outcome.refusal_room = BOOTCORE_MAX_REFUSALS;
}

static uint32_t load(void) { return bootcore_load(&whole, &machine, entry, &outcome); }
static uint32_t prepare(void) { return bootcore_prepare(&machine, entry, &outcome); }
static uint32_t plan(void) { return bootcore_plan(&machine, entry, &layout); }
static uint32_t carry_out(void) { return bootcore_carry_out(&layout, files, file_count, &whole, 1); }
static uint32_t boot(void) { return bootcore_boot(&whole, &machine, &menu, &outcome); }
static uint32_t session_make(void) { return bootcore_session_make(&session, &machine, &menu); }
static uint32_t session_start(void) { return bootcore_session_start(&session, &whole); }
static uint32_t session_missing(void) { return bootcore_session_missing(&session, 100000, &request); }
static uint32_t session_missing_after(void) { return bootcore_session_missing_after(&session, 100000, &request); }
static uint32_t session_fault(void) { return bootcore_session_fault(&session, &whole, &request); }
static uint32_t session_outcome(void) { return bootcore_session_outcome(&session, &outcome); }
static uint32_t session_free(void) {
    bootcore_session_free(&session);
    return 0;
}
static uint32_t walk(void) {
    bootcore_seen seen;
    bootcore_refusal fault;
    return bootcore_walk(image, image_length, &seen, &fault);
}
static uint32_t walk_all(void) {
    static bootcore_seen seen;
    static bootcore_refusal fault;
    static bootcore_seen_part parts[BOOTCORE_MAX_PLACES];
    static bootcore_seen_module modules[BOOTCORE_MAX_MODULES];
    static bootcore_region runs[512];
    static uint8_t text[0x80000];
    static bootcore_seen_firmware told;
    static const bootcore_seen_arrays arrays = {parts, BOOTCORE_MAX_PLACES, modules, BOOTCORE_MAX_MODULES, runs, 512, text, sizeof text,
                                                &told, {0, 0, 0}};
    return bootcore_walk_all(image, image_length, &seen, &arrays, &fault);
}
static uint32_t image_head(void) { return (uint32_t)bootcore_image_head(&outcome.handoff, places, image, image_length); }
static uint32_t image_head_read(void) {
    static bootcore_handoff handoff;
    static bootcore_place read[BOOTCORE_MAX_PLACES];
    bootcore_refusal fault;
    return bootcore_image_head_read(image, image_length, &handoff, read, BOOTCORE_MAX_PLACES, &fault);
}
static uint32_t unplaced(void) {
    bootcore_unplaced_part part;
    return bootcore_unplaced(&machine, entry, &part, &refusals[0]);
}
static uint32_t segments(void) {
    static bootcore_segment told[6];
    bootcore_segments(&outcome.handoff.registers, told);
    return 0;
}
static uint32_t describe(void) {
    static char line[512];
    return (uint32_t)bootcore_refusal_line(&refusals[0], line, sizeof line) + (bootcore_refusal_text(refusals[0].number) != NULL) +
           bootcore_version();
}

static bootcore_bytes file_of(uint32_t index, uint32_t at) {
    const bootcore_entry *of = &menu.entries[index];
    if (at == 0) {
        return of->kernel;
    }
    return of->protocol == BOOTCORE_PROTOCOL_MULTIBOOT2 ? of->modules[at - 1].file : of->initrd;
}

static uint32_t session_pieces(void) {
    bootcore_bytes of = file_of(request.entry, request.file);
    return bootcore_session_pieces(&session, &whole, &request,
                                   (const uint8_t *)of.bytes + (size_t)request.piece * BOOTCORE_PIECE, request.length);
}

/* A whole session; the first entry has a fault at its last file, if another one may follow. */
static uint32_t session_all(void) {
    uint32_t status = on_stack("session_make", session_make);
    if (status == BOOTCORE_STATUS_DONE) {
        status = on_stack("session_start", session_start);
    }
    while (status == BOOTCORE_STATUS_WAITING || status == BOOTCORE_STATUS_NEXT) {
        if (!on_stack("session_missing", session_missing)) {
            break;
        }
        (void)on_stack("session_missing_after", session_missing_after);
        status = request.attempt == 0 && menu.fallback_count ? on_stack("session_fault", session_fault)
                                                             : on_stack("session_pieces", session_pieces);
    }
    set_outcome();
    if (session.kept) {
        status = on_stack("session_outcome", session_outcome);
    }
    (void)on_stack("session_free", session_free);
    return status;
}

static uint32_t digest_make(void) { return bootcore_digest_make(&digest, &machine, entry, &refusals[0]); }
static uint32_t digest_wanted(void) { return bootcore_digest_wanted(&digest, &range); }
static uint32_t digest_feed(void) {
    return bootcore_digest_feed(&digest, (const uint8_t *)files[range.file].bytes + range.offset, range.length);
}
static uint32_t digest_told(void) { return bootcore_digest_told(&digest, &digests, part_digests, BOOTCORE_MAX_PLACES); }
static uint32_t digest_free(void) {
    bootcore_digest_free(&digest);
    return 0;
}
static uint32_t digest_entry(void) {
    return bootcore_digest_entry(&machine, entry, &digests, part_digests, BOOTCORE_MAX_PLACES, &refusals[0]);
}

/* A whole digest of the entry. */
static uint32_t digest_all(void) {
    uint32_t status = on_stack("digest_make", digest_make);
    if (status == BOOTCORE_STATUS_DONE) {
        while (on_stack("digest_wanted", digest_wanted)) {
            (void)on_stack("digest_feed", digest_feed);
        }
        status = on_stack("digest_told", digest_told);
    }
    (void)on_stack("digest_free", digest_free);
    return status;
}

/* ---- and their arena */

static uint32_t ask(const char *name, uint32_t (*call)(void)) {
    return call == session_all || call == digest_all ? call() : on_stack(name, call);
}

static uint32_t measure(const char *name, uint32_t (*call)(void)) {
    uint32_t status;
#ifdef ARENA
    struct need *need = need_of(name);
    size_t peak;
    bootcore_arena(arena, ARENA_LENGTH);
    status = ask(name, call);
    peak = bootcore_arena_peak();
    if (need->arena < peak) {
        need->arena = peak;
    }
    last_peak = peak;
    bootcore_arena(arena, peak);
    if (ask(name, call) != status || bootcore_arena_peak() > peak) {
        printf("%s wants more than its peak of %zu bytes\n", name, peak);
    }
    bootcore_arena(arena, 0);
    if (peak && ask(name, call) != BOOTCORE_STATUS_NO_MEMORY) {
        printf("%s does without an arena\n", name);
    }
    bootcore_arena(arena, ARENA_LENGTH);
#endif
    status = ask(name, call);
    return status;
}

/* What the last walk needed of an arena besides twice the length of the image, whose parts it copies. */
static void count_beside(void) {
    struct need *need = need_of("beside_image");
    if (last_peak > 2 * image_length && need->arena < last_peak - 2 * image_length) {
        need->arena = last_peak - 2 * image_length;
    }
}

/* What is handed over, as an image in memory. */
static void make_image(void) {
    size_t head = bootcore_image_head(&outcome.handoff, places, NULL, 0), i;
    free(image);
    image_length = head;
    for (i = 0; i < outcome.handoff.place_count; i++) {
        image_length += places[i].length;
    }
    image = malloc(image_length);
    if (!image) {
        stop("no memory");
    }
    (void)measure("image_head", image_head);
    for (i = 0; i < outcome.handoff.place_count; i++) {
        memcpy(image + head, memory + places[i].address, places[i].length);
        head += places[i].length;
    }
}

static void measure_entry(void) {
    uint32_t status, i;
    file_count = 0;
    for (i = 0; i < 1 + (entry->protocol == BOOTCORE_PROTOCOL_MULTIBOOT2 ? entry->module_count : entry->initrd.bytes != NULL); i++) {
        files[file_count++] = file_of((uint32_t)(entry - menu.entries), i);
    }
    memset(&layout, 0, sizeof layout);
    layout.places = places;
    layout.place_room = BOOTCORE_MAX_PLACES;
    layout.steps = steps;
    layout.step_room = MOST_STEPS;
    layout.own = malloc(MOST_OWN);
    layout.own_room = MOST_OWN;
    set_outcome();
    (void)measure("prepare", prepare);
    (void)measure("unplaced", unplaced);
    status = measure("plan", plan);
    if (status == BOOTCORE_STATUS_DONE && measure("carry_out", carry_out) != BOOTCORE_STATUS_DONE) {
        puts("a plan is not carried out");
    }
    if (measure("digest_entry", digest_entry) != status || measure("digest", digest_all) != status) {
        puts("digests end otherwise than a plan");
    }
    set_outcome();
    if (measure("load", load) != status) {
        puts("a load ends otherwise than a plan");
    }
    if (status == BOOTCORE_STATUS_DONE) {
        make_image();
        (void)measure("segments", segments);
        if (measure("image_head_read", image_head_read) != BOOTCORE_STATUS_DONE) {
            puts("an image's head is not read");
        }
        if (measure("walk", walk) != BOOTCORE_STATUS_DONE) {
            puts("an image is not walked");
        }
        count_beside();
        if (measure("walk_all", walk_all) != BOOTCORE_STATUS_DONE) {
            puts("all of an image is not walked");
        }
        count_beside();
    } else {
        (void)measure("describe", describe);
    }
    free(layout.own);
}

int main(void) {
    size_t i;
    read_case();
    stack = mmap(NULL, STACK, PROT_READ | PROT_WRITE, MAP_PRIVATE | MAP_ANONYMOUS, -1, 0);
    arena = mmap(NULL, ARENA_LENGTH, PROT_READ | PROT_WRITE, MAP_PRIVATE | MAP_ANONYMOUS | MAP_NORESERVE, -1, 0);
    memory = mmap(NULL, machine.size, PROT_READ | PROT_WRITE, MAP_PRIVATE | MAP_ANONYMOUS | MAP_NORESERVE, -1, 0);
    if (stack == MAP_FAILED || arena == MAP_FAILED || memory == MAP_FAILED) {
        stop("no memory");
    }
    whole.bytes = memory;
    whole.length = machine.size;
    for (i = 0; i < menu.entry_count; i++) {
        if (menu.entries[i].kernel.length != BOOTCORE_UNREADABLE) {
            entry = &menu.entries[i];
            measure_entry();
        }
    }
    set_outcome();
    (void)measure("boot", boot);
    (void)measure("session", session_all);
    for (i = 0; needs[i].name; i++) {
        if (needs[i].stack) {
            printf("stack %s %zu\n", needs[i].name, needs[i].stack);
        }
#ifdef ARENA
        printf("arena %s %zu\n", needs[i].name, needs[i].arena);
#endif
    }
    return 0;
}
