/*
 * A case by way of C. tests/drivers/cases runs it on each.
 *
 *     cases load ENTRY IMAGE <CASE       loads this entry by bootcore_load
 *     cases boot MOST IMAGE <CASE        boots the menu by bootcore_boot
 *
 * CASE is as case.h says. It prints `refused ENTRY NUMBER FIRST SECOND` for each entry that is refused, and then `done ENTRY`,
 * `no entry left` or `status NUMBER`. If an entry is handed over, its image is written, and walked by bootcore_walk_all. What goes
 * another way than it should is one line more:
 * - a walk that does not see the handoff, or not just what firmware tells and the entry's protocol hands on;
 * - segment registers that are not the descriptors that their selectors pick, but for the accessed bit;
 * - of a load: a preparation or a plan that tells anything else; a plan that is carried out over one mapping, over frames in reversed
 *   order, or by pread from files, and does not leave all of memory as the load does;
 * - of a boot: a session that is told its pieces backwards, and leaves other memory or tells another outcome;
 * - digests of what is handed over, told at once or fed in pieces of odd lengths, that are not those of the image; or another refusal.
 *
 * Before that, if memory is small, the same call is made with each of its requests to malloc and realloc refused in turn, and all
 * after it; of a boot the first MOST. The answer must be BOOTCORE_STATUS_NO_MEMORY, and memory as before, of a boot outside the pool. So
 * it is with a session of the menu, the walk of an image, a preparation, a plan and digests. The linker is told to wrap the two. With -DARENA, for
 * libbootcore_freestanding.a, no request is refused.
 */
#define _XOPEN_SOURCE 700
#include "case.h"
#include "sha256.h"
#include "told.h"
#ifdef ARENA
#include "bootcore_arena.h"
#endif

#include <inttypes.h>
#include <unistd.h>

enum { SMALL = 0x400000, FRAME = 4096, MOST_STEPS = 2048 };

static uint8_t *memory, *other, *frames;
static bootcore_place places[BOOTCORE_MAX_PLACES];
static bootcore_refusal refusals[BOOTCORE_MAX_REFUSALS];
static bootcore_outcome outcome;

/* ---- requests that are refused */

static size_t granted = SIZE_MAX; /* how many still are not */

#ifndef ARENA
void *__real_malloc(size_t size);
void *__wrap_malloc(size_t size);
void *__real_realloc(void *old, size_t size);
void *__wrap_realloc(void *old, size_t size);

static int is_granted(void) {
    if (granted == 0) {
        return 0;
    }
    granted--;
    return 1;
}

void *__wrap_malloc(size_t size) {
    return is_granted() ? __real_malloc(size) : NULL;
}

void *__wrap_realloc(void *old, size_t size) {
    return is_granted() ? __real_realloc(old, size) : NULL;
}
#endif

/* ---- the call */

static bootcore_outcome empty_outcome(void) {
    bootcore_outcome empty;
    memset(&empty, 0, sizeof empty);
    empty.places = places;
    empty.place_room = BOOTCORE_MAX_PLACES;
    empty.refusals = refusals;
    empty.refusal_room = BOOTCORE_MAX_REFUSALS;
    return empty;
}

/* Makes the call over memory that was just filled, with so many requests granted: a load of this entry, or a boot if it is null. */
static uint32_t call(const bootcore_entry *entry, size_t grants) {
    bootcore_memory whole = {0, NULL, 0, 0};
    uint32_t status;
    whole.bytes = memory;
    whole.length = numbers[SIZE];
    memset(memory, (int)numbers[FILL], numbers[SIZE]);
    outcome = empty_outcome();
    granted = grants;
    status = entry ? bootcore_load(&whole, &machine, entry, &outcome) : bootcore_boot(&whole, &machine, &menu, &outcome);
    granted = SIZE_MAX;
    return status;
}

/* Each byte of a range is the fill: the first one is, and each is as the one before it. */
static int is_fill(uint64_t start, uint64_t end) {
    return start == end || (memory[start] == numbers[FILL] && !memcmp(memory + start, memory + start + 1, end - start - 1));
}

static int is_as_before(int is_load) {
    uint64_t pool = numbers[POOL_BASE], end = pool + numbers[POOL_LENGTH];
    if (is_load || numbers[POOL_LENGTH] == 0) {
        return is_fill(0, numbers[SIZE]);
    }
    return is_fill(0, pool) && is_fill(end, numbers[SIZE]);
}

/* ---- the image */

static void write_image(const char *path) {
    static uint8_t head[BOOTCORE_MAX_IMAGE_HEAD];
    size_t length = bootcore_image_head(&outcome.handoff, places, NULL, 0);
    FILE *image = fopen(path, "wb");
    uint32_t i;
    if (!image || length > sizeof head || bootcore_image_head(&outcome.handoff, places, head, length - 1) != length || head[0] ||
        bootcore_image_head(&outcome.handoff, places, head, length) != length) {
        stop("the image's head is wrong");
    }
    fwrite(head, 1, length, image);
    memset(head, 0, sizeof head);
    for (i = 0; i < outcome.handoff.place_count; i++) {
        fwrite(memory + places[i].address, 1, places[i].length, image);
    }
    if (fclose(image)) {
        stop("the image can't be written");
    }
}

/* What a walk tells, but for the text, which lies behind it: room for all that an entry may have. */
static struct {
    bootcore_seen seen;
    bootcore_seen_part parts[BOOTCORE_MAX_PLACES];
    bootcore_seen_module modules[BOOTCORE_MAX_MODULES];
    bootcore_region runs[512];
    bootcore_seen_firmware firmware;
} told, before;
static uint8_t text[0x80000];

/* Walks an image, with so many requests granted. */
static uint32_t walk(const uint8_t *image, size_t length, size_t grants) {
    const bootcore_seen_arrays arrays = {told.parts, BOOTCORE_MAX_PLACES, told.modules, BOOTCORE_MAX_MODULES,
                                         told.runs,  512,                 text,         sizeof text,
                                         &told.firmware, {0, 0, 0}};
    bootcore_refusal fault;
    uint32_t status;
    memset(&told, 0xA5, sizeof told);
    text[0] = 0xA5;
    granted = grants;
    status = bootcore_walk_all(image, length, &told.seen, &arrays, &fault);
    granted = SIZE_MAX;
    return status;
}

/* Whether the parts of the kernel that are seen are those that were handed over, and as many modules. */
static int are_seen(void) {
    const bootcore_entry *entry = &menu.entries[outcome.handoff.entry];
    uint64_t parts = 0;
    uint32_t i;
    for (i = 0; i < outcome.handoff.place_count; i++) {
        if (places[i].role != BOOTCORE_ROLE_KERNEL) {
            continue;
        }
        if (parts >= told.seen.kernel_part_count || told.parts[parts].address != places[i].address ||
            told.parts[parts].length != places[i].length) {
            return 0;
        }
        parts++;
    }
    return parts > 0 && parts == told.seen.kernel_part_count &&
           told.seen.module_count == (entry->protocol == BOOTCORE_PROTOCOL_MULTIBOOT2 ? entry->module_count : 0);
}

/* Whether a walk sees the handoff in its image, and tells nothing if a request was refused. */
static int is_walked(const char *path) {
    FILE *image = fopen(path, "rb");
    uint8_t *whole;
    size_t length, grants;
    long end;
    int is_told;
    if (!image || fseek(image, 0, SEEK_END) || (end = ftell(image)) < 0) {
        return 0;
    }
    length = (size_t)end;
    rewind(image);
    whole = malloc(length);
    if (!whole || fread(whole, 1, length, image) != length || fclose(image)) {
        return 0;
    }
    memset(&before, 0xA5, sizeof before);
    for (grants = 0; length <= 0x40000 && walk(whole, length, grants) == BOOTCORE_STATUS_NO_MEMORY; grants++) {
        if (memcmp(&told, &before, sizeof told) || text[0] != 0xA5) {
            return 0;
        }
    }
    is_told = walk(whole, length, SIZE_MAX) == BOOTCORE_STATUS_DONE && told.seen.protocol == outcome.handoff.protocol &&
              told.seen.entry_address == outcome.handoff.registers.rip && are_seen() &&
              is_firmware_seen(machine.firmware, &told.seen, &told.firmware, text);
    free(whole);
    return is_told;
}

/* ---- segment registers */

/* Whether a segment is the descriptor that its selector picks from the table in memory, which a processor would mark as accessed. */
static int is_descriptor(const bootcore_segment *segment) {
    const bootcore_registers *registers = &outcome.handoff.registers;
    uint64_t descriptor = 0, limit;
    size_t i;
    if (segment->selector + 7u > registers->gdt_limit) {
        return 0;
    }
    for (i = 8; i > 0; i--) {
        descriptor = descriptor << 8 | memory[registers->gdt_base + segment->selector + i - 1];
    }
    limit = (descriptor & 0xFFFF) | (descriptor >> 32 & 0xF0000);
    limit = segment->g ? limit << 12 | 0xFFF : limit;
    return segment->limit == limit && segment->base == ((descriptor >> 16 & 0xFFFFFF) | (descriptor >> 56 << 24)) &&
           segment->type == ((descriptor >> 40 & 15) | 1) && segment->s == (descriptor >> 44 & 1) &&
           segment->dpl == (descriptor >> 45 & 3) && segment->p == (descriptor >> 47 & 1) && segment->avl == (descriptor >> 52 & 1) &&
           segment->l == (descriptor >> 53 & 1) && segment->db == (descriptor >> 54 & 1) && segment->g == (descriptor >> 55 & 1);
}

static int are_segments(void) {
    const bootcore_registers *r = &outcome.handoff.registers;
    const uint64_t selectors[6] = {r->cs, r->ds, r->es, r->fs, r->gs, r->ss};
    bootcore_segment segments[6];
    size_t i;
    bootcore_segments(NULL, segments);
    bootcore_segments(r, NULL);
    bootcore_segments(r, segments);
    for (i = 0; i < 6; i++) {
        int is_right = outcome.handoff.protocol == BOOTCORE_PROTOCOL_MULTIBOOT2
                           ? segments[i].base == 0 && segments[i].limit == UINT32_MAX && segments[i].db == 1 && segments[i].l == 0
                           : is_descriptor(&segments[i]);
        if (!is_right || segments[i].selector != selectors[i]) {
            return 0;
        }
    }
    return 1;
}

/* ---- plans of what is loaded */

static bootcore_step steps[MOST_STEPS];
static bootcore_place planned_places[BOOTCORE_MAX_PLACES];
static bootcore_bytes planned_files[BOOTCORE_MAX_MODULES + 1];
static size_t planned_file_count;

/* The entry as a plan takes it: of the files beside the kernel no byte can be read. */
static bootcore_entry without_bytes(const bootcore_entry *entry) {
    static bootcore_module modules[BOOTCORE_MAX_MODULES];
    bootcore_entry bare = *entry;
    size_t i;
    planned_files[0] = entry->kernel;
    planned_file_count = 1;
    if (entry->protocol != BOOTCORE_PROTOCOL_MULTIBOOT2) {
        if (entry->initrd.bytes) {
            planned_files[planned_file_count++] = entry->initrd;
        }
        bare.initrd.bytes = entry->initrd.length ? NULL : entry->initrd.bytes;
        return bare;
    }
    for (i = 0; i < entry->module_count; i++) {
        planned_files[planned_file_count++] = entry->modules[i].file;
        modules[i].file.bytes = NULL;
        modules[i].file.length = entry->modules[i].file.length;
        modules[i].line = entry->modules[i].line;
    }
    bare.modules = entry->module_count ? modules : NULL;
    return bare;
}

static bootcore_layout empty_layout(void) {
    bootcore_layout empty;
    memset(&empty, 0, sizeof empty);
    empty.places = planned_places;
    empty.place_room = BOOTCORE_MAX_PLACES;
    return empty;
}

/* The entry's plan with just the room that it asks for, and a status. */
static bootcore_layout plan(const bootcore_entry *entry, uint32_t *status) {
    bootcore_layout layout = empty_layout(), untold = empty_layout();
    layout.place_room = untold.place_room = 0;
    *status = bootcore_plan(&machine, entry, &layout);
    if (*status == BOOTCORE_STATUS_SMALL_ROOM) {
        untold.place_count = layout.place_count;
        untold.step_count = layout.step_count;
        untold.own_length = layout.own_length;
        if (memcmp(&layout, &untold, sizeof layout) || layout.step_count > MOST_STEPS) {
            *status = UINT32_MAX;
            return layout;
        }
        layout.place_room = layout.place_count;
        layout.steps = steps;
        layout.step_room = layout.step_count;
        layout.own = malloc(layout.own_length + !layout.own_length);
        layout.own_room = layout.own_length;
        *status = bootcore_plan(&machine, entry, &layout);
    }
    return layout;
}

/* Whether a carried out plan left in `other` what the load left in memory. */
static int is_loaded(const char *how) {
    if (memcmp(memory, other, numbers[SIZE])) {
        printf("a plan that is carried out %s leaves other memory than a load\n", how);
        return 0;
    }
    return 1;
}

static void fill_other(void) {
    memset(other, (int)numbers[FILL], numbers[SIZE]);
}

/* Over one mapping; over frames that lie in reversed order, told in an order of their own. */
static void carry_out(const bootcore_layout *layout) {
    size_t count = numbers[SIZE] / FRAME, i;
    bootcore_memory *pieces = calloc(count, sizeof *pieces);
    bootcore_memory whole = {0, NULL, 0, 0};
    if (!pieces) {
        stop("no memory");
    }
    whole.bytes = other;
    whole.length = numbers[SIZE];
    fill_other();
    if (bootcore_carry_out(layout, planned_files, planned_file_count, &whole, 1) != BOOTCORE_STATUS_DONE) {
        puts("a plan is not carried out over one mapping");
    }
    is_loaded("over one mapping");
    memset(frames, (int)numbers[FILL], numbers[SIZE]);
    for (i = 0; i < count; i++) {
        size_t frame = i * 2 < count ? i * 2 : (i * 2 - count) | 1; /* the even ones, then the odd ones */
        frame = frame < count ? frame : i;
        pieces[i].address = frame * FRAME;
        pieces[i].bytes = frames + (count - 1 - frame) * FRAME;
        pieces[i].length = FRAME;
    }
    if (count % 2 == 0 && bootcore_carry_out(layout, planned_files, planned_file_count, pieces, count) != BOOTCORE_STATUS_DONE) {
        puts("a plan is not carried out over frames");
    }
    for (i = 0; i < count; i++) {
        memcpy(other + i * FRAME, frames + (count - 1 - i) * FRAME, FRAME);
    }
    is_loaded("over frames");
    free(pieces);
}

/* Step after step, from the last one on, each byte of a file by pread. */
static void carry_out_by_pread(const bootcore_layout *layout) {
    FILE *opened[BOOTCORE_MAX_MODULES + 1];
    size_t i;
    for (i = 0; i < planned_file_count; i++) {
        opened[i] = tmpfile();
        if (!opened[i] || fwrite(planned_files[i].bytes, 1, planned_files[i].length, opened[i]) != planned_files[i].length ||
            fflush(opened[i])) {
            stop("a file can't be written");
        }
    }
    fill_other();
    for (i = layout->step_count; i > 0; i--) {
        const bootcore_step *step = &layout->steps[i - 1];
        if (step->source == BOOTCORE_SOURCE_FILE) {
            if (pread(fileno(opened[step->file]), other + step->address, step->length, (off_t)step->offset) != (ssize_t)step->length) {
                puts("a step wants bytes that a file does not have");
            }
        } else if (step->source == BOOTCORE_SOURCE_LAYOUT) {
            memcpy(other + step->address, layout->own + step->offset, step->length);
        } else {
            memset(other + step->address, 0, step->length);
        }
    }
    is_loaded("by pread");
    for (i = 0; i < planned_file_count; i++) {
        fclose(opened[i]);
    }
}

/* The steps ascend, don't meet, and together are the places. */
static int are_the_parts(const bootcore_layout *layout) {
    size_t place = 0, i;
    uint64_t at = 0;
    for (i = 0; i < layout->step_count; i++) {
        const bootcore_step *step = &layout->steps[i];
        while (place < layout->handoff.place_count && at == layout->places[place].length) {
            place++;
            at = 0;
        }
        if (place == layout->handoff.place_count || step->length == 0 || step->address != layout->places[place].address + at ||
            step->length > layout->places[place].length - at) {
            return 0;
        }
        at += step->length;
    }
    while (place < layout->handoff.place_count && at == layout->places[place].length) {
        place++;
        at = 0;
    }
    return place == layout->handoff.place_count;
}

/* Compares a load that ended so with the preparation and the plan of its entry, of which only the lengths are given. */
static void compare_plan(const bootcore_entry *entry, uint32_t status) {
    bootcore_entry bare = without_bytes(entry);
    bootcore_outcome loaded = outcome, prepared = empty_outcome();
    bootcore_refusal refusal = refusals[0];
    static bootcore_place loaded_places[BOOTCORE_MAX_PLACES];
    bootcore_layout layout;
    uint32_t came;
    size_t grants;
    memcpy(loaded_places, places, sizeof places);
    for (grants = numbers[SIZE] <= SMALL ? 0 : SIZE_MAX;; grants++) {
        bootcore_outcome untold_outcome = empty_outcome();
        granted = grants;
        came = bootcore_prepare(&machine, &bare, &prepared);
        granted = SIZE_MAX;
        if (came != BOOTCORE_STATUS_NO_MEMORY || grants == SIZE_MAX) {
            break;
        }
        if (memcmp(&prepared, &untold_outcome, sizeof prepared)) {
            puts("a preparation tells something, though memory ran out");
        }
    }
    if (came != status || memcmp(&prepared, &loaded, sizeof loaded) || memcmp(loaded_places, places, sizeof places) ||
        memcmp(&refusal, refusals, sizeof refusal)) {
        puts("a preparation tells otherwise");
    }
    for (grants = 0; numbers[SIZE] <= SMALL; grants++) {
        bootcore_layout untold = empty_layout();
        granted = grants;
        layout = empty_layout();
        layout.step_count = layout.own_length = 9; /* as an older plan has it */
        came = bootcore_plan(&machine, &bare, &layout);
        granted = SIZE_MAX;
        if (came != BOOTCORE_STATUS_NO_MEMORY) {
            break;
        }
        if (memcmp(&layout, &untold, sizeof layout)) {
            puts("a plan tells something, though memory ran out");
        }
    }
    layout = plan(&bare, &came);
    if (came != status) {
        printf("a plan ends with the status %" PRIu32 "\n", came);
    } else if (came == BOOTCORE_STATUS_REFUSED) {
        if (memcmp(&layout.refusal, &refusal, sizeof refusal)) {
            puts("a plan has another refusal");
        }
    } else {
        if (memcmp(&layout.handoff, &loaded.handoff, sizeof loaded.handoff) ||
            memcmp(planned_places, loaded_places, loaded.handoff.place_count * sizeof *places)) {
            puts("a plan tells another handoff");
        }
        if (!are_the_parts(&layout)) {
            puts("the steps are not the parts");
        }
        carry_out(&layout);
        carry_out_by_pread(&layout);
        free(layout.own);
    }
}

/* ---- a session of what is booted */

static bootcore_bytes file_of(const bootcore_entry *entry, uint64_t index) {
    if (index == 0) {
        return entry->kernel;
    }
    return entry->protocol == BOOTCORE_PROTOCOL_MULTIBOOT2 ? entry->modules[index - 1].file : entry->initrd;
}

/* Tells a session its pieces, the last run of what is missing first; each run is one of at most so many bytes. */
static uint32_t tell_pieces(bootcore_session *session, const bootcore_memory *whole, size_t most) {
    uint32_t status = bootcore_session_start(session, whole);
    while (status == BOOTCORE_STATUS_WAITING || status == BOOTCORE_STATUS_NEXT) {
        const void *kept = session->kept;
        bootcore_request request, next;
        bootcore_bytes of;
        if (!bootcore_session_missing(session, most, &request)) {
            puts("a session waits for nothing");
            return status;
        }
        for (next = request; bootcore_session_missing_after(session, most, &next); request = next) {
            if (next.length == 0 || (next.length > most && next.length > BOOTCORE_PIECE)) {
                puts("a run has another length than it may");
            }
        }
        if (session->kept != kept) {
            puts("a session is another after it was asked");
        }
        of = file_of(&menu.entries[request.entry], request.file);
        status = bootcore_session_pieces(session, whole, &request,
                                         (const uint8_t *)of.bytes + (size_t)request.piece * BOOTCORE_PIECE, request.length);
    }
    return status;
}

/* Tells a session pieces with so many requests granted. Whether it has no memory then, which its outcome must tell, and no more. */
static int lacks_memory(size_t grants) {
    bootcore_outcome ended = empty_outcome(), untold_outcome = empty_outcome();
    bootcore_session session = {NULL};
    bootcore_memory whole = {0, NULL, 0, 0};
    uint32_t status;
    whole.bytes = memory;
    whole.length = numbers[SIZE];
    memset(memory, (int)numbers[FILL], numbers[SIZE]);
    granted = grants;
    status = bootcore_session_make(&session, &machine, &menu);
    if (status != BOOTCORE_STATUS_DONE) {
        granted = SIZE_MAX;
        if (status != BOOTCORE_STATUS_NO_MEMORY || session.kept) {
            printf("no session is made, and the status is %" PRIu32 "\n", status);
        }
        return 1;
    }
    status = tell_pieces(&session, &whole, 0);
    granted = SIZE_MAX;
    if (bootcore_session_outcome(&session, &ended) != BOOTCORE_STATUS_NO_MEMORY) {
        bootcore_session_free(&session);
        return 0;
    }
    if (status != BOOTCORE_STATUS_FAILED || memcmp(&ended, &untold_outcome, sizeof ended)) {
        puts("a session tells something, though memory ran out");
    }
    bootcore_session_free(&session);
    return 1;
}

/* Compares a boot that ended so with a session that is told pieces in another order. */
static void compare_session(uint32_t status) {
    static bootcore_place booted_places[BOOTCORE_MAX_PLACES];
    static bootcore_refusal booted_refusals[BOOTCORE_MAX_REFUSALS];
    bootcore_outcome booted = outcome, ended;
    bootcore_session session = {NULL};
    bootcore_memory whole = {0, NULL, 0, 0};
    size_t most;
    memcpy(booted_places, places, sizeof places);
    memcpy(booted_refusals, refusals, sizeof refusals);
    whole.bytes = other;
    whole.length = numbers[SIZE];
    for (most = 0; most <= 0x10000; most += 0x4321) {
        uint32_t came;
        fill_other();
        memset(places, 0, sizeof places);
        memset(refusals, 0, sizeof refusals);
        ended = empty_outcome();
        came = bootcore_session_make(&session, &machine, &menu);
        if (came == BOOTCORE_STATUS_DONE) {
            came = tell_pieces(&session, &whole, most);
        }
        if (came != (status == BOOTCORE_STATUS_DONE ? BOOTCORE_STATUS_DONE : BOOTCORE_STATUS_FAILED) ||
            bootcore_session_outcome(&session, &ended) != status || memcmp(&ended, &booted, sizeof ended) ||
            memcmp(places, booted_places, booted.handoff.place_count * sizeof *places) ||
            memcmp(refusals, booted_refusals, sizeof refusals)) {
            printf("a session in runs of %zu bytes ends otherwise\n", most);
        }
        if (memcmp(memory, other, numbers[SIZE])) {
            printf("a session in runs of %zu bytes leaves other memory\n", most);
        }
    }
    bootcore_session_free(&session);
    memcpy(places, booted_places, sizeof places);
}

/* ---- digests of what is handed over */

static bootcore_part_digest wanted_parts[BOOTCORE_MAX_PLACES + 1], told_parts[BOOTCORE_MAX_PLACES + 1];

/* Those of memory as the call left it. */
static bootcore_digests reckon(void) {
    static uint8_t head[BOOTCORE_MAX_IMAGE_HEAD];
    bootcore_digests wanted;
    sha256_state image, part;
    uint32_t i;
    memset(&wanted, 0, sizeof wanted);
    memset(wanted_parts, 0xA5, sizeof wanted_parts);
    wanted.head_length = wanted.image_length = bootcore_image_head(&outcome.handoff, places, head, sizeof head);
    sha256_begin(&part);
    sha256_add(&part, head, wanted.head_length);
    image = part;
    sha256_end(&part, wanted.head_sha256);
    for (i = 0; i < outcome.handoff.place_count; i++) {
        wanted.image_length += places[i].length;
        sha256_add(&image, memory + places[i].address, places[i].length);
        wanted_parts[i].place = places[i];
        sha256_begin(&part);
        sha256_add(&part, memory + places[i].address, places[i].length);
        sha256_end(&part, wanted_parts[i].sha256);
        wanted_parts[i].reserved = 0;
    }
    sha256_end(&image, wanted.image_sha256);
    wanted.part_count = outcome.handoff.place_count;
    return wanted;
}

/* What a call of digests tells. */
static bootcore_digests digests, untold;
static bootcore_refusal digest_refusal, no_refusal;

static void tell_nothing(void) {
    memset(&digests, 0xA5, sizeof digests);
    memset(&untold, 0xA5, sizeof untold);
    memset(told_parts, 0xA5, sizeof told_parts);
    memset(&digest_refusal, 0xA5, sizeof digest_refusal);
    memset(&no_refusal, 0xA5, sizeof no_refusal);
}

static int are_told(const bootcore_digests *wanted) {
    return !memcmp(&digests, wanted, sizeof digests) && !memcmp(told_parts, wanted_parts, sizeof told_parts);
}

static int is_nothing_told(void) {
    size_t i;
    for (i = 0; i < sizeof told_parts; i++) {
        if (((const uint8_t *)told_parts)[i] != 0xA5) {
            return 0;
        }
    }
    return !memcmp(&digests, &untold, sizeof digests);
}

static uint32_t digest_at_once(const bootcore_entry *entry, bootcore_digest *digest) {
    (void)digest;
    return bootcore_digest_entry(&machine, entry, &digests, told_parts, BOOTCORE_MAX_PLACES, &digest_refusal);
}

static uint32_t make_digest(const bootcore_entry *entry, bootcore_digest *digest) {
    return bootcore_digest_make(digest, &machine, entry, &digest_refusal);
}

/* Makes a call with each of its requests refused in turn, and then with none. */
static uint32_t with_refused(const bootcore_entry *entry, bootcore_digest *digest,
                             uint32_t (*of)(const bootcore_entry *, bootcore_digest *)) {
    const void *kept = digest->kept;
    size_t grants;
    uint32_t status = BOOTCORE_STATUS_NO_MEMORY;
    tell_nothing();
    for (grants = numbers[SIZE] <= SMALL ? 0 : SIZE_MAX; status == BOOTCORE_STATUS_NO_MEMORY; grants++) {
        granted = grants;
        status = of(entry, digest);
        granted = SIZE_MAX;
        if (status == BOOTCORE_STATUS_NO_MEMORY &&
            (!is_nothing_told() || memcmp(&digest_refusal, &no_refusal, sizeof no_refusal) || digest->kept != kept)) {
            puts("digests are told, though memory ran out");
        }
    }
    return status;
}

/* Feeds a digest an entry's files, each time a piece of another odd length; what is too much before. */
static void feed(bootcore_digest *digest, const bootcore_entry *entry) {
    static const uint8_t other_bytes[0x10000];
    bootcore_file_range range;
    size_t most = 1;
    while (bootcore_digest_wanted(digest, &range)) {
        const void *kept = digest->kept;
        bootcore_bytes of = file_of(entry, range.file);
        uint64_t length = range.length < most ? range.length : most;
        if (range.length == 0 || range.offset > of.length || range.length > of.length - range.offset) {
            puts("a digest wants bytes that a file does not have");
            return;
        }
        if (range.length < sizeof other_bytes &&
            bootcore_digest_feed(digest, other_bytes, range.length + 1) != BOOTCORE_STATUS_UNWANTED) {
            puts("a digest takes more than it wants");
        }
        if (bootcore_digest_told(digest, &digests, told_parts, BOOTCORE_MAX_PLACES) != BOOTCORE_STATUS_WAITING || !is_nothing_told()) {
            puts("a digest tells something while bytes are wanted");
        }
        if (bootcore_digest_feed(digest, (const uint8_t *)of.bytes + range.offset, length) != BOOTCORE_STATUS_DONE ||
            bootcore_digest_feed(digest, NULL, 0) != BOOTCORE_STATUS_DONE || digest->kept != kept) {
            puts("a digest takes no bytes");
            return;
        }
        most = most * 5 % 0xFFFF + 2;
    }
    if (bootcore_digest_feed(digest, other_bytes, 1) != BOOTCORE_STATUS_UNWANTED) {
        puts("a digest takes bytes when none are wanted");
    }
}

/* Compares digests of an entry with what was handed over, or with its refusal. */
static void compare_digests(const bootcore_entry *entry, uint32_t status, const bootcore_refusal *refusal) {
    bootcore_entry bare = without_bytes(entry);
    bootcore_digest digest = {NULL};
    bootcore_digests wanted;
    uint32_t at_once, made;
    size_t room;
    at_once = with_refused(entry, &digest, digest_at_once);
    if (status == BOOTCORE_STATUS_REFUSED) {
        if (at_once != status || memcmp(&digest_refusal, refusal, sizeof *refusal) || !is_nothing_told()) {
            puts("digests at once have another refusal");
        }
        made = with_refused(&bare, &digest, make_digest);
        if (made != status || memcmp(&digest_refusal, refusal, sizeof *refusal) || !is_nothing_told() || digest.kept) {
            puts("a digest has another refusal");
        }
        return;
    }
    wanted = reckon();
    if (at_once != BOOTCORE_STATUS_DONE || !are_told(&wanted) || memcmp(&digest_refusal, &no_refusal, sizeof no_refusal)) {
        printf("digests at once, with status %" PRIu32 ", are not those of the image\n", at_once);
    }
    made = with_refused(&bare, &digest, make_digest);
    if (made != BOOTCORE_STATUS_DONE || memcmp(&digest_refusal, &no_refusal, sizeof no_refusal)) {
        printf("a digest is made with status %" PRIu32 "\n", made);
        return;
    }
    feed(&digest, entry);
    for (room = BOOTCORE_MAX_PLACES;; room = room == BOOTCORE_MAX_PLACES) {
        const void *kept = digest.kept;
        tell_nothing();
        granted = 0;
        made = bootcore_digest_told(&digest, &digests, room ? told_parts : NULL, room);
        granted = SIZE_MAX;
        memcpy(wanted_parts + room, told_parts + BOOTCORE_MAX_PLACES, sizeof *told_parts); /* behind the room nothing is told */
        if (made != BOOTCORE_STATUS_DONE || digest.kept != kept || memcmp(&digests, &wanted, sizeof wanted) ||
            memcmp(told_parts, wanted_parts, (room + 1) * sizeof *told_parts)) {
            printf("digests that are fed, with room for %zu parts, are not those of the image\n", room);
        }
        if (room == 0) {
            break;
        }
    }
    bootcore_digest_free(&digest);
    if (digest.kept || bootcore_digest_wanted(&digest, &(bootcore_file_range){0, 0, 0, 0})) {
        puts("a digest is kept that was freed");
    }
}

/* ---- what came of the call */

static void tell(uint32_t status, uint32_t entry, const char *image) {
    size_t i;
    if (status != BOOTCORE_STATUS_DONE && status != BOOTCORE_STATUS_REFUSED) {
        printf("status %" PRIu32 "\n", status);
        return;
    }
    for (i = 0; i < outcome.refusal_count; i++) {
        printf("refused %" PRIu32 " %" PRIu32 " %" PRIu64 " %" PRIu64 "\n", refusals[i].entry + entry, refusals[i].number,
               refusals[i].first, refusals[i].second);
    }
    if (status == BOOTCORE_STATUS_REFUSED) {
        puts("no entry left");
        return;
    }
    outcome.handoff.entry += entry; /* a load tells 0 for its one entry */
    printf("done %" PRIu32 "\n", outcome.handoff.entry);
    write_image(image);
    if (!is_walked(image)) {
        puts("the walk tells otherwise");
    }
    if (!are_segments()) {
        puts("the segment registers are not those of the table");
    }
}

int main(int argc, char **argv) {
    const bootcore_entry *entry = NULL;
#ifdef ARENA
    static uint8_t arena[1 << 26];
#endif
    size_t number, grants;
    uint32_t status;
    int is_load;
    if (argc != 4) {
        return 2;
    }
#ifdef ARENA
    bootcore_arena(arena, sizeof arena);
#endif
    is_load = !strcmp(argv[1], "load");
    number = strtoul(argv[2], NULL, 10);
    read_case();
    memory = malloc(numbers[SIZE]);
    other = malloc(numbers[SIZE]);
    frames = malloc(numbers[SIZE]);
    if (!memory || !other || !frames) {
        stop("no memory");
    }
    if (is_load) {
        if (number >= menu.entry_count) {
            stop("no such entry");
        }
        entry = &menu.entries[number];
    }
    for (grants = 0; numbers[SIZE] <= SMALL && (is_load || grants < number); grants++) {
        if (call(entry, grants) != BOOTCORE_STATUS_NO_MEMORY) {
            break;
        }
        if (!is_as_before(is_load)) {
            printf("memory changed, though request %zu was refused\n", grants);
            return 0;
        }
    }
    for (grants = 0; numbers[SIZE] <= SMALL && !is_load && grants < number && lacks_memory(grants); grants++) {
        if (!is_as_before(is_load)) {
            printf("a session changed memory, though request %zu was refused\n", grants);
            return 0;
        }
    }
    memset(places, 0, sizeof places);
    memset(refusals, 0, sizeof refusals);
    status = call(entry, SIZE_MAX);
    tell(status, is_load ? (uint32_t)number : 0, argv[3]);
    if (status == BOOTCORE_STATUS_DONE || status == BOOTCORE_STATUS_REFUSED) {
        outcome.handoff.entry -= is_load && status == BOOTCORE_STATUS_DONE ? (uint32_t)number : 0;
        if (is_load) {
            compare_plan(entry, status);
            compare_digests(entry, status, &refusals[0]);
        } else {
            compare_session(status);
            if (status == BOOTCORE_STATUS_DONE) {
                compare_digests(&menu.entries[outcome.handoff.entry], status, NULL);
            }
        }
    }
    return 0;
}
