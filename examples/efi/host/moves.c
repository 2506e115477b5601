/* On the host: whether the boot manager's own code copies each byte of a plan to its place, wherever
   files, the plan's targets and what the firmware keeps lie. The word is how many machines are drawn.
   Their memory lies where its addresses are the host's too; each page that nobody has taken is
   poisoned, so that whoever touches it is found. The moves are made in an order that is drawn. */
#define _GNU_SOURCE /* for mmap's flags */
#include "app.h"

#include <sanitizer/asan_interface.h>
#include <stdio.h>
#include <stdlib.h>
#include <string.h>
#include <sys/mman.h>

enum { page_count = 1024, file_room = 5, most_file = 60 * page, room = page_count * page };
#define start ((uint64_t)0x10000000)

EFI_BOOT_SERVICES *BS;
struct boot_state boot;
struct entry_files files;

static uint8_t *const memory = (uint8_t *)start;
static enum { is_free, is_taken, of_services, is_kept } pages[page_count];
static uint8_t contents[file_room][most_file], own[page], wanted[room], before[room];
static uint8_t *own_there;
static bootcore_step steps[64];
static int strategy; /* of the firmware: 0 the highest pages that are free, 1 the lowest, 2 any */
static long in_place, moved, failed, done;

static uint64_t seed;
static uint64_t draw(uint64_t below) {
    seed ^= seed << 13, seed ^= seed >> 7, seed ^= seed << 17;
    return seed % below;
}
static void fail(const char *what) {
    printf("%s\n", what);
    exit(1);
}

/* ---- the firmware */

static int is_run(size_t first, size_t count, int state) {
    for (size_t i = first; i < first + count; i++)
        if (i >= page_count || (int)pages[i] != state) return 0;
    return 1;
}

static EFI_STATUS EFIAPI allocate(EFI_ALLOCATE_TYPE how, EFI_MEMORY_TYPE type, UINTN count,
                                  EFI_PHYSICAL_ADDRESS *address) {
    size_t end = page_count, found = page_count, skipped = draw(4);
    if (how == AllocateAddress) {
        size_t first = (*address - start) / page;
        if (*address % page == 0 && *address >= start && is_run(first, count, is_free))
            found = first;
    } else if (*address < start + room) end = *address < start ? 0 : (*address + 1 - start) / page;
    if (how == AllocateMaxAddress && count <= end)
        for (size_t i = 0; i <= end - count; i++)
            if (is_run(strategy == 1 ? i : end - count - i, count, is_free)) {
                found = strategy == 1 ? i : end - count - i;
                if (strategy != 2 || skipped-- == 0) break;
            }
    if (type != EfiLoaderData || found == page_count) return EFI_OUT_OF_RESOURCES;
    for (size_t i = found; i < found + count; i++) pages[i] = is_taken;
    *address = start + found * page;
    ASAN_UNPOISON_MEMORY_REGION(memory + found * page, count * page);
    return EFI_SUCCESS;
}

static EFI_STATUS EFIAPI release(EFI_PHYSICAL_ADDRESS address, UINTN count) {
    size_t first = (address - start) / page;
    if (!is_run(first, count, is_taken)) fail("pages are given back that were not taken");
    for (size_t i = first; i < first + count; i++) pages[i] = is_free;
    ASAN_POISON_MEMORY_REGION(memory + first * page, count * page);
    return EFI_SUCCESS;
}

/* ---- a machine, and plans for it */

static void draw_machine(void) {
    for (size_t i = 0; i < page_count;) {
        int state = (int[]){is_free, is_free, is_free, of_services, is_kept}[draw(5)];
        for (size_t length = 1 + draw(200); length && i < page_count; length--) pages[i++] = state;
    }
    ASAN_POISON_MEMORY_REGION(memory, room);
    taken_count = 0;
    files.count = 1 + draw(file_room);
    for (size_t i = 0; i < files.count; i++) {
        files.read[i].length = draw(8) ? draw(most_file) : 0;
        for (size_t k = 0; k < files.read[i].length; k++) contents[i][k] = (uint8_t)draw(256);
    }
}

/* A part that lies where the kernel is told of usable memory, behind what is planned: its first
   address, or 0. */
static uint64_t draw_place(size_t *next, size_t count) {
    *next += draw(4) ? draw(40) : 0;
    for (; *next + count <= page_count; ++*next) {
        size_t i = *next;
        while (i < *next + count && pages[i] != is_kept) i++;
        if (i < *next + count) continue;
        *next = i;
        return start + (i - count) * page;
    }
    return 0;
}

static void add(uint64_t address, uint64_t length, uint32_t source, uint32_t file, uint64_t offset) {
    if (length)
        steps[boot.layout.step_count++] = (bootcore_step){address, length, offset, source, file, 0};
}

/* The kernel in two pieces with a gap between them, the others whole; the plan's own bytes between
   them. Files come in any order of addresses. 0: there is no place for one. */
static int draw_plan(void) {
    size_t next = 1 + draw(page_count / 4), first = draw(files.count);
    boot.layout = (bootcore_layout){.steps = steps, .own = own_there, .own_length = sizeof own};
    for (size_t i = 0; i < files.count; i++) {
        uint32_t file = (uint32_t)((first + i) % files.count);
        uint64_t length = files.read[file].length, cut = file ? length : draw(length + 1);
        uint64_t gap = file ? 0 : draw(3 * page), taken = cut + gap + (length - cut);
        uint64_t part = (taken / page + 1) * page, address = draw_place(&next, taken / page + 1);
        if (address == 0) return 0;
        add(address, cut, BOOTCORE_SOURCE_FILE, file, 0);
        add(address + cut, gap, BOOTCORE_SOURCE_ZEROS, 0, 0);
        add(address + cut + gap, length - cut, BOOTCORE_SOURCE_FILE, file, cut);
        add(address + taken, part - taken, BOOTCORE_SOURCE_ZEROS, 0, 0);
        address = draw_place(&next, 1);
        if (address == 0) return 0;
        uint64_t offset = draw(page), bytes = draw(page - offset);
        add(address, bytes, BOOTCORE_SOURCE_LAYOUT, 0, offset);
        add(address + bytes, page - bytes, BOOTCORE_SOURCE_ZEROS, 0, 0);
    }
    return 1;
}

static int read_to(uint32_t file, void *bytes) {
    files.read[file].bytes = bytes;
    if (bytes != NULL) memcpy(bytes, contents[file], files.read[file].length);
    return bytes != NULL;
}

/* ---- the digest of what is copied: of a head that is made up, and of memory before and afterwards */

size_t bootcore_image_head(const bootcore_handoff *handoff, const bootcore_place *places, uint8_t *head,
                           size_t length) {
    memset(head, (int)handoff->place_count + (places != NULL), length);
    return length;
}

static uint8_t head[BOOTCORE_MAX_IMAGE_HEAD];
static digest_work work; /* of the moves */

/* Against one of the plan itself: of a head that is made again, and of the steps' places. */
static void check_digest(void) {
    static uint8_t other[BOOTCORE_MAX_IMAGE_HEAD];
    static move places[sizeof steps / sizeof steps[0] + 2];
    static digest_work after;
    size_t length = bootcore_image_head(&boot.layout.handoff, boot.layout.places, other, sizeof other), i = 0;
    places[0] = (move){0, (UINTN)other, length};
    for (; i < boot.layout.step_count; i++) places[1 + i] = (move){0, steps[i].address, steps[i].length};
    places[1 + i] = (move){0, 0, 0};
    begin_digest(&after, places);
    memcpy(after.wanted, work.wanted, sizeof after.wanted);
    if (!digest_moves(&after, 0)) fail("another digest is measured than is copied");
}

/* In half of the machines a byte changes once all is copied, of a part or of the head: it is found. */
static void look_at_copies(const move *list, size_t count) {
    const move *each = &list[draw(count)];
    const uint8_t change = (uint8_t)(draw(2) << draw(8));
    ((uint8_t *)(UINTN)each->to)[draw(each->length)] ^= change;
    int is_good = digest_moves(&work, 1);
    if (is_good && change) fail("a byte that changed once it was copied is not found");
    if (!is_good && !change) fail("what was copied has another digest than what was measured");
}

/* ---- what the machine's memory must hold afterwards */

static void want(void) {
    memcpy(wanted, before, room);
    for (size_t i = 0; i < boot.layout.step_count; i++) {
        const bootcore_step *step = &steps[i];
        uint8_t *to = wanted + (step->address - start);
        if (step->source == BOOTCORE_SOURCE_ZEROS) memset(to, 0, step->length);
        else if (step->source == BOOTCORE_SOURCE_LAYOUT) memcpy(to, own + step->offset, step->length);
        else memcpy(to, contents[step->file] + step->offset, step->length);
    }
}

/* A walk of the page tables, which lie in memory still. */
static uint64_t walk(uint64_t tables, uint64_t address) {
    for (int shift = 39; shift >= 21; shift -= 9) {
        uint64_t word = ((const uint64_t *)tables)[address >> shift & 511];
        if (!(word & 1)) fail("an address is not mapped");
        tables = word & ~(uint64_t)4095;
        if (word & 128) return tables + (address & ((1 << 21) - 1));
    }
    return 0;
}

static void carry_out(const move *list, uint64_t tables) {
    size_t count = 0, step_count = 0, order[sizeof steps / sizeof steps[0]];
    ASAN_UNPOISON_MEMORY_REGION(memory, room);
    memcpy(before, memory, room);
    want();
    for (; list[step_count].length; step_count++)
        if (is_moved(&list[step_count])) order[count++] = step_count;
    for (size_t i = 0; i < count; i++) {
        size_t other = i + draw(count - i), kept = order[other];
        order[other] = order[i], order[i] = kept;
        const move *next = &list[kept];
        uint8_t *to = (uint8_t *)walk(tables, next->to);
        if (next->from == 0) memset(to, 0, next->length);
        else memcpy(to, (const uint8_t *)walk(tables, next->from), next->length);
    }
    moved += (long)count;
    in_place += (long)(boot.layout.step_count - count);
    if (step_count != boot.layout.step_count + 1) fail("the list has not the head and all steps");
    if (memcmp(memory, wanted, room) != 0) fail("memory is not what the plan says");
    check_digest();
    look_at_copies(list, step_count);
}

/* Nowhere is room for pages where no step goes. */
static void check_full(uint64_t count) {
    for (size_t i = 0; i + count <= page_count; i++) {
        size_t k = 0;
        if (!is_run(i, count, is_free)) continue;
        while (k < boot.layout.step_count && !is_met(&steps[k], start + i * page, count * page)) k++;
        if (k == boot.layout.step_count) fail("there is room that is not found");
    }
}

static int attempt(void) {
    own_there = take_low_pages(1);
    if (own_there == NULL) return 0;
    memcpy(own_there, own, sizeof own);
    if (!read_to(0, take_pages(files.read[0].length / page + 1)) || !draw_plan()) return 0;
    for (uint32_t i = 1; i < files.count; i++)
        if (!read_to(i, take_file_pages(i, files.read[i].length))) return 0;
    for (uint64_t plans = draw(3); plans; plans--) /* the map changes */
        if (!clear_sources() || !draw_plan()) return 0;
    move *list = clear_sources() ? take_low_pages(1) : NULL;
    if (list == NULL) return 0;
    list_moves(list, head);
    begin_digest(&work, list);
    digest_moves(&work, 0);
    memcpy(work.wanted, work.state, sizeof work.wanted);
    if (!make_tables(list, page)) return 0;
    carry_out(list, tables_address(0));
    return 1;
}

int main(int count, char **words) {
    static EFI_BOOT_SERVICES services = {.AllocatePages = allocate, .FreePages = release};
    long machines = count > 1 ? atol(words[1]) : 0;
    BS = &services;
    void *mapped = mmap(memory, room, PROT_READ | PROT_WRITE,
                        MAP_PRIVATE | MAP_ANONYMOUS | MAP_FIXED_NOREPLACE, -1, 0);
    if (mapped != memory) return puts("the host's memory is not free there"), 2;
    for (long i = 1; i <= machines; i++) {
        seed = (uint64_t)i * 0x9e3779b97f4a7c15;
        strategy = (int)draw(3);
        for (size_t k = 0; k < sizeof own; k++) own[k] = (uint8_t)draw(256);
        draw_machine();
        if (attempt()) done++;
        else failed++;
        for (uint64_t pages_wanted = 4 + draw(40); strategy == 0 && pages_wanted;)
            if (!take_low_pages(pages_wanted)) check_full(pages_wanted), pages_wanted = 0;
        give_back(0);
        boot.layout.step_count = 0;
    }
    printf("%ld machines, %ld without room, %ld moves, %ld in place\n", done, failed, moved, in_place);
    return done > failed && in_place > machines / 10 ? 0 : 1;
}
