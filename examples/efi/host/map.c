/* On the host: what the boot manager's own code makes of the firmware's memory map. The word is how
   many maps are drawn; each is compared with its pages, one by one, and refused once two of its ranges
   overlap. */
#include "app.h"

#include <stdio.h>
#include <stdlib.h>
#include <string.h>

enum { page_count = 1500, most_listed = 3 * page_count };

EFI_BOOT_SERVICES *BS;

static uint64_t seed;
static uint64_t draw(uint64_t below) {
    seed ^= seed << 13, seed ^= seed >> 7, seed ^= seed << 17;
    return seed % below;
}
static void expect(const char *what, int is_good) {
    if (is_good) return;
    printf("%s\n", what);
    exit(1);
}

/* ---- the firmware */

typedef struct {
    uint32_t type; /* EfiMaxMemoryType: the page is not listed */
    uint64_t attribute;
} use;

static use pages[page_count];
static uint64_t start; /* of the first page */
static UINTN step;
static uint8_t list_bytes[2][64 * (most_listed + 1)];
static EFI_MEMORY_DESCRIPTOR more; /* one that is listed too, if it has pages */

/* As the firmware may list these pages: in any order, ranges cut anywhere, some without a page. */
static memory_list listed(const use *of, uint8_t *bytes) {
    UINTN count = 0;
    for (size_t i = 0; i < page_count;) {
        size_t end = i + 1;
        while (end < page_count && draw(9) && of[end].type == of[i].type && of[end].attribute == of[i].attribute)
            end++;
        EFI_MEMORY_DESCRIPTOR made = {.Type = of[i].type, .PhysicalStart = start + i * page,
                                      .NumberOfPages = draw(30) ? end - i : 0, .Attribute = of[i].attribute};
        if (made.NumberOfPages) i = end;
        if (of[i - (made.NumberOfPages != 0)].type == EfiMaxMemoryType && made.NumberOfPages) continue;
        size_t at = draw(++count);
        memmove(bytes + (count - 1) * step, bytes + at * step, step);
        memset(bytes + at * step, 0xee, step);
        memcpy(bytes + at * step, &made, sizeof made);
    }
    return (memory_list){(const void *)bytes, step, count * step, 1};
}

static EFI_STATUS EFIAPI get_map(UINTN *size, EFI_MEMORY_DESCRIPTOR *map, UINTN *key, UINTN *each, UINT32 *version) {
    memory_list list = listed(pages, list_bytes[0]);
    if (more.NumberOfPages) {
        uint8_t *end = list_bytes[0] + list.size, *at = list_bytes[0] + draw(list.size / step + 1) * step;
        memmove(at + step, at, (size_t)(end - at));
        memcpy(at, &more, sizeof more);
        list.size += step;
    }
    if (list.size > *size) return EFI_BUFFER_TOO_SMALL;
    memcpy(map, list.descriptors, list.size);
    *size = list.size, *key = 7, *each = step, *version = 1;
    return EFI_SUCCESS;
}

/* By the numbers of the UEFI specification: write-back; persistent; for a purpose; more reliable. */
enum { wb = 1 << 3, nv = 1 << 15, sp = 1 << 18, more_reliable = 1 << 16 };

static int has_free_type(const use *of) {
    return of->type == EfiConventionalMemory || of->type == EfiLoaderCode || of->type == EfiLoaderData ||
           of->type == EfiBootServicesCode || of->type == EfiBootServicesData;
}

static int is_free(const use *of) {
    return has_free_type(of) && (of->attribute & wb) && !(of->attribute & nv) && !(of->attribute & sp);
}

static uint64_t draw_attribute(void) {
    static const uint64_t attributes[] = {0x7, 0xf | nv, 0xf | sp, 0xf | nv | sp, wb | more_reliable, 0x800000000000000f, 0};
    return draw(8) ? 0xf : attributes[draw(sizeof attributes / sizeof *attributes)];
}

static use draw_use(int mostly_free) {
    static const uint32_t free_types[] = {EfiConventionalMemory, EfiBootServicesData, EfiBootServicesCode, EfiLoaderData,
                                          EfiLoaderCode};
    uint64_t attribute = mostly_free && draw(30) ? 0xf : draw_attribute();
    if (draw(mostly_free ? 60 : 2)) return (use){free_types[draw(draw(2) ? 2 : 5)], attribute};
    return (use){(uint32_t)draw(EfiMaxMemoryType + 1), attribute};
}

static void draw_pages(void) {
    int mostly_free = draw(3) != 0;
    uint64_t longest = 1 + draw(draw(2) ? 4 : 60);
    start = draw(2) ? 0 : 0xfff00000;
    step = draw(2) ? 48 : 56;
    for (size_t i = 0; i < page_count;) {
        use drawn = draw_use(mostly_free);
        for (uint64_t length = 1 + draw(longest); length && i < page_count; length--) pages[i++] = drawn;
    }
}

/* ---- what it should be */

static uint32_t kind_of_page(size_t i) {
    if (pages[i].type == EfiMaxMemoryType) return 0;
    if (is_free(&pages[i])) return BOOTCORE_KIND_USABLE;
    return pages[i].type == EfiACPIReclaimMemory ? BOOTCORE_KIND_ACPI
           : pages[i].type == EfiACPIMemoryNVS   ? BOOTCORE_KIND_NVS
           : pages[i].type == EfiUnusableMemory  ? BOOTCORE_KIND_BAD
                                                 : BOOTCORE_KIND_RESERVED;
}

static int is_of_services(size_t i) {
    return pages[i].type == EfiBootServicesCode || pages[i].type == EfiBootServicesData;
}

/* Runs of pages of one kind. */
static size_t run_count(void) {
    size_t count = 0;
    for (size_t i = 0; i < page_count; i++)
        count += kind_of_page(i) != 0 && (i == 0 || kind_of_page(i) != kind_of_page(i - 1));
    return count;
}

static void check_regions(const machine_map *map) {
    size_t at = 0, page_at = 0;
    expect("there are as many regions as runs", map->machine.region_count == run_count());
    for (; at < map->machine.region_count; at++) {
        const bootcore_region *region = &map->regions[at];
        size_t first = (region->base - start) / page, count = region->length / page;
        expect("a region has pages, and comes behind the one before", count && first >= page_at);
        for (; page_at < first; page_at++) expect("a page in no region is not listed", kind_of_page(page_at) == 0);
        for (; page_at < first + count; page_at++)
            expect("a page has its region's kind", kind_of_page(page_at) == region->kind);
    }
    for (; page_at < page_count; page_at++) expect("a page behind all regions is not listed", kind_of_page(page_at) == 0);
}

static int compare(const void *one, const void *other) {
    size_t a = *(const size_t *)one, b = *(const size_t *)other;
    return (a > b) - (a < b);
}

/* Usable pages that are avoided beside those of boot services, if the least ones are. */
static size_t least_beside(void) {
    static size_t between[page_count];
    size_t count = 0, usable = 0, sum = 0, has_run = 0;
    for (size_t i = 0; i < page_count; i++) {
        if (is_of_services(i) && has_run && !is_of_services(i - 1)) between[count++] = usable;
        if (is_of_services(i)) has_run = 1, usable = 0;
        else usable += kind_of_page(i) == BOOTCORE_KIND_USABLE;
    }
    qsort(between, count, sizeof *between, compare);
    for (size_t i = 0; i + BOOTCORE_MAX_AVOIDED < count + has_run; i++) sum += between[i];
    return sum;
}

static size_t joined; /* in how many maps ranges were joined */

static void check_avoided(const machine_map *map) {
    static bootcore_avoided ranges[BOOTCORE_MAX_AVOIDED + 1];
    static int is_avoided[page_count];
    size_t count = list_avoided(map, ranges), beside = 0, others = 0;
    memset(is_avoided, 0, sizeof is_avoided);
    expect("no more ranges are avoided than the core takes", count <= BOOTCORE_MAX_AVOIDED);
    for (size_t i = 0; i < count; i++) {
        expect("a range to avoid has pages", ranges[i].length >= page);
        expect("ranges to avoid ascend, and none adjoins another",
               i == 0 || ranges[i - 1].base + ranges[i - 1].length < ranges[i].base);
        for (uint64_t at = ranges[i].base; at < ranges[i].base + ranges[i].length; at += page)
            is_avoided[(at - start) / page] = 1;
    }
    for (size_t i = 0; i < page_count; i++) {
        expect("memory of boot services is avoided", is_avoided[i] || !is_of_services(i));
        others += is_avoided[i] && !is_of_services(i);
        beside += is_avoided[i] && !is_of_services(i) && kind_of_page(i) == BOOTCORE_KIND_USABLE;
    }
    expect("as little else is avoided as can be", beside == least_beside());
    expect("nothing else is avoided where there is room for all ranges", !others || count == BOOTCORE_MAX_AVOIDED);
    joined += others != 0;
}

/* Another list of the same pages; of pages that were used otherwise while they are free; of a page more
   or less that is free; of one that is kept for another use. */
static void check_alike(void) {
    static use changed[page_count];
    memory_list one = listed(pages, list_bytes[0]);
    memcpy(changed, pages, sizeof changed);
    expect("a list is like another one of the same pages", are_alike(&one, &(memory_list){one.descriptors, step, one.size, 1}));
    for (int i = 0; i < 40; i++) {
        use *of = &changed[draw(page_count)];
        use drawn = draw_use(1);
        if (is_free(of) && is_free(&drawn)) *of = drawn;
    }
    memory_list other = listed(changed, list_bytes[1]);
    expect("a list is like one of other uses of free memory", are_alike(&one, &other) && are_alike(&other, &one));
    use *of = &changed[draw(page_count)], was = *of;
    for (use drawn = draw_use(0); was.type == of->type && was.attribute == of->attribute; drawn = draw_use(0))
        if (!is_free(&was) || !is_free(&drawn)) *of = drawn;
    if (was.type == EfiMaxMemoryType && of->type == EfiMaxMemoryType) return;
    other = listed(changed, list_bytes[1]);
    expect("a list is not like one of another machine", !are_alike(&one, &other) && !are_alike(&other, &one));
}

/* A map is refused once another range has a page of one that is listed: the first one, the last one, or
   all; of the same type, or of another one. Beside them it is not. One that goes on beyond all addresses
   is refused too. */
static void check_overlap(machine_map *map) {
    size_t at = draw(page_count), beside = 0;
    const char *words = "The firmware's map has ranges that overlap.", *wrong;
    while (pages[at].type == EfiMaxMemoryType) at = draw(page_count);
    size_t length = 1 + draw(draw(2) ? 3 : page_count), before = draw(length);
    if (start + at * page < before * page) before = 0;
    uint32_t type = draw(2) ? pages[at].type : (uint32_t)draw(EfiMaxMemoryType);
    more = (EFI_MEMORY_DESCRIPTOR){.Type = type, .PhysicalStart = start + (at - before) * page,
                                   .NumberOfPages = length, .Attribute = 0xf};
    wrong = read_map(map);
    expect("a map is refused where two ranges have one page", wrong != NULL && strcmp(wrong, words) == 0);
    more.PhysicalStart = start + page_count * page;
    wrong = read_map(map);
    beside = run_count() + 1;
    expect("a range beside all others does not overlap",
           wrong == NULL || (beside > BOOTCORE_MAX_REGIONS && strcmp(wrong, words) != 0));
    more.NumberOfPages = draw(2) ? UINT64_MAX / page + 1 - more.PhysicalStart / page : UINT64_MAX;
    wrong = read_map(map);
    expect("a range that goes on beyond all addresses is refused", wrong != NULL);
    more.NumberOfPages = 0;
}

/* As many ranges as the core takes, and one more: each of pages that adjoin and are free for another reason, or are listed
   one by one. */
static void check_limit(machine_map *map) {
    static const uint32_t free_types[] = {EfiConventionalMemory, EfiBootServicesData, EfiLoaderData};
    start = 0, step = 48, seed = 1;
    for (size_t runs = BOOTCORE_MAX_REGIONS; runs <= BOOTCORE_MAX_REGIONS + 1; runs++) {
        for (size_t i = 0; i < page_count; i++) {
            uint32_t type = i / 3 % 2 ? EfiACPIReclaimMemory : free_types[i % 3];
            pages[i] = (use){i / 3 < runs ? type : EfiMaxMemoryType, 0xf};
        }
        expect("pages are drawn of so many runs", run_count() == runs);
        expect("at most as many ranges are told as the core takes", (read_map(map) == NULL) == (runs == BOOTCORE_MAX_REGIONS));
        if (runs == BOOTCORE_MAX_REGIONS) check_regions(map);
    }
}

int main(int count, char **words) {
    static EFI_BOOT_SERVICES services = {.GetMemoryMap = get_map};
    static machine_map map;
    int maps = count > 1 ? atoi(words[1]) : 1, refused = 0;
    BS = &services;
    for (int i = 1; i <= maps; i++) {
        seed = (uint64_t)i * 0x9e3779b97f4a7c15;
        draw_pages();
        int has_room = run_count() <= BOOTCORE_MAX_REGIONS;
        expect("a map of too many ranges is refused, and no other", (read_map(&map) == NULL) == has_room);
        if (has_room) check_regions(&map), check_avoided(&map);
        check_alike();
        if (has_room) check_overlap(&map);
        refused += !has_room;
    }
    expect("maps of each sort are drawn", maps < 60 || (joined && refused));
    check_limit(&map);
    printf("%d maps, of which %d have too many ranges; in %zu ranges to avoid are joined\n", maps, refused, joined);
    return 0;
}
