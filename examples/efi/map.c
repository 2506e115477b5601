/* The firmware's memory map as the core's machine. */
#include "app.h"

/* ---- descriptors to regions */

enum { is_persistent = 0x8000, has_purpose = 0x40000 }; /* EFI_MEMORY_NV, EFI_MEMORY_SP */

/* Memory of boot services and of the loader is free once they have ended. So what the application
   takes changes no region, and a plan does not depend on where its files lie. But whatever its type is,
   no kernel should take what is slow to write, stays over a restart, or is kept for a driver. */
static uint32_t kind_of(const EFI_MEMORY_DESCRIPTOR *d) {
    int is_common = (d->Attribute & (EFI_MEMORY_WB | is_persistent | has_purpose)) == EFI_MEMORY_WB;
    switch (d->Type) {
    case EfiConventionalMemory:
    case EfiBootServicesCode:
    case EfiBootServicesData:
    case EfiLoaderCode:
    case EfiLoaderData: return is_common ? BOOTCORE_KIND_USABLE : BOOTCORE_KIND_RESERVED;
    case EfiACPIReclaimMemory: return BOOTCORE_KIND_ACPI;
    case EfiACPIMemoryNVS: return BOOTCORE_KIND_NVS;
    case EfiUnusableMemory: return BOOTCORE_KIND_BAD;
    default: return BOOTCORE_KIND_RESERVED;
    }
}

const EFI_MEMORY_DESCRIPTOR *first_range(const memory_list *list, uint64_t start) {
    const EFI_MEMORY_DESCRIPTOR *first = NULL;
    for (UINTN at = 0; at + list->step <= list->size; at += list->step) {
        const EFI_MEMORY_DESCRIPTOR *d = (const void *)((const uint8_t *)list->descriptors + at);
        if (d->NumberOfPages == 0 || d->PhysicalStart < start) continue;
        if (first == NULL || d->PhysicalStart < first->PhysicalStart) first = d;
    }
    return first;
}

/* Adjoining regions of one kind are one. 0 if there are too many. */
static int add_region(machine_map *map, const EFI_MEMORY_DESCRIPTOR *d) {
    size_t count = map->machine.region_count;
    bootcore_region made = {d->PhysicalStart, d->NumberOfPages * page, kind_of(d), 0};
    bootcore_region *last = count ? &map->regions[count - 1] : NULL;
    if (made.kind == BOOTCORE_KIND_USABLE) map->usable += made.length;
    if (last && last->kind == made.kind && last->base + last->length == made.base)
        last->length += made.length;
    else if (count < BOOTCORE_MAX_REGIONS)
        map->regions[map->machine.region_count++] = made;
    else
        return 0;
    return 1;
}

/* ---- the machine */

/* Whether another range begins in this one, or it goes on beyond all addresses. A difference is great where
   the other one begins before. */
static int is_met_by_other(const memory_list *list, const EFI_MEMORY_DESCRIPTOR *d) {
    for (UINTN at = 0; at + list->step <= list->size; at += list->step) {
        const EFI_MEMORY_DESCRIPTOR *e = (const void *)((const uint8_t *)list->descriptors + at);
        if (e == d || e->NumberOfPages == 0) continue;
        if (e->PhysicalStart - d->PhysicalStart < d->NumberOfPages * page) return 1;
    }
    return d->NumberOfPages > (UINT64_MAX - d->PhysicalStart) / page;
}

const char *read_map(machine_map *map) {
    static EFI_MEMORY_DESCRIPTOR listed[4096];
    memory_list *list = &map->list;
    *list = (memory_list){.descriptors = listed, .size = sizeof listed};
    map->usable = 0;
    map->machine = (bootcore_machine){.size = (uint64_t)1 << 32, .regions = map->regions};
    if (EFI_ERROR(BS->GetMemoryMap(&list->size, listed, &map->key, &list->step, &list->version)) ||
        list->step == 0)
        return "The firmware gives no memory map, or one above 160 KiB.";
    const EFI_MEMORY_DESCRIPTOR *d = first_range(list, 0);
    for (; d != NULL; d = first_range(list, d->PhysicalStart + 1)) {
        if (is_met_by_other(list, d)) return "The firmware's map has ranges that overlap.";
        if (!add_region(map, d)) return "The firmware's map has more than 128 ranges.";
    }
    return NULL;
}

/* ---- two lists of one machine */

static int is_free(const EFI_MEMORY_DESCRIPTOR *d) { return kind_of(d) == BOOTCORE_KIND_USABLE; }

/* Of memory that is free once the firmware has ended, no more than that matters. */
static int have_one_use(const EFI_MEMORY_DESCRIPTOR *one, const EFI_MEMORY_DESCRIPTOR *other) {
    if (is_free(one) || is_free(other)) return is_free(one) == is_free(other);
    return one->Type == other->Type && one->Attribute == other->Attribute;
}

/* Where the ranges of one use end that adjoin, from this one on. */
static uint64_t end_of_use(const memory_list *list, const EFI_MEMORY_DESCRIPTOR *first) {
    const EFI_MEMORY_DESCRIPTOR *d = first;
    uint64_t end = first->PhysicalStart;
    for (; d != NULL && d->PhysicalStart == end && have_one_use(first, d); d = first_range(list, end))
        end += d->NumberOfPages * page;
    return end;
}

int are_alike(const memory_list *one, const memory_list *other) {
    uint64_t at = 0, end;
    if (one->step != other->step || one->version != other->version) return 0;
    for (;; at = end) {
        const EFI_MEMORY_DESCRIPTOR *d = first_range(one, at), *e = first_range(other, at);
        if (d == NULL || e == NULL) return d == e;
        end = end_of_use(one, d);
        if (d->PhysicalStart != e->PhysicalStart || !have_one_use(d, e) || end != end_of_use(other, e))
            return 0;
    }
}

/* ---- memory of boot services */

static uint64_t usable_between(const machine_map *map, uint64_t start, uint64_t end) {
    uint64_t bytes = 0;
    for (size_t i = 0; i < map->machine.region_count; i++) {
        const bootcore_region *region = &map->regions[i];
        uint64_t from = region->base > start ? region->base : start;
        uint64_t to = region->base + region->length < end ? region->base + region->length : end;
        if (region->kind == BOOTCORE_KIND_USABLE && from < to) bytes += to - from;
    }
    return bytes;
}

/* Makes one of the two neighbours that have the least usable memory between them. */
static void join_nearest(const machine_map *map, bootcore_avoided *ranges, size_t *count) {
    size_t nearest = 1;
    uint64_t least = UINT64_MAX;
    for (size_t i = 1; i < *count; i++) {
        uint64_t end = ranges[i - 1].base + ranges[i - 1].length;
        uint64_t between = usable_between(map, end, ranges[i].base);
        if (between < least) least = between, nearest = i;
    }
    uint64_t end = ranges[nearest].base + ranges[nearest].length;
    ranges[nearest - 1].length = end - ranges[nearest - 1].base;
    --*count;
    for (size_t i = nearest; i < *count; i++) ranges[i] = ranges[i + 1];
}

size_t list_avoided(const machine_map *map, bootcore_avoided *ranges) {
    size_t count = 0;
    const EFI_MEMORY_DESCRIPTOR *d = first_range(&map->list, 0);
    for (; d != NULL; d = first_range(&map->list, d->PhysicalStart + 1)) {
        bootcore_avoided *last = count ? &ranges[count - 1] : NULL;
        bootcore_avoided made = {d->PhysicalStart, d->NumberOfPages * page};
        if (d->Type != EfiBootServicesCode && d->Type != EfiBootServicesData) continue;
        if (last != NULL && last->base + last->length == made.base) last->length += made.length;
        else ranges[count++] = made;
        if (count > BOOTCORE_MAX_AVOIDED) join_nearest(map, ranges, &count);
    }
    return count;
}
