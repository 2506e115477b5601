/* Pages of the firmware's memory, and page tables of our own.

   Memory of boot services and of the loader is free once they have ended, so a kernel may be loaded
   over the firmware's page tables, and over this application. The firmware's may also forbid to
   execute what is no code of an image, or to write what nobody has taken. So what is left to do then
   goes by tables of our own, in pages where no step of the plan goes. */
#include "app.h"

/* ---- pages */

enum { max_taken = 1024 }; /* some hundred are taken: for files, texts, page tables */
#define highest_mapped (((uint64_t)1 << 47) - 1) /* by page tables of four levels */

static struct {
    EFI_PHYSICAL_ADDRESS start;
    uint64_t count;
} taken[max_taken];
uint32_t taken_count;

void *take_pages_as(EFI_ALLOCATE_TYPE how, EFI_MEMORY_TYPE type, uint64_t count, uint64_t address) {
    EFI_PHYSICAL_ADDRESS start = address;
    if (taken_count == max_taken || EFI_ERROR(BS->AllocatePages(how, type, count, &start)))
        return NULL;
    taken[taken_count].start = start;
    taken[taken_count++].count = count;
    return (void *)(UINTN)start;
}

void give_back(uint32_t kept_count) {
    while (taken_count > kept_count) {
        taken_count--;
        BS->FreePages(taken[taken_count].start, taken[taken_count].count);
    }
}

int is_met(const bootcore_step *step, uint64_t start, uint64_t length) {
    return step->address < start + length && start < step->address + step->length;
}

/* The firmware chooses pages below a limit, the highest ones as a rule. If a step goes there, the next
   limit is the lowest such step: between it and others that go there is no room. */
static void *take_clear(uint64_t count, uint64_t highest) {
    for (;;) {
        void *pages = take_pages_as(AllocateMaxAddress, EfiLoaderData, count, highest);
        size_t i = 0;
        if (pages == NULL) return NULL;
        while (i < boot.layout.step_count &&
               !is_met(&boot.layout.steps[i], (UINTN)pages, count * page))
            i++;
        if (i == boot.layout.step_count) return pages;
        give_back(taken_count - 1);
        highest = boot.layout.steps[i].address - 1;
    }
}

void *take_low_pages(uint64_t count) { return take_clear(count, UINT32_MAX); }

/* Drivers of some firmware can't read a disk to addresses from 4 GiB on. */
void *take_pages(uint64_t count) {
    void *low = take_low_pages(count);
    return low != NULL ? low : take_clear(count, highest_mapped);
}

/* ---- tables: a word is the address of a table of the next level, or of a large page, and flags */

enum { present = 1, writable = 2, is_large = 128 };
#define large_page ((uint64_t)1 << 21)

static uint64_t *four_levels, *five_levels; /* the first tables */

/* The table at an index, which is made if there is none; or NULL. */
static uint64_t *table_at(uint64_t *above, uint64_t index) {
    index &= 511;
    if (above[index] == 0) {
        void *made = take_pages(1);
        if (made == NULL) return NULL;
        above[index] = (UINTN)memset(made, 0, page) | present | writable;
    }
    return (uint64_t *)(UINTN)(above[index] & ~(uint64_t)(page - 1));
}

static int map_range(uint64_t start, uint64_t length) {
    for (uint64_t at = start & ~(large_page - 1); at < start + length; at += large_page) {
        uint64_t *table = table_at(four_levels, at >> 39);
        if (table != NULL) table = table_at(table, at >> 30);
        if (table == NULL) return 0;
        table[at >> 21 & 511] = at | present | writable | is_large;
    }
    return 1;
}

int make_tables(const void *start, uint64_t length) {
    uint32_t count = taken_count; /* the tables themselves need not be mapped */
    uint64_t root = 0;
    five_levels = table_at(&root, 0);
    four_levels = five_levels == NULL ? NULL : table_at(five_levels, 0);
    int good = four_levels != NULL && map_range(0, (uint64_t)1 << 32) &&
               map_range((UINTN)start, length);
    for (uint32_t i = 0; good && i < count; i++)
        good = map_range(taken[i].start, taken[i].count * page);
    return good;
}

uint64_t tables_address(int has_five_levels) {
    return (UINTN)(has_five_levels ? five_levels : four_levels);
}
