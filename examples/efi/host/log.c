/* On the host: whether the TPM's log is kept whole, and where, or what the screen is to say: of logs
   and firmware that OVMF does not have. */
#define _GNU_SOURCE
#include "app.h"
#include "tcg2.h"

#include <stdio.h>
#include <stdlib.h>
#include <string.h>

enum { area_size = 65536, own_size = 131072, most_log = 200000 };

EFI_SYSTEM_TABLE *ST; /* which lists ACPI's only if there is an area */
struct boot_state boot;
tcg2 *tpm;
int has_agile_log;

static uint8_t area[area_size], pages[own_size], firmware_log[most_log], final[16384];
static uint8_t table[76], root[44], rsdp[36];
static EFI_CONFIGURATION_TABLE tables[2] = {{TCG2_FINAL_EVENTS, final}, {ACPI_20_TABLE_GUID, rsdp}};
static EFI_SYSTEM_TABLE firmware = {.ConfigurationTable = tables};
static uint64_t log_length, last_start;
static int has_pages, is_cut, is_refused, has_short_end, calls;

/* ---- the firmware */

static void put(uint8_t *to, uint64_t number, size_t size) { memcpy(to, &number, size); }

const char *read_map(machine_map *map) { return map->machine.region_count = 0, NULL; }
void *take_pages_as(EFI_ALLOCATE_TYPE how, EFI_MEMORY_TYPE type, uint64_t count, uint64_t address) {
    int is_wanted = how == AllocateMaxAddress && type == EfiReservedMemoryType && address <= UINT32_MAX;
    return has_pages && is_wanted && count * page == own_size ? pages : NULL;
}

static EFI_STATUS EFIAPI get_log(tcg2 *this, UINT32 form, UINT64 *first, UINT64 *last, BOOLEAN *cut) {
    calls++;
    if (this != tpm || form != agile_log || is_refused) return EFI_INVALID_PARAMETER;
    *first = (UINTN)firmware_log, *last = (UINTN)firmware_log + last_start, *cut = (BOOLEAN)is_cut;
    return EFI_SUCCESS;
}

/* An event of one bank, with so many bytes of data: its length. */
static uint64_t put_event(uint8_t *to, uint32_t data_length, int byte) {
    memset(to, byte, 50 + data_length);
    put(to, 8, 4), put(to + 4, 6, 4), put(to + 8, 1, 4), put(to + 12, 0x0b, 2);
    put(to + 46, data_length, 4);
    return 50 + data_length;
}

/* A log of about so many bytes, and final events of these: of the first one both have it. */
static uint64_t put_logs(uint64_t length, int final_count, uint32_t final_data) {
    uint64_t at = 32 + 33, end = 16;
    memset(firmware_log, 0, sizeof firmware_log);
    put(firmware_log + 4, 3, 4), put(firmware_log + 28, 33, 4);
    memcpy(firmware_log + 32, "Spec ID Event03", 16);
    put(firmware_log + 56, 1, 4), put(firmware_log + 60, 0x0b, 2), put(firmware_log + 62, 32, 2);
    do last_start = at, at += put_event(firmware_log + at, 950, 1);
    while (at < length);
    put(final, 1, 8), put(final + 8, 1, 8);
    for (int i = 0; i < final_count; i++) {
        int is_short = has_short_end && i == final_count - 1;
        end += put_event(final + end, is_short ? 1 : final_data, 2 + i);
    }
    return log_length = at;
}

/* ---- the cases */

static int wrong;
static void expect(const char *what, int is_good) {
    if (!is_good) printf("%s\n", what), wrong = 1;
}

/* All that is kept: the log, so many of the final events behind the first one, and zeros. */
static int is_kept_in(const uint8_t *room, uint64_t length, int count, uint32_t data) {
    uint64_t at = log_length, event = 50 + data;
    if (memcmp(room, firmware_log, at) != 0) return 0;
    if (memcmp(room + at, final + 16 + event, (uint64_t)count * event) != 0) return 0;
    for (at += (uint64_t)count * event; at < length; at++)
        if (room[at] != 0) return 0;
    return 1;
}

static int is_untouched(const uint8_t *room, size_t length) {
    for (size_t i = 0; i < length; i++)
        if (room[i] != 0xee) return 0;
    return 1;
}

/* A boot whose log has so many bytes as it is measured last, and as the firmware ends so many final
   events, of which the log has the first one: what the screen is to say, and the address. */
static const char *boot_with(uint64_t length, int final_count, uint32_t final_data) {
    memset(area, 0xee, sizeof area), memset(pages, 0xee, sizeof pages);
    put_logs(length, final_count, final_data);
    take_log_room();
    const char *words = find_log();
    put(final + 8, (uint64_t)final_count, 8);
    keep_log();
    return words;
}

static int says(const char *words, const char *part) {
    return part == NULL ? words == NULL : words != NULL && strstr(words, part) != NULL;
}

static void begin_case(int with_area, int with_pages) {
    firmware.NumberOfTableEntries = with_area ? 2 : 1, has_pages = with_pages;
    has_agile_log = 1, is_cut = 0, is_refused = 0, calls = 0;
}

static void run(int number) {
    const char *words;
    switch (number) {
    case 0:
        begin_case(1, 1);
        words = boot_with(10000, 3, 40);
        expect("a log goes to ACPI's area, with what comes later", says(words, NULL) &&
               log_address() == (UINTN)area && is_kept_in(area, sizeof area, 2, 40));
        return;
    case 1:
        begin_case(1, 1);
        words = boot_with(62000, 3, 40);
        expect("a log that is too long for the area goes to pages", says(words, "too long for ACPI's") &&
               log_address() == (UINTN)pages && is_kept_in(pages, sizeof pages, 2, 40) &&
               is_untouched(area, sizeof area));
        return;
    case 2:
        begin_case(1, 1);
        words = boot_with(130000, 3, 40);
        expect("a log that is too long for both is not kept", says(words, "no room") &&
               log_address() == 0 && is_untouched(area, sizeof area) && is_untouched(pages, sizeof pages));
        return;
    case 3:
        begin_case(0, 1);
        words = boot_with(62000, 2, 40);
        expect("without an area the log goes to pages", says(words, NULL) &&
               log_address() == (UINTN)pages && is_kept_in(pages, sizeof pages, 1, 40));
        return;
    case 4:
        begin_case(1, 0);
        words = boot_with(62000, 2, 40);
        expect("without pages a long log is not kept", says(words, "no room") && log_address() == 0 &&
               is_untouched(area, sizeof area));
        return;
    case 5:
        begin_case(1, 0);
        words = boot_with(10000, 2, 40);
        expect("without pages the area is enough", says(words, NULL) && is_kept_in(area, sizeof area, 1, 40));
        return;
    case 6:
        begin_case(1, 1);
        is_cut = 1;
        words = boot_with(10000, 2, 40);
        expect("a log that is cut is kept, and said", says(words, "is cut") && is_kept_in(area, sizeof area, 1, 40));
        return;
    case 7:
        begin_case(1, 1);
        has_agile_log = 0;
        words = boot_with(10000, 2, 40);
        expect("a log of TPM 1.2's form is not asked for", says(words, "the form of TPM 1.2") && calls == 0 &&
               log_address() == 0 && is_untouched(area, sizeof area) && is_untouched(pages, sizeof pages));
        return;
    case 8:
        begin_case(1, 1);
        is_refused = 1;
        words = boot_with(10000, 2, 40);
        expect("firmware that gives no log is said", says(words, "gives no log") && log_address() == 0 &&
               is_untouched(area, sizeof area));
        return;
    case 9:
        begin_case(1, 1);
        has_short_end = 1; /* which would have room again */
        words = boot_with(60000, 8, 1950);
        expect("of later events the first are kept that have room", says(words, NULL) &&
               is_kept_in(area, sizeof area, (int)((sizeof area - log_length) / 2000), 1950));
        return;
    default:
        begin_case(0, 0);
        words = boot_with(10000, 2, 40);
        expect("without any room the log is not kept", says(words, "no room") && log_address() == 0);
    }
}

int main(int count, char **words) {
    static tcg2 made = {.GetEventLog = get_log};
    ST = &firmware;
    tpm = &made;
    put(rsdp + 24, (UINTN)root, 8);
    put(root + 4, sizeof root, 4), put(root + 36, (UINTN)table, 8);
    memcpy(table, "TPM2", 4);
    put(table + 4, sizeof table, 4), put(table + 64, area_size, 4), put(table + 68, (UINTN)area, 8);
    if (count > 1) run(atoi(words[1]));
    return wrong;
}
