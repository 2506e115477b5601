/* The TPM's event log, for who checks what was booted. The firmware keeps it where a part of the
   kernel may come, and it goes on in another table until the firmware has ended. So it is copied as
   one: to where ACPI's table TPM2 wants it, by which an operating system finds it, or else, also if
   it is too long for that, to pages of our own. */
#include "app.h"
#include "tcg2.h"

enum { own_room = 32 * page, more = page /* for what the firmware logs as it ends */ };

typedef struct {
    uint64_t version, count;
    uint8_t events[];
} final_events;

static struct log_room {
    uint8_t *start;
    uint64_t length;
} area, own; /* of length 0: there is none */
static const struct log_room *room; /* of these, where the log goes; NULL: it is not kept */

static const uint8_t *first, *end; /* of the firmware's log, NULL if it is not known */
static const final_events *final;  /* NULL if there are none */
static uint64_t known_count;       /* how many of them are in the log too */

/* ---- the room */

/* A table of ACPI, or NULL. */
static const uint8_t *find_table(const char *signature) {
    const uint8_t *rsdp = find_rsdp(1);
    const uint8_t *root = rsdp == NULL ? NULL : (const uint8_t *)number64(rsdp + 24);
    for (uint32_t at = 36; root != NULL && at + 8 <= number32(root + 4); at += 8) {
        const uint8_t *table = (const uint8_t *)number64(root + at);
        if (memcmp(table, signature, 4) == 0) return table;
    }
    return NULL;
}

/* Whether no part of a kernel can come there. */
static int is_kept(uint64_t start, uint64_t length) {
    for (size_t i = 0; i < boot.map.machine.region_count; i++) {
        const bootcore_region *region = &boot.map.regions[i];
        if (region->kind == BOOTCORE_KIND_USABLE && region->base < start + length &&
            start < region->base + region->length)
            return 0;
    }
    return 1;
}

/* The area of the table TPM2 (TCG ACPI Specification), if it has no log yet. */
static void take_area(void) {
    const uint8_t *table = find_table("TPM2");
    if (table == NULL || number32(table + 4) < 76 || read_map(&boot.map) != NULL) return;
    uint64_t length = number32(table + 64);
    uint8_t *start = (uint8_t *)number64(table + 68);
    if (start != NULL && length > more && is_kept((UINTN)start, length) &&
        memcmp(start + 32, "Spec ID Event", 13) != 0)
        area = (struct log_room){start, length};
}

static void take_own(void) {
    own.start = take_pages_as(AllocateMaxAddress, EfiReservedMemoryType, own_room / page, UINT32_MAX);
    own.length = own.start != NULL ? own_room : 0;
}

/* How long the log gets is known after the last event, and pages that are reserved only then would
   make another machine, which is to be measured anew: so both are taken. */
void take_log_room(void) {
    if (tpm == NULL || !has_agile_log) return;
    take_area();
    if (area.length < own_room) take_own();
    room = area.length ? &area : own.length ? &own : NULL;
}

uint64_t log_address(void) { return room == NULL ? 0 : (UINTN)room->start; }

/* ---- the log */

/* How long an event is: head, a digest for each of its banks, and data. The log's first event, in
   the form of TPM 1.2, has the banks and the lengths of their digests. */
static uint64_t event_length(const uint8_t *event) {
    const uint8_t *banks = first + 60, *at = event + 12;
    uint32_t bank_count = number32(first + 56), count = number32(event + 8);
    if (event == first) return 32 + number32(first + 28);
    for (uint32_t i = 0; i < count; i++)
        for (const uint8_t *bank = banks; bank < banks + 4 * bank_count; bank += 4)
            if (number16(bank) == number16(at)) {
                at += 2 + number16(bank + 2);
                break;
            }
    return (uint64_t)(at - event) + 4 + number32(at);
}

static int has_room(const struct log_room *in) {
    return (uint64_t)(end - first) + more <= in->length;
}

const char *find_log(void) {
    static const EFI_GUID id = TCG2_FINAL_EVENTS;
    UINT64 start = 0, last = 0;
    BOOLEAN is_cut = 0;
    first = NULL;
    room = NULL;
    if (!has_agile_log) return "The firmware's log has the form of TPM 1.2; it is not kept.";
    EFI_STATUS status = tpm->GetEventLog(tpm, agile_log, &start, &last, &is_cut);
    if (EFI_ERROR(status) || start == 0 || last == 0) return "The firmware gives no log of the TPM.";
    first = (const uint8_t *)start;
    end = (const uint8_t *)last + event_length((const uint8_t *)last);
    room = has_room(&area) ? &area : has_room(&own) ? &own : NULL;
    if (room == NULL) return first = NULL, "There is no room to keep the TPM's log.";
    final = find_listed(&id);
    known_count = final == NULL ? 0 : final->count;
    if (is_cut) return "The firmware's log of the TPM is cut: it lacks events.";
    return room == &own && area.length ? "The TPM's log is too long for ACPI's area." : NULL;
}

void keep_log(void) {
    if (first == NULL) return;
    const uint8_t *at = final == NULL ? NULL : final->events;
    uint64_t taken = (uint64_t)(end - first), length;
    memcpy(room->start, first, taken);
    for (uint64_t i = 0; at != NULL && i < final->count; i++, at += length) {
        length = event_length(at);
        if (i < known_count) continue;
        if (length > room->length - taken) break;
        memcpy(room->start + taken, at, length);
        taken += length;
    }
    memset(room->start + taken, 0, room->length - taken);
}
