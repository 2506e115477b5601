/* On the host: what comes of each way in which a TPM fails, with and without a menu file: whether something
   may be started all the same, and what the screen says; and the events of a handover. */
#define _GNU_SOURCE
#include "app.h"
#include "tcg2.h"

#include <stdio.h>
#include <stdlib.h>
#include <string.h>
#include <sys/wait.h>
#include <unistd.h>

static void expect(const char *what, int is_good) {
    if (is_good) return;
    printf("%s\n", what);
    exit(1);
}

/* ---- the firmware, and what others have in the boot manager */

static size_t event_count, failed_from; /* events; the first one that fails, and how it does */
static EFI_STATUS failure;

enum { most_noted = 4 };
static struct noted {
    uint32_t tag;
    size_t length;      /* of the content */
    int measures_itself; /* or else the image's digest */
} noted[most_noted];
static size_t noted_count;

static void note(UINT64 bytes, UINT64 length, const tcg2_event *event) {
    const uint8_t *data = (const uint8_t *)(event + 1);
    tcg2_tag tag;
    memcpy(&tag, data, sizeof tag);
    struct noted *made = &noted[noted_count++ % most_noted];
    *made = (struct noted){tag.id, tag.size, bytes == (UINTN)(data + sizeof tag) && length == tag.size};
    expect("a tag has the event's size, and its content is measured, or a digest",
           event->type == tag_event && event->size == sizeof *event + sizeof tag + tag.size &&
           (made->measures_itself || (length == 32 && *(const uint8_t *)(UINTN)bytes == 7)));
    if (made->measures_itself) expect("the content is what is copied", data[sizeof tag] == 'a' + tag.id % 2);
}

static EFI_STATUS EFIAPI extend_event(tcg2 *this, UINT64 flags, UINT64 bytes, UINT64 length, tcg2_event *event) {
    (void)flags;
    expect("an event is one of the protocol's version, of this TPM", this == tpm && event->size >= sizeof *event);
    if (event->pcr == 12) note(bytes, length, event);
    return event_count++ < failed_from ? EFI_SUCCESS : failure;
}

static EFI_STATUS EFIAPI get_capability(tcg2 *this, tcg2_capability *has) {
    (void)this;
    has->is_present = 1, has->logs = agile_log;
    return EFI_SUCCESS;
}

static tcg2 found = {.GetCapability = get_capability, .HashLogExtendEvent = extend_event};

static EFI_STATUS EFIAPI locate(EFI_GUID *id, VOID *key, VOID **interface) {
    (void)id, (void)key;
    *interface = &found;
    return EFI_SUCCESS;
}

static EFI_BOOT_SERVICES services = {.LocateProtocol = locate};
EFI_BOOT_SERVICES *BS = &services;
struct menu_file menu;
struct boot_state boot;

static char said[256]; /* the last sentence of the screen */
void print_sentence(const char *about, const char *sentence) { snprintf(said, sizeof said, "%s: %s", about, sentence); }
void print(const char *form, ...) { (void)form; }
size_t describe(const bootcore_machine *machine, const menu_entry *entry, int is_measured, char *text, size_t room) {
    (void)machine, (void)entry;
    expect("a handover is described as it is measured", is_measured);
    memset(text, '#', room > 4 ? 4 : 0);
    return room > 4 ? 4 : 0;
}
void digest_image(uint8_t *digest) { memset(digest, 7, 32); }
const char *find_log(void) { return NULL; }
uint64_t log_address(void) { return 0; }

/* ---- one boot, in a process of its own */

enum menu_kind { no_menu, plain_menu, menu_allows };

/* As main.c has it: the menu, the choice of an entry, its file, its handover. NULL if it is booted. */
static const char *boot_once(enum menu_kind kind) {
    const menu_entry entry = {.title = "T", .core = {.line = {(const uint8_t *)"", 0}}};
    const char *wrong = NULL;
    menu.boots_unmeasured = 1; /* as menu.c has it until the menu is read */
    find_tpm();
    if (kind != no_menu) wrong = measure_file("bootcore/menu.txt", "menu", 4);
    if (wrong == NULL) menu.boots_unmeasured = kind == menu_allows, wrong = measure_choice(&entry);
    if (wrong == NULL) wrong = measure_file("kernel", "kernel", 6);
    if (wrong == NULL) wrong = measure_handover(&entry);
    say_unmeasured(kind != no_menu); /* also where an entry is refused for another reason */
    return wrong;
}

/* A TPM whose log is full has what it is given in its PCRs; another one that fails has not. The menu's word counts
   where the menu is in its PCR, which is the first event then. */
static void check_boot(enum menu_kind kind, const char *words) {
    size_t all = kind == no_menu ? 4 : 5;
    int fails = failed_from < all, has_first = failed_from != 0 || failure == EFI_VOLUME_FULL;
    int is_booted = !fails || (kind == menu_allows && has_first);
    const char *remedy = !has_first        ? "To boot all the same: Turn the TPM off in the firmware's setup."
                         : kind == no_menu ? "To boot all the same: Write the lines boot_unmeasured and entries into bootcore/menu.txt."
                                           : "To boot all the same: Write the line boot_unmeasured into bootcore/menu.txt.";
    const char *wrong = boot_once(kind);
    expect("it is booted if all was measured, or the menu is in its PCR and allows it", (wrong == NULL) == is_booted);
    expect("why it is not booted is said", is_booted || strcmp(wrong, words) == 0);
    expect("what was not measured is said", strcmp(measured_words(), fails ? words : "measured") == 0);
    expect("what can be done is said if nothing is booted", strcmp(said, is_booted ? "" : remedy) == 0);
    expect("nothing is measured behind a failure that is not allowed", is_booted || event_count == failed_from + 1);
    expect("all is measured that can be", !is_booted || event_count == all);
}

/* ---- a handover's events */

static void check_handover(uint32_t protocol, size_t map_length, size_t smbios_length) {
    static uint8_t map[max_text + 1], tables[max_text + 1];
    const menu_entry entry = {.title = "T", .core = {.protocol = protocol}};
    const int is_copied = protocol == BOOTCORE_PROTOCOL_MULTIBOOT2;
    const size_t count = 1u + (is_copied && map_length != 0) + (is_copied && smbios_length != 0);
    const int is_too_long = is_copied && (map_length > max_text || smbios_length > max_text);
    *map = 'a' + (0x62630011 & 1), *tables = 'a' + (0x6263000d & 1);
    failed_from = SIZE_MAX, noted_count = 0;
    boot.map.firmware.efi.map = (bootcore_bytes){map, map_length};
    boot.map.firmware.smbios.tables = (bootcore_bytes){tables, smbios_length};
    find_tpm();
    const char *wrong = measure_handover(&entry);
    expect("what is too long for an event is not measured", (wrong != NULL) == is_too_long);
    expect("a handover counts as measured by its own event", is_handover_measured() == !is_too_long);
    if (is_too_long) return;
    expect("Multiboot2's copies are events of their own, and Linux has none", noted_count == count);
    if (is_copied && map_length) expect("UEFI's map is the first one", noted[0].tag == 0x62630011 && noted[0].length == map_length);
    if (is_copied && smbios_length)
        expect("SMBIOS comes behind it", noted[count - 2].tag == 0x6263000d && noted[count - 2].length == smbios_length);
    expect("the description is the last one, with the image's digest",
           noted[count - 1].tag == 0x6263000c && !noted[count - 1].measures_itself && noted[count - 1].length == 4);
}

static void check_handovers(void) {
    static const size_t lengths[] = {0, 1, 5000, max_text, max_text + 1};
    for (uint32_t protocol = 1; protocol <= 3; protocol++)
        for (int at = 0; at < 25; at++) {
            int status = 1;
            pid_t boot_id = fork();
            if (boot_id == 0) exit((check_handover(protocol, lengths[at / 5], lengths[at % 5]), 0));
            expect("a process of a handover ends well", waitpid(boot_id, &status, 0) == boot_id && status == 0);
        }
}

int main(void) {
    static const struct {
        EFI_STATUS status;
        const char *words;
    } failures[] = {{EFI_VOLUME_FULL, "not measured: the TPM's log is full"},
                    {EFI_DEVICE_ERROR, "not measured: the TPM does not answer"},
                    {EFI_UNSUPPORTED, "not measured: the firmware can't use its TPM"},
                    {EFI_INVALID_PARAMETER, "not measured: the firmware refuses to"}};
    for (int at = 0; at < 4 * 3 * 7; at++) {
        int status = 1;
        pid_t boot_id = fork();
        if (boot_id == 0) {
            failure = failures[at % 4].status, failed_from = (size_t)(at / 12);
            check_boot((enum menu_kind)(at / 4 % 3), failures[at % 4].words);
            return 0;
        }
        expect("a process ends well", waitpid(boot_id, &status, 0) == boot_id && status == 0);
    }
    check_handovers();
    return 0;
}
