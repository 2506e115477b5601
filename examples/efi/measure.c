/* What is booted is measured into the machine's TPM, before it is used. docs/EFI.md has the events.
   A PCR can't be set back: so once something could not be measured, nothing is started any more, if
   the menu does not say otherwise, and then it was measured itself. */
#include "app.h"
#include "tcg2.h"

enum { started_pcr = 4, text_pcr = 8, file_pcr = 9, handover_pcr = 12 };
/* Our own, by which a checker knows these events: "bc" and the PCR. */
enum { own_tag = 0x62630000 };
/* In a PCR's place: what a Multiboot2 kernel gets a copy of, by the types of its tags. */
enum { smbios_tag = 13, efi_map_tag = 17 };

tcg2 *tpm;
int has_agile_log;

static const char *fault;  /* why something was not measured; NULL so far */
static int is_in_pcr, is_begun; /* whether the last event is in its PCR, and whether any is */

static struct __attribute__((packed)) {
    tcg2_event head;
    char data[sizeof(tcg2_tag) + max_text];
} event;
#define content (event.data + sizeof(tcg2_tag)) /* of one with a tag */

/* A firmware that has given up a TPM says that there is none, as where there never was one. */
void find_tpm(void) {
    static EFI_GUID id = TCG2_PROTOCOL;
    tcg2_capability has = {.size = sizeof has};
    if (EFI_ERROR(BS->LocateProtocol(&id, NULL, (void **)&tpm))) tpm = NULL;
    int is_told = tpm != NULL && !EFI_ERROR(tpm->GetCapability(tpm, &has));
    if (is_told && !has.is_present) tpm = NULL;
    has_agile_log = !is_told || (has.logs & agile_log) != 0;
}

const char *measured_words(void) {
    if (tpm == NULL) return "not measured: no TPM";
    return fault != NULL ? fault : "measured";
}

static const char *fault_words(EFI_STATUS status) {
    switch (status) {
    case EFI_VOLUME_FULL: return "not measured: the TPM's log is full";
    case EFI_DEVICE_ERROR: return "not measured: the TPM does not answer";
    case EFI_UNSUPPORTED: return "not measured: the firmware can't use its TPM";
    default: return "not measured: the firmware refuses to";
    }
}

/* NULL if what was to be measured may be used all the same. The menu is measured first: if nothing is in a
   PCR, its word is not there either, and who runs next could measure another one. */
static const char *fail(const char *why) {
    if (fault == NULL) fault = why;
    return menu.boots_unmeasured && is_begun ? NULL : fault;
}

void say_unmeasured(int has_menu) {
    const char *lines = has_menu ? "Write the line boot_unmeasured into bootcore/menu.txt."
                                 : "Write the lines boot_unmeasured and entries into bootcore/menu.txt.";
    if (fault == NULL || fail(fault) == NULL) return;
    print_sentence("To boot all the same", is_begun ? lines : "Turn the TPM off in the firmware's setup.");
}

/* Measures bytes as an event, whose data stand there already. If the log is full, only the event is
   lost, and a checker can't know what the PCR has. */
static const char *extend(uint32_t pcr, uint32_t type, const void *bytes, uint64_t length,
                          size_t data_length) {
    const uint32_t size = (uint32_t)(sizeof event.head + data_length);
    event.head = (tcg2_event){size, sizeof event.head - 4, 1, pcr, type};
    if (tpm == NULL) return NULL;
    if (fault != NULL && fail(fault) != NULL) return fault;
    EFI_STATUS status = tpm->HashLogExtendEvent(tpm, 0, (UINTN)bytes, length, &event.head);
    is_in_pcr = !EFI_ERROR(status) || status == EFI_VOLUME_FULL;
    is_begun |= is_in_pcr;
    return EFI_ERROR(status) ? fail(fault_words(status)) : NULL;
}

/* The same as an event with a tag, whose content stands there already. An event of the type boot_event
   would be taken for one of another loader's in these PCRs. */
static const char *extend_tagged(uint32_t pcr, uint32_t tag, const void *bytes, uint64_t length,
                                 size_t content_length) {
    const tcg2_tag head = {own_tag + tag, (uint32_t)content_length};
    memcpy(event.data, &head, sizeof head);
    return extend(pcr, tag_event, bytes, length, sizeof head + content_length);
}

/* Puts a text into an event, with a zero byte: its length, or 0 if there is no room. */
static size_t put_text(char *to, const char *what, const void *text, size_t length) {
    size_t start = strlen(what);
    if (start >= max_text || length >= max_text - start) return 0;
    memcpy(to, what, start);
    memcpy(to + start, text, length);
    to[start + length] = 0;
    return start + length + 1;
}

static const char too_long[] = "not measured: it is too long for an event";

/* All of the content is measured, so that no part of the text is the log's word alone. */
static const char *measure_text(uint32_t pcr, const char *what, const void *text, size_t length) {
    length = put_text(content, what, text, length);
    return length ? extend_tagged(pcr, pcr, content, length, length) : fail(too_long);
}

const char *measure_file(const char *path, const void *bytes, uint64_t length) {
    size_t data_length = put_text(event.data, "", path, strlen(path));
    return data_length ? extend(file_pcr, boot_event, bytes, length, data_length) : fail(too_long);
}

const char *measure_choice(const menu_entry *entry) {
    const bootcore_bytes *line = &entry->core.line;
    const char *wrong = measure_text(text_pcr, "bootcore_choice: ", entry->title, strlen(entry->title));
    if (wrong == NULL) wrong = measure_text(text_pcr, "kernel_cmdline: ", line->bytes, line->length);
    for (size_t i = 0; i < entry->core.module_count && wrong == NULL; i++) {
        line = &entry->modules[i].line;
        wrong = measure_text(text_pcr, "module_cmdline: ", line->bytes, line->length);
    }
    return wrong;
}

/* Who verifies a kernel measures it like a program that is started. What stands between these two in that
   PCR was not: only the application that runs can measure the first one before. */
const char *measure_verifying(int is_over) {
    const char *text = is_over ? "end" : "begin";
    return measure_text(started_pcr, "kernel_verify: ", text, strlen(text));
}

/* A log that can't be kept whole is for a checker to complain of: the PCRs have all. */
void say_measured(int is_again) {
    static const char *said;
    const char *words = tpm == NULL ? NULL : find_log();
    if (is_again && words == said) return;
    said = words;
    print("    It is %s.", measured_words());
    if (words != NULL) print(" %s", words);
    print(log_address() == 0 ? "\n" : " The log is at 0x%x.\n", log_address());
}

/* What is long in a handover, and copied to its image: it is measured as it is. */
static const char *measure_copied(uint32_t tag, bootcore_bytes copied) {
    if (copied.length == 0) return NULL;
    if (copied.length > max_text) return fail(too_long);
    memcpy(content, copied.bytes, copied.length);
    return extend_tagged(handover_pcr, tag, content, copied.length, copied.length);
}

/* The image is not one piece of memory, so the firmware can't hash it: its digest is what is
   measured. */
const char *measure_handover(const menu_entry *entry) {
    uint8_t digest[32];
    const char *wrong = NULL;
    if (tpm == NULL) return NULL;
    if (entry->core.protocol == BOOTCORE_PROTOCOL_MULTIBOOT2) {
        wrong = measure_copied(efi_map_tag, boot.map.firmware.efi.map);
        if (wrong == NULL) wrong = measure_copied(smbios_tag, boot.map.firmware.smbios.tables);
    }
    is_in_pcr = 0;
    if (wrong != NULL) return wrong;
    size_t length = describe(&boot.map.machine, entry, 1, content, max_text);
    if (length == 0) return fail("not measured: a line or path is no UTF-8, or all is too long");
    digest_image(digest);
    return extend_tagged(handover_pcr, handover_pcr, digest, sizeof digest, length);
}

int is_handover_measured(void) { return tpm != NULL && is_in_pcr; }
