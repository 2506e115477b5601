/* The menu file: a line is a word and what it is about. docs/EFI.md has the words. */
#include "app.h"

struct menu_file menu;
const char *const protocols[4] = {"", "multiboot2", "linux", "linux64"};

/* ---- what an entry is made of */

/* A Multiboot2 kernel is given copies of the RSDPs, in the tags 14 and 15 of its information. */
static void set_protocol(const char *word, bootcore_entry *core) {
    const uint8_t *old = find_rsdp(0), *new = find_rsdp(1);
    uint32_t length = new ? *(const uint32_t *)(new + 20) : 0; /* the table's own field */
    if (!check(core->protocol == 0, "an entry has one protocol")) return;
    for (uint32_t i = BOOTCORE_PROTOCOL_MULTIBOOT2; i <= BOOTCORE_PROTOCOL_LINUX64; i++)
        if (is_word(word, protocols[i])) core->protocol = i;
    check(core->protocol != 0, "no such protocol");
    if (core->protocol != BOOTCORE_PROTOCOL_MULTIBOOT2) return;
    if (old) core->rsdp_old = keep_bytes(old, 20);
    if (length >= 36 && length <= BOOTCORE_MAX_RSDP) core->rsdp_new = keep_bytes(new, length);
}

static void set_partition(char *name, menu_entry *entry) {
    check(entry->partition == NULL, "an entry has one partition");
    check(strlen(name) == partition_letters, "the GUID of a partition is wanted, of 36 letters");
    for (size_t i = 0; name[i]; i++) name[i] = small_letter(name[i]);
    entry->partition = name;
}

static void add_module(char *text, menu_entry *entry) {
    check(entry->core.protocol == BOOTCORE_PROTOCOL_MULTIBOOT2, "only a multiboot2 kernel has modules");
    check(entry->core.module_count < BOOTCORE_MAX_MODULES, "too many modules of an entry");
    if (mistake != NULL) return;
    entry->core.modules = entry->modules;
    entry->modules[entry->core.module_count++].line = keep_line(cut_word(text));
    entry->paths[entry->file_count++] = path_of(text);
}

/* ---- lines */

static void add_fallbacks(char *text) {
    while (*text && check(menu.fallback_count < BOOTCORE_MAX_ENTRIES, "too many fallbacks")) {
        char *rest = cut_word(text);
        menu.fallbacks[menu.fallback_count++] = number_of(text);
        text = rest;
    }
}

static void set_program(char *path, menu_entry *entry) {
    if (!check(entry->core.protocol == 0, "an entry has one protocol")) return;
    entry->core.protocol = efi_program;
    set_kernel(path, entry);
}

static void add_linux_ramdisk(char *path, menu_entry *entry) {
    check(entry->core.protocol == BOOTCORE_PROTOCOL_LINUX || entry->core.protocol == BOOTCORE_PROTOCOL_LINUX64,
          "only a Linux kernel has ramdisks");
    add_ramdisk(path, entry);
}

static void set_line(const char *text, bootcore_entry *core) {
    check(*text != 0, "a line is wanted");
    if (check(core->line.bytes == NULL, "an entry has one line")) core->line = keep_line(text);
}

static void begin_entry(const char *title) {
    if (!check(menu.entry_count < BOOTCORE_MAX_ENTRIES, "too many entries")) return;
    check(*title != 0, "a title is wanted");
    menu_entry *entry = &menu.entries[menu.entry_count++];
    entry->title = title;
    entry->file_count = 1; /* the kernel, which is named somewhere below */
}

static void read_line(const char *word, char *rest) {
    menu_entry *entry = &menu.entries[menu.entry_count ? menu.entry_count - 1 : 0];
    int has_protocol = entry->core.protocol != 0 && entry->core.protocol < efi_program;
    if (is_word(word, "timeout")) menu.seconds = number_of(rest);
    else if (is_word(word, "default")) menu.chosen = number_of(rest);
    else if (is_word(word, "fallback")) add_fallbacks(rest);
    else if (is_word(word, "arena")) menu.arena = (uint64_t)number_of(rest) * 1024;
    else if (is_word(word, "fallback_always")) menu.falls_back = 1;
    else if (is_word(word, "keep")) menu.keeps = 1;
    else if (is_word(word, "entries")) menu.lists_entries = 1;
    else if (is_word(word, "boot_unmeasured")) menu.boots_unmeasured = 1;
    else if (is_for_tests(word, rest)) return;
    else if (is_word(word, "title")) begin_entry(rest);
    else if (!check(menu.entry_count != 0, "an entry begins with its title")) return;
    else if (is_word(word, "protocol")) set_protocol(rest, &entry->core);
    else if (is_word(word, "efi") && has_protocol && is_word(rest, "no")) entry->has_no_efi = 1;
    else if (is_word(word, "efi")) set_program(rest, entry);
    else if (!check(entry->core.protocol != 0, "the protocol comes behind the title")) return;
    else if (is_word(word, "partition")) set_partition(rest, entry);
    else if (is_word(word, "kernel")) set_kernel(rest, entry);
    else if (is_word(word, "module")) add_module(rest, entry);
    else if (is_word(word, "ramdisk")) add_linux_ramdisk(rest, entry);
    else if (is_word(word, "screen"))
        entry->has_no_screen = check(is_word(rest, "no"), "the only value is no");
    else if (check(is_word(word, "line"), "no such word")) set_line(rest, &entry->core);
}

/* How many entries loader/entries has changes as kernels come and go: a number that has become too
   great should not keep the rest from booting. */
static void forget_missing(void) {
    uint32_t count = 0;
    if (menu.chosen >= menu.entry_count) menu.chosen = 0;
    for (uint32_t i = 0; i < menu.fallback_count; i++)
        if (menu.fallbacks[i] < menu.entry_count) menu.fallbacks[count++] = menu.fallbacks[i];
    menu.fallback_count = count;
}

const char *read_menu(char *text, uint32_t *line) {
    static uint8_t room[max_text];
    text_room = (struct text_room){room, sizeof room};
    menu.boots_unmeasured = 0;
    menu.seconds = no_limit;
    menu.arena = BOOTCORE_ARENA;
    *line = each_line(text, read_line);
    for (uint32_t i = 0; i < menu.entry_count && mistake == NULL; i++) name_partition(&menu.entries[i]);
    if (mistake != NULL) return mistake;
    if (menu.lists_entries) {
        list_entries();
        forget_missing();
    }
    check(menu.entry_count != 0, "there is no entry");
    check(menu.chosen < menu.entry_count, "the default is no entry");
    for (uint32_t i = 0; i < menu.fallback_count; i++)
        check(menu.fallbacks[i] < menu.entry_count, "a fallback is no entry");
    for (uint32_t i = 0; i < menu.entry_count; i++)
        check(menu.entries[i].paths[0] != NULL || menu.entries[i].name != NULL,
              "an entry has no kernel");
    return mistake;
}

/* ---- the menu, once it is read */

void list_attempts(int with_fallbacks) {
    uint32_t seen[BOOTCORE_MAX_ENTRIES] = {0};
    menu.attempt_count = 0;
    for (uint32_t i = 0; i <= (with_fallbacks ? menu.fallback_count : 0); i++) {
        uint32_t entry = i == 0 ? menu.chosen : menu.fallbacks[i - 1];
        if (!seen[entry]++) menu.attempts[menu.attempt_count++] = entry;
    }
}
