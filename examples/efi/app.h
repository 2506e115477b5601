/* What the files of this boot manager share. One file a subject; main.c has the order of all. */
#ifndef APP_H
#define APP_H

#include <stddef.h>
#include <stdint.h>

#include <efi.h>

#include "bootcore.h"
#include "bootcore_arena.h"

extern EFI_SYSTEM_TABLE *ST; /* the firmware's tables, as its manuals call them */
extern EFI_BOOT_SERVICES *BS;
extern EFI_HANDLE application; /* this one, as the firmware knows it */

enum {
    page = 4096,
    max_text = 65536 /* bytes of a menu's lines with copies of the RSDP, of an event */
};
#define no_limit UINT32_MAX

/* ---- menu.c: the menu file */

typedef struct {
    const char *title;
    const char *paths[1 + BOOTCORE_MAX_MODULES]; /* of its files in order, the kernel's first */
    uint32_t file_count;
    bootcore_module modules[BOOTCORE_MAX_MODULES];
    const char *partition; /* where they are, by its GUID; NULL: on the disk of the application */
    bootcore_entry core;   /* as the core takes it; read_files puts the files in */
    int has_no_screen, has_no_efi; /* its kernel is not told of these */
    /* of loader/entries alone: its file, that one's name, and without its ending; what it is sorted by,
       what is wrong with it */
    const char *file, *id, *name, *version, *sort_key, *machine, *wrong;
    uint32_t wrong_line;
    uint8_t *room; /* of all these texts */
} menu_entry;

extern struct menu_file {
    menu_entry entries[BOOTCORE_MAX_ENTRIES];
    uint32_t fallbacks[BOOTCORE_MAX_ENTRIES];
    uint32_t attempts[BOOTCORE_MAX_ENTRIES]; /* each once, in order */
    uint32_t chosen;                         /* `default`, until a key chooses another */
    uint32_t entry_count, fallback_count, attempt_count;
    uint32_t seconds; /* the time limit of the choice, no_limit for none */
    uint64_t arena;   /* bytes for the core's own tables */
    int lists_entries;
    int keeps;        /* the choice is kept for the next boot */
    int falls_back;   /* also after a choice by hand */
    int boots_unmeasured; /* also what the TPM fails to measure; set until it is known what the menu says */
} menu;
extern const char *const protocols[4]; /* their words, by the core's numbers */
enum { efi_program = BOOTCORE_PROTOCOL_LINUX64 + 1 }; /* in a protocol's place, and no matter of the core's */

/* Reads the menu out of a text, which it keeps and changes. NULL, or what is wrong: in a line, or
   with line 0 in the whole. */
const char *read_menu(char *text, uint32_t *line);
/* The chosen entry, and the fallbacks if they are wanted. */
void list_attempts(int with_fallbacks);

/* ---- entries.c: the entries of loader/entries */

/* Adds them to the menu. */
void list_entries(void);

/* ---- text.c: texts of lines */

extern const char *mistake; /* the first thing that is wrong with a text, NULL so far */
/* Whether it is good; else this is wrong. */
int check(int is_good, const char *what);
int is_word(const char *word, const char *wanted);
int begins_with(const char *text, const char *start);
char small_letter(char letter);
/* Cuts a line at its first blank: the word before, and the rest without blanks around it. */
char *cut_word(char *line);
/* Calls this for each line, with its word and the rest, until one is wrong: its number, or 0. */
uint32_t each_line(char *text, void (*call)(const char *word, char *rest));
uint32_t number_of(const char *text);
/* How many bytes the character of UTF-8 has that begins here; 0: it is none (RFC 3629, 4). */
size_t character_length(const void *text, size_t left);
/* The same in a text with its zero byte: 1 for a byte that is of none, 0 at the end. */
size_t step_length(const char *text);
/* Such characters and bytes before a place in the text. */
size_t count_characters(const char *text, const char *end);
/* The text in UTF-16, with a zero behind it, where there is room for a letter of each byte, and for that. A byte that
   is of no character is U+FFFD. How many letters it has with the zero; 0: not all was UTF-8. */
size_t widen(const void *text, size_t length, CHAR16 *to);
extern struct text_room {
    uint8_t *next;
    size_t left;
} text_room; /* what is taken is kept there, one behind the other */
bootcore_bytes keep_bytes(const void *bytes, size_t length);
bootcore_bytes keep_line(const char *text);
const char *path_of(char *path);
void set_kernel(char *path, menu_entry *entry);
void add_ramdisk(char *path, menu_entry *entry);
/* A file of another partition has that one's GUID before its path, as a folder. */
void name_partition(menu_entry *entry);

/* ---- partitions.c: partitions of the machine's disks */

enum { partition_letters = 36 };
/* Its GUID as text, until the next call; empty if it has none. */
const char *partition_name(EFI_HANDLE device);
/* The partition with a file system that has this GUID; without one the extended boot partition
   (XBOOTLDR) of the disk of a device, which is another one. NULL if it is not there. */
EFI_HANDLE find_partition(const char *name, EFI_HANDLE own);

/* ---- files.c: files of the disk that the application was started from, and of other partitions */

extern struct entry_files {
    bootcore_bytes read[1 + BOOTCORE_MAX_MODULES]; /* in the order of the paths; ramdisks are one */
    size_t count;
} files; /* of the entry that is attempted */

/* The application's disk; 0 if it can't be read. From here on its files are meant. */
int open_disk(EFI_HANDLE device);
/* From here on those of a partition, by its GUID, or with NULL of the application's disk again. NULL, or
   what is wrong: then they are those of the application's disk. */
const char *use_partition(const char *name);
EFI_HANDLE used_disk(void);
void close_disk(void);
/* A path as the firmware has it: 16-bit letters and backslashes, until the next call. NULL: it is too long, or
   no UTF-8. */
CHAR16 *file_name(const char *path);
int has_file(const char *path);
/* Calls this for each file of a folder whose name is ASCII. */
void each_file(const char *folder, void (*call)(const char *name));
/* A whole file, which has no zero byte, with one behind it; or NULL, and what is wrong with it. It is kept in
   this room, or without one in pages. All that is read is measured first. */
char *read_text(const char *path, struct text_room *room, const char **wrong);
/* Reads an entry's kernel, plans the entry, and reads its other files. NULL, or what is wrong. */
const char *read_files(menu_entry *entry);
/* The core is told where they lie. */
void give_files(menu_entry *entry);

/* ---- pages.c: pages of the firmware's memory, and page tables of our own. NULL: there are none */

/* Pages below 4 GiB, where no step of the plan goes. */
void *take_low_pages(uint64_t count);
/* Pages there if there is room, or anywhere where no step goes. */
void *take_pages(uint64_t count);
/* As the firmware's call has it, and kept to be given back. */
void *take_pages_as(EFI_ALLOCATE_TYPE how, EFI_MEMORY_TYPE type, uint64_t count, uint64_t address);
/* Whether a step goes to some of so many bytes at an address. */
int is_met(const bootcore_step *step, uint64_t start, uint64_t length);
extern uint32_t taken_count; /* how many times pages were taken, and not given back */
/* Gives back all but what was taken first, so many times. */
void give_back(uint32_t kept_count);
/* Page tables, where no step of the plan goes, that map all addresses below 4 GiB, all that was
   taken, and this range, each to itself, to be read, written and executed. 0 if there is too little
   memory. */
int make_tables(const void *start, uint64_t length);
/* What CR3 is to hold where paging has five levels, or four. */
uint64_t tables_address(int has_five_levels);

/* ---- map.c: the firmware's memory map as the core's machine */

typedef struct {
    const EFI_MEMORY_DESCRIPTOR *descriptors; /* in any order; each is so many bytes long: */
    UINTN step, size;                         /* of all */
    UINT32 version;
} memory_list;

typedef struct {
    memory_list list; /* as the firmware gave it, until the next one is read */
    bootcore_machine machine;
    bootcore_region regions[BOOTCORE_MAX_REGIONS];
    bootcore_firmware firmware; /* by tell_firmware; the machine has it then */
    bootcore_avoided avoided[BOOTCORE_MAX_AVOIDED + 1];
    uint64_t usable; /* bytes */
    UINTN key;       /* of the map, for ExitBootServices */
} machine_map;

/* NULL, or why the firmware's map gives no machine. The firmware is asked for nothing else. */
const char *read_map(machine_map *map);
/* The first range from an address on that has a page, or NULL. They overlap nowhere. */
const EFI_MEMORY_DESCRIPTOR *first_range(const memory_list *list, uint64_t start);
/* Whether two lists differ only in what memory was used for that is free once the firmware has ended. */
int are_alike(const memory_list *one, const memory_list *other);
/* Memory of boot services, with room for one range more than the core takes. If there are more, those
   are joined that have no usable memory between them, or the least: how many there are. They ascend,
   and none adjoins another one. */
size_t list_avoided(const machine_map *map, bootcore_avoided *ranges);

/* ---- tables.c: tables of the firmware's */

/* One that its system table lists, or NULL. */
const void *find_listed(const EFI_GUID *id);
/* The RSDP of ACPI 2.0 or of 1.0, or NULL. */
const uint8_t *find_rsdp(int is_new);
/* Numbers, which may stand at any address. */
uint32_t number16(const uint8_t *at);
uint32_t number32(const uint8_t *at);
uint64_t number64(const uint8_t *at);

/* ---- firmware.c: what firmware tells beside memory */

/* Looks for it, and takes pages, for one attempt to boot. */
void find_firmware(void);
/* Tells it of a map that was just read, for an entry. Within an attempt lists that are alike are told as
   the first of them. The firmware is asked for nothing. */
void tell_firmware(machine_map *map, const menu_entry *entry);
/* As it was found; on is also a state that the firmware does not tell, and off one that shim ignores. */
int is_secure_boot_on(void);
/* shim's protocol, and the vendor of its variables. */
#define SHIM_LOCK {0x605dab50, 0xe046, 0x4300, {0xab, 0xb6, 0x3d, 0xd8, 0x10, 0xdd, 0x8b, 0x23}}

/* ---- memory.c */

void *memcpy(void *to, const void *from, size_t length);
void *memset(void *to, int byte, size_t length);
int memcmp(const void *one, const void *other, size_t length);
size_t strlen(const char *text);

/* ---- boot.c: the plan, and the end of the firmware */

extern struct boot_state {
    machine_map map;
    bootcore_layout layout;
    uint32_t left_out[5]; /* statuses for which the core is not told all that firmware tells */
    uint32_t left_out_count;
    int avoids_nothing; /* since the entry is refused otherwise */
} boot;

/* Room for a plan, and for the core's tables while it makes one. */
int take_plan_room(void);
const char *refusal_words(const bootcore_refusal *refusal);
/* Plans an entry, whose kernel was read, on the firmware's map as it is now. NULL, or why it can't be
   booted. The firmware is asked for nothing but the map. */
const char *plan_entry(const menu_entry *entry);
/* Plans an entry, whose files were read, and makes all ready for the firmware's end. The firmware is
   asked for nothing but the map and pages. */
const char *make_ready(menu_entry *entry);
/* Ends the firmware and enters the entry's kernel. It returns, with what is wrong, only while the
   firmware serves. */
const char *leave_firmware(EFI_HANDLE image, menu_entry *entry);

/* ---- moves.c: what is left to copy then, and where all lies meanwhile */

typedef struct {
    uint64_t to, from, length; /* from 0: zeros */
} move;

/* Pages for an entry's file, as the core counts them: where a step takes it whole, if that memory is
   free; or where no step goes. */
void *take_file_pages(uint32_t file, uint64_t length);
/* Moves files and the plan's bytes to where no step goes over them. 0 if there is too little memory. */
int clear_sources(void);
/* Whether its bytes come from elsewhere. */
int is_moved(const move *each);
/* All of the image that the plan makes: its head, which is put into that room; the steps, also those
   whose bytes are in place; and one of no bytes. The sources were cleared. */
void list_moves(move *list, uint8_t *head);

/* ---- entry.c, entry.S: what is left to do without the firmware */

typedef struct last_pages last_pages;
extern last_pages *last; /* what is needed until the kernel runs */
extern uint64_t last_length;
const move *last_moves(void);
/* Makes these pages and page tables, where no step goes. 0 if there is too little memory. */
int make_entry(void);
/* The SHA-256 of the image that the plan makes, from where its moves take it. */
void digest_image(uint8_t *digest);
/* Loads by the plan, and enters the kernel; or restarts the machine, if what was to be loaded was
   measured and is not what lies there now. It never returns. */
void enter_alone(void);

/* ---- digest.c: the SHA-256 of an image, one at a time */

typedef struct {
    const move *moves;
    uint32_t constants[64], first[8], state[8], words[64];
    uint32_t wanted[8]; /* the digest that was measured */
    uint8_t padding[72];
} digest_work;

void begin_digest(digest_work *work, const move *moves);
/* Goes through the moves: the bytes that they take, or once they are made, those that they brought.
   Whether the digest is the wanted one. */
int digest_moves(digest_work *work, int are_made);
/* Its 32 bytes. */
void end_digest(const digest_work *work, uint8_t *digest);

/* ---- keep.c: the choice, kept for the next boot */

/* The entry that was kept is chosen, if the menu wants it and still has it. */
void mark_kept(void);
/* 0 if the choice can't be kept. */
int keep_choice(void);
/* How often in a row the machine was restarted, which is forgotten then. */
uint32_t forget_restarts(void);
/* Keeps that it is restarted, by runtime services alone, which serve also as the firmware ends. 0 if
   that can't be kept. */
int keep_restart(void);

/* ---- variables.c: those of the Boot Loader Interface */

/* Takes from them the time limit and which entry is chosen. */
void read_variables(void);
/* Writes of the firmware, the application and the menu's entries. */
void write_variables(const EFI_LOADED_IMAGE *self);
/* Writes which entry is attempted. */
void write_selected(uint32_t index);

/* ---- measure.c: the TPM. NULL, or why what is to be measured must not be used */

void find_tpm(void);
/* `measured`, or `not measured` and why. */
const char *measured_words(void);
/* Says that of a handover, and of the log; again only what is new of the log. */
void say_measured(int is_again);
/* If nothing is started since it was not measured: the screen says what can be done. */
void say_unmeasured(int has_menu);
/* A file as it was read. */
const char *measure_file(const char *path, const void *bytes, uint64_t length);
/* An entry's title and lines. */
const char *measure_choice(const menu_entry *entry);
/* That an entry's kernel is verified next, and that this is over. */
const char *measure_verifying(int is_over);
/* What make_ready has planned, and listed to be copied. The firmware's map may change by it. */
const char *measure_handover(const menu_entry *entry);
int is_handover_measured(void);

/* ---- log.c: the TPM's event log, for who checks what was booted */

/* Finds room for it, where no part of a kernel comes. */
void take_log_room(void);
/* 0 if it is not kept. */
uint64_t log_address(void);
/* After the last event that is measured. NULL, or what the screen is to say of the log: always one of
   the same few texts. */
const char *find_log(void);
/* Copies the log to its room, if it was found, once the firmware has ended. */
void keep_log(void);

/* ---- describe.c */

/* Writes the description of what is handed over for an entry, whose files were read, on a machine: as
   it is measured, with lengths of UEFI's map and SMBIOS's tables alone, or as a program takes it. How
   long it is; 0: a line or a path is no UTF-8, or there is too little room. */
size_t describe(const bootcore_machine *machine, const menu_entry *entry, int is_measured, char *text,
                size_t room);

/* ---- program.c: another EFI program */

/* The way to a disk's file, as the firmware has it, until the next call. NULL: it is too long, or no UTF-8. */
EFI_DEVICE_PATH *find_way(EFI_HANDLE disk, const char *path);
/* Starts an entry's program from the disk that is used. NULL if it ended well, or what is wrong. */
const char *start_program(EFI_HANDLE image, const menu_entry *entry);

/* ---- verify.c: Secure Boot */

/* Of an entry's kernel, as it was read, whose file has no more than what was verified then. NULL, or why
   it must not be booted. */
const char *verify_kernel(const menu_entry *entry);
/* Whether its kernel must be told that Secure Boot is on, and is not. */
int hides_secure_boot(const menu_entry *entry);

/* ---- screen.c */

/* `%s` a text, `%c` a letter; `%u` and `%x` a uint64_t, by ten and by sixteen. */
void print(const char *form, ...);
/* The same as a text, until the next call. */
const char *compose(const char *form, ...);
/* A line, or more where a row has no room for it: what it is about, and a sentence. */
void print_sentence(const char *about, const char *sentence);
extern char *kept, *kept_end; /* room where text is kept; it is shown if there is none */

enum { shown_seconds = 30 }; /* of what nobody may read */
/* By hand to the firmware, or since nobody can choose, to what it boots next. */
enum choice { chosen_by_time, chosen_by_hand, to_firmware, to_next };
int open_screen(void);
void close_screen(void);
/* The choice, in menu.chosen. */
enum choice choose_entry(void);
/* Whether a key is pressed before so many seconds are over, or no_limit: where no key can be, that is shown_seconds. */
int wait_key(uint32_t seconds);

/* ---- write.c: what a build for tests alone has */

#ifdef FOR_TESTS
/* In files.c: a new file, and bytes at its end. */
EFI_FILE *create_file(const char *path);
int append(EFI_FILE *file, const void *bytes, uint64_t length);
/* Takes a word of the menu's that is for tests; 0: it is none. */
int is_for_tests(const char *word, const char *rest);
/* Where the menu wants it: writes the handover, and where all lies, as files on the disk; changes the
   memory map, or a byte that was measured. */
void write_handover(const menu_entry *entry);
void change(const char *when);
#else
#define is_for_tests(word, rest) 0
#define write_handover(entry) (void)0
#define change(when) (void)0
#endif

#endif
