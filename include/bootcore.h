/* bootcore: what a boot loader does with memory, for C99 and later, and C++98 and later.
 *
 * Kernels are those of Multiboot2, and Linux's bzImage: no vmlinux, no PVH. To load one entry into
 * memory: bootcore_load. To learn first what goes where, and read files straight there:
 * bootcore_plan. To boot a menu with fallbacks: bootcore_boot, or a session if a disk still reads.
 * To measure what is handed over: bootcore_digest_make. To check an image: bootcore_walk.
 *
 * Archive. libbootcore.a wants memmove, memset and memcpy, and malloc, realloc and free, which
 * align as the C library's and always return; nothing else: no file, no clock, no thread. For
 * firmware and kernels, libbootcore_freestanding.a wants nothing: bootcore_arena.h gives it memory.
 * Of both the headers' functions alone are global, and hidden: no shared object exports them.
 *
 * Target. x86-64 (x86-64-v2, with SSE enabled) and the System V calling convention: a call changes
 * XMM registers, but neither MXCSR nor the x87's state. It needs at most BOOTCORE_STACK bytes of
 * stack. libbootcore.a keeps values in the 128 bytes below the stack pointer (the red zone): where
 * an interrupt may use the same stack, link the other one, since NMIs can't be turned off. Archives
 * of the plain source, whose header defines BOOTCORE_FROM_SOURCE, may be for aarch64 too.
 *
 * Units. Addresses and lengths are in bytes, and addresses are those of the machine that is booted.
 * A frame is 4096 bytes at a multiple of 4096. An index counts from 0.
 *
 * Memory. All of it is the caller's before, during and after a call. What a call takes from malloc
 * it frees before it returns, but for what a session or a digest keeps. No pointer is kept, and
 * none handed out but to constant text. A call reads nothing but what it is given, and writes
 * nothing but parts, the pool and what is said here that it tells.
 *
 * Threads. Two calls at once know nothing of each other, if they share nothing that either may
 * change; but all that use an arena share it. On one session, or one digest, make one call at a
 * time, also of those that take it as const. Call from no signal handler.
 *
 * What the caller keeps; no call can test it:
 * - a pointer that is not null points to as many elements as are told, of its type, aligned as it
 *   is there, that nobody else changes during the call;
 * - what a call may change overlaps nothing else that it is given, and nothing of the program;
 * - a session's struct and pool, a digest's struct, between two calls: see there.
 * An array without elements may be null. Whatever else is given, a call ends, and has a status.
 *
 * Versions. BOOTCORE_VERSION is this file's, bootcore_version() the archive's. Within 1.x a
 * function keeps its name and arguments, a struct its size and fields, a number its meaning. New
 * functions and numbers may come, and meanings for reserved words. These must be 0 in what a call
 * is given; in what it tells they are 0, and not looked at. A source of steps, or an answer of a
 * session that wants another call, comes only where a reserved word asks for it. */
#ifndef BOOTCORE_H
#define BOOTCORE_H

#include <stdbool.h>
#include <stddef.h>
#include <stdint.h>

#ifdef __cplusplus
extern "C" {
#endif

/* The convention of calls, also where the compiler's own is another, as for UEFI. Of a
 * BOOTCORE_CHECKED one the answer must be looked at: it says whether anything was done. */
#if defined(__x86_64__) && !defined(__ILP32__) && (defined(__GNUC__) || defined(__clang__))
#define BOOTCORE_CALL __attribute__((sysv_abi))
#define BOOTCORE_CHECKED __attribute__((sysv_abi, warn_unused_result))
#elif defined(__AARCH64EL__) && defined(__LP64__) && defined(BOOTCORE_FROM_SOURCE)
#define BOOTCORE_CALL
#define BOOTCORE_CHECKED __attribute__((warn_unused_result))
#else
#error "bootcore is for x86-64, by GCC or Clang; BOOTCORE_FROM_SOURCE is for aarch64's archive"
#endif

#define BOOTCORE_VERSION 10000 /* major * 10000 + minor * 100 + patch */
BOOTCORE_CALL uint32_t bootcore_version(void);

enum {
    BOOTCORE_MAX_REGIONS = 128,
    BOOTCORE_MAX_ENTRIES = 32,
    BOOTCORE_MAX_MODULES = 64,  /* of an entry */
    BOOTCORE_MAX_LINE = 4095,   /* bytes of a line; a Linux kernel may take fewer */
    BOOTCORE_MAX_RSDP = 256,    /* bytes of a copy of an RSDP */
    BOOTCORE_MAX_PLACES = 256,  /* an entry has no more parts, */
    BOOTCORE_MAX_STEPS = 520,   /* a plan no more steps, */
    BOOTCORE_MAX_OWN = 409600,  /* and no more bytes of its own */
    BOOTCORE_MAX_REFUSALS = 32, /* a boot refuses no more entries */
    BOOTCORE_MAX_AVOIDED = 128, /* ranges in which nothing is placed */
    BOOTCORE_PIECE = 4096,      /* bytes of each piece of a file, but for the last one */
    BOOTCORE_STACK = 24576      /* with the proved libbootcore.a 16384 is enough */
};

/* What a call answers, in comments without BOOTCORE_STATUS_. A misuse, from 101 on, has changed
 * nothing, but that a layout holds no plan then. Of several the first is told, where 119 and 120
 * come behind 105, and 121 to 134 behind 109; of too many elements only one more than there may be
 * is looked at, but a line is read whole. */
enum {
    BOOTCORE_STATUS_DONE = 0,
    BOOTCORE_STATUS_REFUSED = 1,   /* the entry is refused; a boot: all are; a walk: the image */
    BOOTCORE_STATUS_WAITING = 2,   /* a session awaits pieces, or its start; a digest wants bytes */
    BOOTCORE_STATUS_NEXT = 3,      /* a session: an entry was refused, it awaits another's pieces */
    BOOTCORE_STATUS_NO_MEMORY = 4, /* malloc or realloc gave none. NULL, BAD_RESERVED, BAD_FILE and
                                    * an outcome's SMALL_ROOM come first; it may replace others */
    BOOTCORE_STATUS_FAILED = 5,    /* a session: no entry is left, or memory ran out */
    BOOTCORE_STATUS_OUTSIDE = 6,   /* a load: a part begins below memory; a step lies outside it */

    BOOTCORE_STATUS_NULL = 101,         /* a pointer is null that may not be */
    BOOTCORE_STATUS_BAD_RESERVED = 102, /* a reserved word is not 0 */
    BOOTCORE_STATUS_BAD_FILE = 103,     /* a file of no menu: unreadable, or too short for a plan */
    BOOTCORE_STATUS_SMALL_ROOM = 104,   /* too little room: in an outcome, or else told last */
    BOOTCORE_STATUS_BAD_KIND = 105,     /* a region's kind is no BOOTCORE_KIND_.. */
    BOOTCORE_STATUS_BAD_SIZE = 106,     /* the size is no multiple of 4096 from 1 MiB to 4 GiB */
    BOOTCORE_STATUS_TOO_MANY_REGIONS = 107,
    BOOTCORE_STATUS_BAD_REGION = 108,   /* a region ends above 2^52 */
    BOOTCORE_STATUS_BAD_POOL = 109,     /* the pool is not of whole frames, or not all is usable */
    BOOTCORE_STATUS_BAD_MEMORY = 110,   /* memory ends below the machine's size (of a boot: not at
                                         * it), or begins at 4 GiB or above */
    BOOTCORE_STATUS_BAD_PROTOCOL = 111, /* an entry's protocol is no BOOTCORE_PROTOCOL_.. */
    BOOTCORE_STATUS_TOO_MANY_ENTRIES = 112,
    BOOTCORE_STATUS_TOO_MANY_MODULES = 113,
    BOOTCORE_STATUS_LONG_RSDP = 114,    /* a copy of an RSDP is too long */
    BOOTCORE_STATUS_BAD_INDEX = 115,    /* a menu's first entry or a fallback is no entry */
    BOOTCORE_STATUS_NO_SESSION = 116,   /* no session, no digest is kept: not made, or freed */
    BOOTCORE_STATUS_LOW_POOL = 117,     /* a pool begins below memory; a boot: also for NO_MEMORY */
    BOOTCORE_STATUS_UNWANTED = 118,     /* a digest: more bytes than are wanted */
    /* of what firmware tells: docs/REFUSALS.md says more of 121 to 134 */
    BOOTCORE_STATUS_BAD_EFI_BITS = 119,     BOOTCORE_STATUS_BAD_SECURE_BOOT = 120,
    BOOTCORE_STATUS_BAD_SCREEN_SIZE = 121,  BOOTCORE_STATUS_BAD_SCREEN_DEPTH = 122,
    BOOTCORE_STATUS_BAD_SCREEN_COLOR = 123, BOOTCORE_STATUS_BAD_SCREEN_PITCH = 124,
    BOOTCORE_STATUS_BAD_SCREEN_PLACE = 125, BOOTCORE_STATUS_BAD_RSDP = 126,
    BOOTCORE_STATUS_BAD_SYSTEM_TABLE = 127, BOOTCORE_STATUS_BAD_DESCRIPTORS = 128,
    BOOTCORE_STATUS_BAD_EFI_MAP_SIZE = 129, BOOTCORE_STATUS_BAD_EFI_MAP_PLACE = 130,
    BOOTCORE_STATUS_BAD_SMBIOS_SIZE = 131,  BOOTCORE_STATUS_TOO_MANY_AVOIDED = 132,
    BOOTCORE_STATUS_BAD_AVOIDED = 133,      BOOTCORE_STATUS_POOL_AVOIDED = 134
};

/* What a status means, in a sentence; of any other number that there is none. Constant text. */
BOOTCORE_CALL const char *bootcore_status_text(uint32_t status);

/* ---- what is booted, and on what */

/* Bytes of the caller's: a line, a file. */
typedef struct bootcore_bytes { const void *bytes; size_t length; } bootcore_bytes;

/* The length of a menu's file that can't be read: its entry is refused (1). */
#define BOOTCORE_UNREADABLE (~(size_t)0)

/* Kinds of memory: the numbers of an e820 entry. Where regions overlap, the greatest counts. An
 * address is usable if its kind is BOOTCORE_KIND_USABLE and it lies from 4096 on, below the
 * machine's size and below 0xFFFFF000; an address in no region is not. */
enum {
    BOOTCORE_KIND_USABLE = 1, BOOTCORE_KIND_RESERVED = 2, BOOTCORE_KIND_ACPI = 3,
    BOOTCORE_KIND_NVS = 4,    BOOTCORE_KIND_BAD = 5
};

typedef struct bootcore_region { uint64_t base, length; uint32_t kind, reserved; } bootcore_region;

/* A screen with pixels of direct colour. Its memory begins at `base`, and ends at 2^52 at most. The
 * pitch, in bytes, the width and the height are 1 to 65535, and a line's pixels fit into the pitch.
 * A pixel has 15, 16, 24 or 32 bits, a colour `size` of them from bit `position` on. */
typedef struct bootcore_color { uint8_t position, size; } bootcore_color;
typedef struct bootcore_screen {
    uint64_t base; /* 0: no screen is told */
    uint32_t pitch, width, height;
    uint8_t depth, reserved8; bootcore_color red, green, blue; uint32_t reserved32;
} bootcore_screen;

/* UEFI: its system table, with 32 bits below 4 GiB, and the memory map of GetMemoryMap, 64 KiB at
 * most: whole descriptors of 40 bytes or more, a multiple of 8, of version 1. Linux reads the map
 * where it lies, at a multiple of 8, with an end at 4 GiB at most; Multiboot2 has a copy. */
typedef struct bootcore_efi {
    uint64_t system_table; /* its address; 0: no UEFI is told */
    bootcore_bytes map;
    uint64_t map_address; /* where it lies, whatever the protocol */
    uint32_t bits, descriptor_size, descriptor_version; /* 32 or 64 bits */
    uint32_t secure_boot; /* 0 not told, 1 not known, 2 disabled, 3 enabled */
} bootcore_efi;

/* The tables of SMBIOS, 64 KiB at most, and their version. */
typedef struct bootcore_smbios {
    bootcore_bytes tables; /* of length 0: none are told */
    uint8_t major, minor; uint16_t reserved16; uint32_t reserved32;
} bootcore_smbios;

/* A range of addresses in which nothing is placed. It ends at 2^52 at most. */
typedef struct bootcore_avoided { uint64_t base, length; } bootcore_avoided;

/* What firmware tells beside memory, and the kernel is told in its protocol's form: the screen and
 * UEFI by each, the RSDP's address and secure boot by Linux's, SMBIOS by Multiboot2's. No byte of
 * the screen, of the RSDP's 36 or of the map where it lies may be usable: else a part could lie
 * there. What is avoided is told as what it is, and misses the pool. Of what is not told pointers
 * and reserved words alone are looked at. All 0: it tells nothing. */
typedef struct bootcore_firmware {
    bootcore_screen screen;
    uint64_t rsdp; /* 0: it is not told */
    bootcore_efi efi;
    bootcore_smbios smbios;
    const bootcore_avoided *avoided; /* in any order, may overlap */
    size_t avoided_count;
    uint64_t reserved[6];
} bootcore_firmware;

/* A machine. Its size is where its memory below 4 GiB ends: no part lies above. Regions come in any
 * order, may overlap, and may lie above the size, as a guest's memory above 4 GiB does; the kernel
 * is told the runs of memory that they make, all of them. The pool is where a boot or a session
 * keeps what it has read of files: usable whole frames. Each file fills frames of its own, and as
 * many must lie beside the entry's parts (else 21). A load or a plan needs none: leave both words
 * 0. Of length 0 it may begin at any frame. */
typedef struct bootcore_machine {
    uint64_t size, pool_base, pool_length;
    const bootcore_region *regions;
    size_t region_count;
    const bootcore_firmware *firmware; /* null: it tells nothing */
    uint64_t reserved[3];
} bootcore_machine;

/* The index of the region of BAD_KIND, or else of BAD_REGION; if none region_count, if null 0. */
BOOTCORE_CALL size_t bootcore_bad_region(const bootcore_machine *machine);

/* How a kernel is entered. Both Linux entries want two usable frames between 0x1000 and 0xA0000:
 * the lowest one there gets the boot parameters, another one the line. */
enum {
    BOOTCORE_PROTOCOL_MULTIBOOT2 = 1,
    BOOTCORE_PROTOCOL_LINUX = 2,  /* the 32-bit entry of the Linux boot protocol */
    BOOTCORE_PROTOCOL_LINUX64 = 3 /* its 64-bit entry */
};

typedef struct bootcore_module {
    bootcore_bytes file, line; uint64_t reserved[2]; /* the line without a zero byte */
} bootcore_module;

/* An entry. What its protocol has no use for is not looked at. A Multiboot2 kernel is an ELF file,
 * or a file with an address tag. A Linux kernel is a bzImage of boot protocol 2.10 or later, for
 * the 64-bit entry 2.12 with bit 0 of xloadflags. Linux looks for the RSDP from 0xE0000 to 0xFFFFF:
 * lay it there, in a reserved region; or tell its address as what firmware tells. Where a call
 * looks at a file's length alone (a session; a plan, but of the kernel), its bytes may be null. An
 * initial ramdisk of length 0 is as none; such a module has a frame. */
typedef struct bootcore_entry {
    uint32_t protocol, reserved32;
    bootcore_bytes kernel, line;    /* the line without a zero byte */
    bootcore_bytes initrd;          /* Linux; what follows is for Multiboot2: */
    bootcore_bytes rsdp_old;        /* a copy of the RSDP of ACPI 1.0, */
    bootcore_bytes rsdp_new;        /* and of that of ACPI 2.0 or later; without bytes: none */
    const bootcore_module *modules;
    size_t module_count;
    uint64_t reserved[4];
} bootcore_entry;

/* Memory of the machine that is booted, where the caller has it: the bytes from an address on. */
typedef struct bootcore_memory {
    uint64_t address; void *bytes; size_t length; uint64_t reserved;
} bootcore_memory;

/* ---- what is handed over */

/* The registers as the kernel begins. With 32 bits rip is what eip is to hold, rax what eax is to
 * hold, and so on; r8 to r15, cr3, cr4 and efer are 0 then: no rule gives them, so choose them, and
 * under each protocol TR, LDTR, IDTR and the debug registers: no kernel may count on them. A
 * segment register's number is its selector: bootcore_segments has the rest. A20 is 1 if the gate
 * is to be open. gdt_limit is the offset of the table's last byte; under Multiboot2 both are 0. */
typedef struct bootcore_registers {
    uint64_t bits; /* 32 or 64 */
    uint64_t rip, rax, rbx, rcx, rdx, rsi, rdi, rbp, rsp;
    uint64_t r8, r9, r10, r11, r12, r13, r14, r15;
    uint64_t rflags, cr0, cr3, cr4, efer;
    uint64_t cs, ds, es, fs, gs, ss;
    uint64_t gdt_base, gdt_limit, a20;
    uint64_t reserved[4];
} bootcore_registers;

/* A segment register whole, as a virtual processor is given it without loading a descriptor. Its
 * limit is the offset of the last byte, already scaled by g, as in kvm_segment and the VMCS. */
typedef struct bootcore_segment {
    uint64_t base; uint32_t limit; uint16_t selector;
    uint8_t type, s, dpl, p, avl, l, db, g;
    uint16_t reserved;
} bootcore_segment;

/* Tells CS, DS, ES, FS, GS and SS, in this order; nothing if a pointer is null. */
BOOTCORE_CALL void bootcore_segments(const bootcore_registers *registers,
    bootcore_segment segments[6]);

/* What a part in memory is. */
enum {
    BOOTCORE_ROLE_KERNEL = 1,       BOOTCORE_ROLE_MODULE = 2,     BOOTCORE_ROLE_INFORMATION = 3,
    BOOTCORE_ROLE_BOOT_PARAMS = 4,  BOOTCORE_ROLE_COMMAND_LINE = 5, BOOTCORE_ROLE_GDT = 6,
    BOOTCORE_ROLE_INITRD = 7,       BOOTCORE_ROLE_PAGE_TABLES = 8
};

/* A part in memory: its bytes, then zeros. But for a kernel's its length is a multiple of 4096. */
typedef struct bootcore_place {
    uint32_t role, index; /* the index is that among the parts of its role */
    uint64_t address, length, reserved;
} bootcore_place;

/* The entry's index, how its kernel is entered, and how many places are told. */
typedef struct bootcore_handoff {
    uint32_t entry, protocol, place_count, reserved;
    bootcore_registers registers;
} bootcore_handoff;

/* Why an entry is refused: its index, the refusal's number, and what that refusal carries, else 0:
 * see the numbers at the end of this file. Of a walk: the fault of the image, with entry 0. */
typedef struct bootcore_refusal {
    uint32_t entry, number;
    uint64_t first, second, reserved;
} bootcore_refusal;

/* Where a call tells what comes of it: set the arrays and their room; it sets the rest. */
typedef struct bootcore_outcome {
    bootcore_place *places; /* by ascending address */
    size_t place_room;      /* at least BOOTCORE_MAX_PLACES */
    bootcore_refusal *refusals;
    size_t refusal_room;    /* may be 0; BOOTCORE_MAX_REFUSALS is always enough */
    bootcore_handoff handoff;
    size_t refusal_count;   /* how many there were, also beyond the room */
    uint64_t reserved[4];
} bootcore_outcome;

/* ---- one entry */

/* Loads one entry into memory, and tells how its kernel is entered. There is no menu and no pool.
 * `memory` reaches at least to the machine's size. It may begin above 0 if no part lies below; the
 * two low frames of a Linux entry do. Afterwards you may change parts; a walk refuses that (82).
 * - DONE: memory holds each part at its place; the call tells the handoff (with entry 0) and the
 *   first places, and refusal_count is 0.
 * - REFUSED: refusal_count is 1, and the call tells the refusal, if there is room.
 * - OUTSIDE, NO_MEMORY, or a misuse. All else is as before, in memory too. */
BOOTCORE_CHECKED uint32_t bootcore_load(const bootcore_memory *memory,
    const bootcore_machine *machine, const bootcore_entry *entry, bootcore_outcome *outcome);

/* Tells what bootcore_load would hand over, or why it would not, from the kernel's bytes and the
 * other files' lengths: it reads no other byte of a file, and no memory. The answers are those of
 * bootcore_load, but OUTSIDE and BAD_MEMORY. A load of the same entry, with files of these lengths,
 * into memory from address 0 up to the machine's size, has the same end, or memory runs out. */
BOOTCORE_CHECKED uint32_t bootcore_prepare(const bootcore_machine *machine,
    const bootcore_entry *entry, bootcore_outcome *outcome);

/* Where the bytes of a step come from. */
enum {
    BOOTCORE_SOURCE_FILE = 1,   /* file 0 is the kernel, k module k - 1, or 1 the initial ramdisk */
    BOOTCORE_SOURCE_LAYOUT = 2, /* the bytes `own` of the layout */
    BOOTCORE_SOURCE_ZEROS = 3
};

/* `length` bytes, at least 1, from `offset` of the source on, go to an address. */
typedef struct bootcore_step {
    uint64_t address, length, offset;
    uint32_t source;
    uint32_t file; /* of BOOTCORE_SOURCE_FILE, else 0 */
    uint64_t reserved;
} bootcore_step;

/* Where a call tells a plan: set the arrays and their room; the call sets the rest. */
typedef struct bootcore_layout {
    bootcore_place *places; /* by ascending address */
    size_t place_room;
    bootcore_step *steps;   /* by ascending address, none meets another */
    size_t step_room;
    uint8_t *own;           /* the bytes of parts that no file has: of BOOTCORE_SOURCE_LAYOUT */
    size_t own_room;
    bootcore_handoff handoff;
    size_t place_count, step_count, own_length;
    bootcore_refusal refusal;
    uint64_t planned;       /* 1 if the layout holds a whole plan, else 0 */
    uint64_t reserved[4];
} bootcore_layout;

/* Tells what bootcore_load would do, as steps, from what bootcore_prepare looks at. Whoever carries
 * out the steps, in any order, has loaded the entry: whatever the other files' bytes are and memory
 * held, each part is at its place then, and each other byte as before. Together the steps are
 * exactly the parts. Leave out steps of zeros only where memory is known to be zero, as a fresh
 * mapping is. If the kernel's file may change meanwhile, plan on a copy of it, and read from that.
 * - DONE: the call tells all but the refusal, and `planned` is 1. REFUSED: it tells the refusal.
 * - SMALL_ROOM: place_count, step_count and own_length say how much is wanted: a call without any
 *   room asks for it. BOOTCORE_MAX_PLACES, _STEPS and _OWN are always enough.
 * - NO_MEMORY, or another misuse.
 * But for DONE `planned` is 0, and the counts too if they don't say what is wanted. All else is as
 * before. Equal machines, entries, kernels and lengths have equal plans. */
BOOTCORE_CHECKED uint32_t bootcore_plan(const bootcore_machine *machine,
    const bootcore_entry *entry, bootcore_layout *layout);

/* Carries out the steps of a plan. Files are in memory; the machine's memory is in pieces, anywhere
 * and in any order (fastest if they ascend), with holes where no part goes. `files` are the
 * entry's: the kernel, then the modules or the initial ramdisk, of at least the lengths that were
 * planned for. Either all steps are carried out (DONE), or nothing is written, for the first of
 * these that stands: NULL; BAD_RESERVED; BAD_FILE if a file is unreadable; SMALL_ROOM if the layout
 * holds no whole plan, or has no room for its steps or own bytes; BAD_FILE if a step's source is
 * none or has no such bytes; OUTSIDE if a byte of a step lies in no piece. A step may go over
 * several pieces; a byte that is in two goes to the first. */
BOOTCORE_CHECKED uint32_t bootcore_carry_out(const bootcore_layout *layout,
    const bootcore_bytes *files, size_t file_count, const bootcore_memory *memory,
    size_t memory_count);

/* How the address of a part is chosen: `address` alone; the least or the greatest permitted one; or
 * `address` if it is permitted, and else the least. Permitted are the multiples of `alignment` from
 * `low` on where the part ends at `high` at most, and each byte is usable, not avoided and in no
 * other part. */
enum {
    BOOTCORE_CHOICE_FIXED = 1,   BOOTCORE_CHOICE_LOWEST = 2,
    BOOTCORE_CHOICE_HIGHEST = 3, BOOTCORE_CHOICE_PREFERRED = 4
};

/* A part that finds no place. What its choice says nothing of is 0. */
typedef struct bootcore_unplaced_part {
    uint32_t role, index;
    uint64_t length; /* UINT64_MAX if it is above 4 GiB */
    uint64_t alignment, low, high, address;
    uint32_t choice; /* BOOTCORE_CHOICE_.. */
    uint32_t reserved;
} bootcore_unplaced_part;

/* Tells of which part the refusals 19 and 20 speak: the first that finds no place beside those that
 * are placed before it. It looks at what bootcore_prepare looks at.
 * - DONE: it tells the part; all of it is 0, its role too, if each part has a place.
 * - REFUSED: it tells the refusal, for which no place is looked for.
 * - NO_MEMORY, or a misuse. All else is as before. */
BOOTCORE_CHECKED uint32_t bootcore_unplaced(const bootcore_machine *machine,
    const bootcore_entry *entry, bootcore_unplaced_part *part, bootcore_refusal *refusal);

/* ---- a menu */

/* The entries of a menu, and the order in which they are attempted: `first`, then the fallbacks. A
 * repeated entry is skipped. */
typedef struct bootcore_menu {
    const bootcore_entry *entries;
    size_t entry_count;
    const uint32_t *fallbacks;
    size_t fallback_count;
    uint32_t first, reserved32;
    uint64_t reserved[4];
} bootcore_menu;

/* Boots the first entry of a menu, in the order of attempts, that is not refused. Its files come
 * into the machine's pool, a piece at a time, and from there to their places, as if a disk gave
 * them. `memory` is in one piece, and ends at the machine's size. Let no usable byte lie below it:
 * if a part would begin there, the boot ends as if memory ran out, and a pool there is a misuse.
 * - DONE: memory holds each part at its place, 0 elsewhere in the pool, and each other byte as
 *   before; the call tells the handoff and the places.
 * - REFUSED: no entry is left. Memory holds 0 in the pool, and each other byte as before.
 * - NO_MEMORY: bytes of the pool may have changed, and no other. Or a misuse.
 * After the first two the call tells the refusals in order, as many as there is room for, and their
 * number. All that is not told is as before. */
BOOTCORE_CHECKED uint32_t bootcore_boot(const bootcore_memory *memory,
    const bootcore_machine *machine, const bootcore_menu *menu, bootcore_outcome *outcome);

/* ---- a menu, whose files come piece by piece */

/* A boot that is told the pieces of its files as they come. Set `kept` to null at first; after that
 * only these calls write it. The struct may be moved, but use no copy of it, and make one call at a
 * time on it. Call bootcore_session_free in the end, however the boot ended. */
typedef struct bootcore_session { void *kept; } bootcore_session;

/* Pieces that are awaited, one after the other in a file: `length` bytes from the offset
 * piece * BOOTCORE_PIECE on. Of one that you hand back its attempt, file and piece are looked at,
 * and its length by bootcore_session_missing_after alone. */
typedef struct bootcore_request {
    uint32_t entry, attempt; /* the entry's index in the menu, and which attempt it is, from 0 on */
    uint32_t file, piece;    /* the file's place in its entry, 0 of the kernel; the first piece */
    uint64_t length, reserved;
} bootcore_request;

/* Makes a session of a menu, which is not yet started; one that was kept before is freed then. Of
 * each file the length is looked at; its bytes come later. After NO_MEMORY or a misuse, the only
 * other answers than DONE, what was kept before is still kept. */
BOOTCORE_CHECKED uint32_t bootcore_session_make(bootcore_session *session,
    const bootcore_machine *machine, const bootcore_menu *menu);

/* Starts a session: the first attempt begins. One that was started before stays as it is. `memory`
 * is as for bootcore_boot. The pieces that came lie in the pool: hand the same memory to each call
 * of a session, and don't write to its pool before the boot ended. The call that begins an attempt
 * refuses an entry for its files' lengths (1, 3, 21), and judges one of empty files; else the one
 * that brings the last piece of all its files judges it. This call and the next two answer:
 * - WAITING: pieces are awaited. Pieces or a fault before the start answer it too.
 * - NEXT: the same, after one refusal or more. Ask again what is missing.
 * - DONE: an entry is handed over. Memory is as after bootcore_boot.
 * - FAILED: no entry is left, and the pool is 0; or memory ran out.
 * - NULL, BAD_RESERVED, BAD_MEMORY, NO_SESSION, LOW_POOL: all is as before.
 * But for DONE no byte outside the pool changes. After the end each further call without a misuse
 * answers DONE or FAILED again, and changes nothing. */
BOOTCORE_CHECKED uint32_t bootcore_session_start(bootcore_session *session,
    const bootcore_memory *memory);

/* Tells a session that pieces came: `length` bytes from the beginning of a request, which are
 * copied, fewer than were asked for or more. Each BOOTCORE_PIECE of them are a piece, and so is the
 * rest; only a file's last piece may be shorter. In whatever order pieces come, the boot ends in
 * the same way, unless memory runs out. A piece that is not awaited changes nothing: one that came
 * before, one of an earlier attempt, one that is cut or padded. */
BOOTCORE_CHECKED uint32_t bootcore_session_pieces(bootcore_session *session,
    const bootcore_memory *memory, const bootcore_request *request, const void *bytes,
    size_t length);

/* Tells a session that the first piece of a request can't be read: its entry is refused (2), and
 * the next attempt begins, if there is one. If that piece is not awaited, nothing changes. */
BOOTCORE_CHECKED uint32_t bootcore_session_fault(bootcore_session *session,
    const bootcore_memory *memory, const bootcore_request *request);

/* Tells the first pieces that the running attempt awaits, files and pieces ascending, at most so
 * many bytes of one file (at least a piece), and whether there are some. If there are none, or no
 * session, *request is as before. No piece is marked as asked for: each is told until it came. */
BOOTCORE_CHECKED bool bootcore_session_missing(const bootcore_session *session, size_t most,
    bootcore_request *request);

/* Tells the first ones behind those of *request, so that repeated calls tell all of them; behind a
 * request of another attempt, as after NEXT, the first of the running one. */
BOOTCORE_CHECKED bool bootcore_session_missing_after(const bootcore_session *session, size_t most,
    bootcore_request *request);

/* Tells how a session ended; it stays as it is. DONE and REFUSED are as by bootcore_boot; WAITING:
 * not ended; NO_MEMORY: memory ran out; or a misuse. */
BOOTCORE_CHECKED uint32_t bootcore_session_outcome(const bootcore_session *session,
    bootcore_outcome *outcome);

/* Frees what a session keeps, if it does. Before the end what came is left in the pool. */
BOOTCORE_CALL void bootcore_session_free(bootcore_session *session);

/* ---- refusals, and what an image has wrong */

/* Why an entry is refused: the numbers of a bootcore_refusal. docs/REFUSALS.md says more of each,
 * and what to do; bootcore_refusal_text says it in words. `first` is of 1 to 3 a file's place in
 * its entry, of which the kernel's is 0; of 7 a tag's offset in the kernel's file, of 8 and 9 a
 * tag's type; of 13 to 15 the index of a program header, and `second` of 15 that of another. */
enum {
    BOOTCORE_REFUSAL_NO_FILE = 1,
    BOOTCORE_REFUSAL_FILE_FAULT = 2,
    BOOTCORE_REFUSAL_FILE_TOO_LONG = 3,
    BOOTCORE_REFUSAL_NO_HEADER = 4,
    BOOTCORE_REFUSAL_HEADER_CUT = 5,
    BOOTCORE_REFUSAL_BAD_ARCHITECTURE = 6,
    BOOTCORE_REFUSAL_BAD_TAG = 7,
    BOOTCORE_REFUSAL_UNSUPPORTED_TAG = 8,
    BOOTCORE_REFUSAL_UNSUPPORTED_REQUEST = 9,
    BOOTCORE_REFUSAL_NO_CONSOLE = 10,
    BOOTCORE_REFUSAL_NOT_ELF = 11,
    BOOTCORE_REFUSAL_BAD_ELF = 12,
    BOOTCORE_REFUSAL_SEGMENT_CUT = 13,
    BOOTCORE_REFUSAL_ADDRESS_TOO_HIGH = 14,
    BOOTCORE_REFUSAL_SEGMENTS_OVERLAP = 15,
    BOOTCORE_REFUSAL_NO_ENTRY = 16,
    BOOTCORE_REFUSAL_ENTRY_OUTSIDE = 17,
    BOOTCORE_REFUSAL_BAD_ALIGN = 18,
    BOOTCORE_REFUSAL_NOT_USABLE = 19,
    BOOTCORE_REFUSAL_NO_ROOM = 20,
    BOOTCORE_REFUSAL_NO_POOL = 21,
    BOOTCORE_REFUSAL_NOT_BZ_IMAGE = 22,
    BOOTCORE_REFUSAL_OLD_PROTOCOL = 23,
    BOOTCORE_REFUSAL_NOT_HIGH = 24,
    BOOTCORE_REFUSAL_SETUP_CUT = 25,
    BOOTCORE_REFUSAL_BAD_PREFERRED = 26,
    BOOTCORE_REFUSAL_LINE_TOO_LONG = 27,
    BOOTCORE_REFUSAL_LINE_HAS_NUL = 28,
    BOOTCORE_REFUSAL_MAP_TOO_LONG = 29,
    BOOTCORE_REFUSAL_NO_64_ENTRY = 30
};

/* Why an image is refused by a walk: 71 to 75, it is no image (`first` is of 74 a part's index); 81
 * to 83, no kernel can be entered with it. At 77 and 84 memory ran out. */
enum {
    BOOTCORE_FAULT_BAD_MAGIC = 71,
    BOOTCORE_FAULT_BAD_VERSION = 72,
    BOOTCORE_FAULT_BAD_HEADER = 73,
    BOOTCORE_FAULT_BAD_PART = 74,
    BOOTCORE_FAULT_WRONG_LENGTH = 75,
    BOOTCORE_FAULT_READ_NO_MEMORY = 77,
    BOOTCORE_FAULT_OUTSIDE_IMAGE = 81,
    BOOTCORE_FAULT_BAD_INFO = 82,
    BOOTCORE_FAULT_BAD_STATE = 83,
    BOOTCORE_FAULT_WALK_NO_MEMORY = 84
};

/* What the number of a refusal or a fault means, in the words of docs/REFUSALS.md; of any other
 * number that there is none. Constant text. */
BOOTCORE_CALL const char *bootcore_refusal_text(uint32_t number);

/* Writes a refusal, or a walk's fault, as a line of text without its end: as `bootcore explain` has
 * it, `refused NUMBER NAME(WHAT IT CARRIES): MEANING`, or `bad image ..`. At most `length` bytes
 * are written, the last one 0; the answer is the whole text's length without that byte. A null
 * buffer counts as one of length 0. A null refusal gives an empty text. */
BOOTCORE_CALL size_t bootcore_refusal_line(const bootcore_refusal *refusal, char *buffer,
    size_t length);

#ifdef __cplusplus
}
#endif

#include "bootcore_image.h"
#include "bootcore_digest.h"

#endif
