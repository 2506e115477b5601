/*
 * Each status of bootcore_load, bootcore_prepare, bootcore_plan, bootcore_unplaced and
 * bootcore_carry_out but that of no memory: calls that are right, and these with one thing changed; and the words of each status. Prints
 * the name of each change whose status is another than it should be, or after which a byte is, and then
 * how many were tried.
 */
#include "bootcore.h"

#include <inttypes.h>
#include <stdio.h>
#include <string.h>

enum { SIZE = 0x200000, STEPS = 16, OWN = 4096, CUT = 0x100020 };

/* A kernel of Multiboot2 that is a header alone, with where it lies and where it is entered. */
static const uint32_t kernel[] = {0xE85250D6, 0, 64, 0u - 0xE85250D6 - 64,
                                  2, 24, 0x100000, 0x100000, 0, 0x102000,
                                  3, 12, 0x100000, 0,
                                  0, 8};
static const bootcore_region usable[] = {{0, SIZE, BOOTCORE_KIND_USABLE, 0}};
static const bootcore_region reserved[] = {{0, SIZE, BOOTCORE_KIND_USABLE, 1}};
static const bootcore_region no_kind[] = {{0, SIZE, 6, 0}};
static const bootcore_region high[] = {{0, SIZE, BOOTCORE_KIND_USABLE, 0},
                                       {UINT64_MAX, 1, BOOTCORE_KIND_USABLE, 0}};
static bootcore_region many[BOOTCORE_MAX_REGIONS + 1];
static const bootcore_module one[] = {{{"hello", 5}, {"m", 1}, {0, 0}}};
static const bootcore_module set_module[] = {{{"hello", 5}, {"m", 1}, {0, 1}}};
static const bootcore_module no_file[] = {{{NULL, 5}, {"m", 1}, {0, 0}}};
static const bootcore_module no_line[] = {{{"hello", 5}, {NULL, 1}, {0, 0}}};
static const bootcore_module unreadable[] = {{{"", BOOTCORE_UNREADABLE}, {"m", 1}, {0, 0}}};
static const bootcore_module none[BOOTCORE_MAX_MODULES + 1];

/* What calls write: `told` is, and `before` is what it is at first. */
typedef struct telling {
    uint8_t memory[SIZE];
    uint8_t second[SIZE];
    bootcore_place places[BOOTCORE_MAX_PLACES];
    bootcore_refusal refusals[1];
    bootcore_step steps[STEPS];
    uint8_t own[OWN];
} telling;

static telling told, before;
static uint8_t loaded[SIZE];

/* What calls are given; each change starts from `right`. */
typedef struct call {
    bootcore_memory memory;
    bootcore_machine machine;
    bootcore_entry entry;
    bootcore_outcome outcome;
    bootcore_layout layout;
} call;

static call right(void) {
    call c;
    memset(&c, 0, sizeof c);
    c.memory = (bootcore_memory){.bytes = told.memory, .length = SIZE};
    c.machine.size = SIZE;
    c.machine.regions = usable;
    c.machine.region_count = 1;
    c.entry.protocol = BOOTCORE_PROTOCOL_MULTIBOOT2;
    c.entry.kernel = (bootcore_bytes){kernel, sizeof kernel};
    c.entry.line = (bootcore_bytes){"line", 4};
    c.entry.modules = one;
    c.entry.module_count = 1;
    c.outcome.places = c.layout.places = told.places;
    c.outcome.place_room = c.layout.place_room = BOOTCORE_MAX_PLACES;
    c.outcome.refusals = told.refusals;
    c.outcome.refusal_room = 1;
    c.outcome.refusal_count = 9; /* none of the numbers that are told */
    c.layout.steps = told.steps;
    c.layout.step_room = STEPS;
    c.layout.own = told.own;
    c.layout.own_room = OWN;
    c.layout.planned = 1; /* as an older plan has it */
    c.layout.step_count = c.layout.own_length = 9;
    return c;
}

static int tried, wrong;

static void count(const char *call_name, const char *name, uint32_t status, uint32_t wanted,
                  bool holds) {
    if (status != wanted || !holds) {
        printf("%s, %s: %" PRIu32 ", not %" PRIu32 "%s\n", call_name, name, status, wanted,
               holds ? "" : ", and what is told is wrong");
        wrong++;
    }
    tried++;
}

/* Whether a call has written nothing that its answer does not permit: `now` is where it tells its
 * numbers, `was` what stood there. */
static bool is_kept(uint32_t status, bool are_numbers_told, const void *now, const void *was,
                    size_t length) {
    return status == BOOTCORE_STATUS_DONE ||
           (!memcmp(told.memory, before.memory, SIZE) &&
            !memcmp(told.places, before.places, sizeof told.places) &&
            !memcmp(told.steps, before.steps, sizeof told.steps) &&
            !memcmp(told.own, before.own, OWN) && (are_numbers_told || !memcmp(now, was, length)));
}

static bool is_outcome(uint32_t status, const bootcore_outcome *now, const bootcore_outcome *was) {
    bool is_told = status <= BOOTCORE_STATUS_REFUSED;
    return is_kept(status, is_told, now, was, sizeof *now) && (!is_told || now->refusal_count == status);
}

/* The three calls, each with its status; what two of them tell, both tell alike. */
static void expect(const char *name, call c, uint32_t loads, uint32_t prepares, uint32_t plans) {
    call load = c, prepare = c, plan = c;
    told = before;
    uint32_t status = bootcore_load(&load.memory, &load.machine, &load.entry, &load.outcome);
    bootcore_refusal refusal = told.refusals[0];
    count("load", name, status, loads, is_outcome(status, &load.outcome, &c.outcome));
    told = before;
    status = bootcore_prepare(&prepare.machine, &prepare.entry, &prepare.outcome);
    bool same = loads != prepares || (!memcmp(&load.outcome, &prepare.outcome, sizeof load.outcome) &&
                                      !memcmp(&refusal, told.refusals, sizeof refusal));
    count("prepare", name, status, prepares,
          same && !memcmp(told.memory, before.memory, SIZE) &&
              is_outcome(status, &prepare.outcome, &c.outcome));
    refusal = told.refusals[0];
    told = before;
    status = bootcore_plan(&plan.machine, &plan.entry, &plan.layout);
    const bootcore_layout *layout = &plan.layout;
    if (status == BOOTCORE_STATUS_DONE && prepares == plans) {
        same = !memcmp(&layout->handoff, &prepare.outcome.handoff, sizeof layout->handoff);
    } else {
        same = status != BOOTCORE_STATUS_REFUSED ||
               (!layout->place_count && !layout->step_count && !layout->own_length &&
                (!c.outcome.refusal_room || !memcmp(&layout->refusal, &refusal, sizeof refusal)));
    }
    /* a plan that is not made leaves none, and tells its counts for SMALL_ROOM alone */
    if (status != BOOTCORE_STATUS_DONE) {
        bool is_counted = status == BOOTCORE_STATUS_SMALL_ROOM;
        same = same && !layout->planned && !layout->step_count == !is_counted;
        c.layout.planned = 0;
        c.layout.place_count = is_counted ? layout->place_count : 0;
        c.layout.step_count = is_counted ? layout->step_count : 0;
        c.layout.own_length = is_counted ? layout->own_length : 0;
    } else {
        same = same && layout->planned == 1;
    }
    count("plan", name, status, plans,
          same && !memcmp(told.memory, before.memory, SIZE) &&
              is_kept(status, status == BOOTCORE_STATUS_REFUSED, layout, &c.layout, sizeof *layout));
}

#define EACH(loads, prepares, plans, change)        \
    do {                                            \
        call c = right();                           \
        change;                                     \
        expect(#change, c, loads, prepares, plans); \
    } while (0)
#define ALL(wanted, change) EACH(wanted, wanted, wanted, change)
#define LOAD(wanted, change) EACH(wanted, BOOTCORE_STATUS_DONE, BOOTCORE_STATUS_DONE, change)
#define PLAN(wanted, change) EACH(BOOTCORE_STATUS_DONE, BOOTCORE_STATUS_DONE, wanted, change)

static void try_changes(void) {
    ALL(BOOTCORE_STATUS_DONE, (void)c);
    ALL(BOOTCORE_STATUS_DONE, c.entry.initrd.length = 5); /* is not looked at */
    ALL(BOOTCORE_STATUS_DONE, c.outcome.refusals = NULL; c.outcome.refusal_room = 0);
    ALL(BOOTCORE_STATUS_DONE, c.machine.size = SIZE - 4096);
    ALL(BOOTCORE_STATUS_REFUSED, c.entry.kernel.length = 9);
    ALL(BOOTCORE_STATUS_REFUSED, c.entry.kernel.length = 9; c.outcome.refusals = NULL;
        c.outcome.refusal_room = 0);
    ALL(BOOTCORE_STATUS_REFUSED, c.entry.protocol = BOOTCORE_PROTOCOL_LINUX64);
    ALL(BOOTCORE_STATUS_REFUSED, c.entry.protocol = BOOTCORE_PROTOCOL_LINUX; c.entry.modules = NULL);
    ALL(BOOTCORE_STATUS_NULL, c.machine.regions = NULL);
    ALL(BOOTCORE_STATUS_NULL, c.outcome.places = c.layout.places = NULL);
    ALL(BOOTCORE_STATUS_NULL, c.entry.kernel.bytes = NULL);
    ALL(BOOTCORE_STATUS_NULL, c.entry.line.bytes = NULL);
    ALL(BOOTCORE_STATUS_NULL, c.entry.rsdp_old.length = 20);
    ALL(BOOTCORE_STATUS_NULL, c.entry.modules = NULL);
    ALL(BOOTCORE_STATUS_NULL, c.entry.modules = no_line);
    LOAD(BOOTCORE_STATUS_NULL, c.entry.modules = no_file);
    LOAD(BOOTCORE_STATUS_NULL, c.memory.bytes = NULL);
    EACH(BOOTCORE_STATUS_NULL, BOOTCORE_STATUS_REFUSED, BOOTCORE_STATUS_REFUSED, c.entry.protocol = BOOTCORE_PROTOCOL_LINUX;
         c.entry.initrd.length = 5);
    EACH(BOOTCORE_STATUS_NULL, BOOTCORE_STATUS_NULL, BOOTCORE_STATUS_DONE, c.outcome.refusals = NULL);
    PLAN(BOOTCORE_STATUS_NULL, c.layout.steps = NULL);
    PLAN(BOOTCORE_STATUS_NULL, c.layout.own = NULL);
    ALL(BOOTCORE_STATUS_BAD_RESERVED, c.machine.reserved[0] = 1);
    ALL(BOOTCORE_STATUS_BAD_RESERVED, c.machine.reserved[2] = (uint64_t)1 << 63);
    ALL(BOOTCORE_STATUS_BAD_RESERVED, c.machine.regions = reserved);
    ALL(BOOTCORE_STATUS_BAD_RESERVED, c.entry.reserved32 = 1);
    ALL(BOOTCORE_STATUS_BAD_RESERVED, c.entry.reserved[1] = 1);
    ALL(BOOTCORE_STATUS_BAD_RESERVED, c.entry.reserved[3] = 1);
    ALL(BOOTCORE_STATUS_BAD_RESERVED, c.entry.modules = set_module);
    ALL(BOOTCORE_STATUS_BAD_RESERVED, c.outcome.reserved[2] = c.layout.reserved[2] = 1);
    LOAD(BOOTCORE_STATUS_BAD_RESERVED, c.memory.reserved = 1);
    EACH(BOOTCORE_STATUS_BAD_RESERVED, BOOTCORE_STATUS_BAD_RESERVED, BOOTCORE_STATUS_DONE, c.outcome.reserved[0] = 1);
    PLAN(BOOTCORE_STATUS_BAD_RESERVED, c.layout.reserved[3] = 1);
    ALL(BOOTCORE_STATUS_REFUSED, c.entry.protocol = BOOTCORE_PROTOCOL_LINUX; c.entry.modules = set_module);
    ALL(BOOTCORE_STATUS_BAD_FILE, c.entry.kernel.length = BOOTCORE_UNREADABLE);
    ALL(BOOTCORE_STATUS_BAD_FILE, c.entry.modules = unreadable);
    ALL(BOOTCORE_STATUS_BAD_FILE, c.entry.protocol = BOOTCORE_PROTOCOL_LINUX; c.entry.initrd = unreadable[0].file);
    EACH(BOOTCORE_STATUS_SMALL_ROOM, BOOTCORE_STATUS_SMALL_ROOM, BOOTCORE_STATUS_DONE,
         c.outcome.place_room = c.layout.place_room = BOOTCORE_MAX_PLACES - 1);
    PLAN(BOOTCORE_STATUS_SMALL_ROOM, c.layout.place_room = 1);
    PLAN(BOOTCORE_STATUS_SMALL_ROOM, c.layout.place_room = c.layout.step_room = c.layout.own_room = 0;
         c.layout.places = NULL; c.layout.steps = NULL; c.layout.own = NULL);
    ALL(BOOTCORE_STATUS_REFUSED, c.layout.place_room = 0; c.entry.kernel.length = 9);
    PLAN(BOOTCORE_STATUS_SMALL_ROOM, c.layout.step_room = 1);
    PLAN(BOOTCORE_STATUS_SMALL_ROOM, c.layout.own_room = 0; c.layout.own = NULL);
    ALL(BOOTCORE_STATUS_BAD_KIND, c.machine.regions = no_kind);
    ALL(BOOTCORE_STATUS_BAD_SIZE, c.machine.size = SIZE + 1);
    ALL(BOOTCORE_STATUS_BAD_SIZE, c.machine.size = UINT64_MAX);
    ALL(BOOTCORE_STATUS_TOO_MANY_REGIONS, c.machine.regions = many;
        c.machine.region_count = BOOTCORE_MAX_REGIONS + 1);
    ALL(BOOTCORE_STATUS_TOO_MANY_REGIONS, c.machine.regions = many;
        c.machine.region_count = SIZE_MAX); /* those behind are not looked at */
    ALL(BOOTCORE_STATUS_BAD_REGION, c.machine.regions = high; c.machine.region_count = 2);
    ALL(BOOTCORE_STATUS_BAD_POOL, c.machine.pool_length = 1);
    ALL(BOOTCORE_STATUS_BAD_POOL, c.machine.pool_base = 1);
    ALL(BOOTCORE_STATUS_BAD_POOL, c.machine.pool_base = 4096; c.machine.pool_length = UINT64_MAX);
    LOAD(BOOTCORE_STATUS_BAD_MEMORY, c.memory.length = SIZE - 1);
    LOAD(BOOTCORE_STATUS_BAD_MEMORY, c.memory.address = (uint64_t)1 << 32);
    LOAD(BOOTCORE_STATUS_OUTSIDE, c.memory = ((bootcore_memory){0x2000, told.memory, SIZE - 0x2000, 0}));
    ALL(BOOTCORE_STATUS_BAD_PROTOCOL, c.entry.protocol = 0);
    ALL(BOOTCORE_STATUS_BAD_PROTOCOL, c.entry.protocol = 4);
    ALL(BOOTCORE_STATUS_TOO_MANY_MODULES, c.entry.modules = none; c.entry.module_count = BOOTCORE_MAX_MODULES + 1);
    ALL(BOOTCORE_STATUS_TOO_MANY_MODULES, c.entry.modules = none; c.entry.module_count = SIZE_MAX);
    ALL(BOOTCORE_STATUS_LONG_RSDP, c.entry.rsdp_new = ((bootcore_bytes){many, BOOTCORE_MAX_RSDP + 1}));
    ALL(BOOTCORE_STATUS_LONG_RSDP, c.entry.rsdp_old = ((bootcore_bytes){many, SIZE_MAX}));
}

/* What firmware tells, and what of it is a misuse: the first that stands. */
static void try_firmware(void) {
    static const bootcore_avoided apart[BOOTCORE_MAX_AVOIDED + 1] = {{0x180000, 4096}};
    static const bootcore_avoided high_range[] = {{0, 0}, {(uint64_t)1 << 52, 1}};
    static const bootcore_avoided highest[] = {{UINT64_MAX, UINT64_MAX}};
    static const bootcore_avoided all[] = {{0, SIZE}};
    const bootcore_firmware sound = {
        .screen = {0xE0000000, 4096, 1024, 768, 32, 0, {16, 8}, {8, 8}, {0, 8}, 0},
        .rsdp = SIZE,
        .efi = {0x500000, {many, 96}, 0x400000, 64, 48, 1, 2},
        .smbios = {{many, 31}, 3, 0, 0, 0},
        .avoided = apart,
        .avoided_count = 1,
    };
    const bootcore_efi no_efi = {0, {NULL, 0}, 0, 0, 0, 0, 0};
    const bootcore_smbios no_smbios = {{NULL, 0}, 0, 0, 0, 0};
    bootcore_firmware firmware;
#define TELLS(wanted, change)                              \
    do {                                                   \
        firmware = sound;                                  \
        ALL(wanted, c.machine.firmware = &firmware; change); \
    } while (0)
    TELLS(BOOTCORE_STATUS_DONE, (void)c);
    TELLS(BOOTCORE_STATUS_DONE, memset(&firmware, 0, sizeof firmware));
    TELLS(BOOTCORE_STATUS_DONE, firmware.screen.base = 0; firmware.screen.depth = 8);
    TELLS(BOOTCORE_STATUS_DONE, firmware.efi.system_table = 0; firmware.efi.bits = 16; firmware.efi.secure_boot = 4);
    TELLS(BOOTCORE_STATUS_DONE, firmware.smbios.tables.length = 0; firmware.rsdp = 0; firmware.avoided_count = 0);
    TELLS(BOOTCORE_STATUS_DONE, firmware.efi = no_efi; firmware.smbios = no_smbios);
    TELLS(BOOTCORE_STATUS_DONE, firmware.rsdp = ((uint64_t)1 << 52) - 36);
    TELLS(BOOTCORE_STATUS_DONE, firmware.avoided_count = BOOTCORE_MAX_AVOIDED);
    TELLS(BOOTCORE_STATUS_REFUSED, firmware.avoided = all);
    TELLS(BOOTCORE_STATUS_NULL, firmware.efi.map.bytes = NULL; firmware.efi.system_table = 0);
    TELLS(BOOTCORE_STATUS_NULL, firmware.efi.map.bytes = NULL);
    TELLS(BOOTCORE_STATUS_NULL, firmware.smbios.tables.bytes = NULL);
    TELLS(BOOTCORE_STATUS_NULL, firmware.avoided = NULL);
    TELLS(BOOTCORE_STATUS_BAD_RESERVED, firmware.screen.reserved8 = 1);
    TELLS(BOOTCORE_STATUS_BAD_RESERVED, firmware.screen.reserved32 = 1);
    TELLS(BOOTCORE_STATUS_BAD_RESERVED, firmware.smbios.reserved16 = 1);
    TELLS(BOOTCORE_STATUS_BAD_RESERVED, firmware.smbios.reserved32 = 1);
    TELLS(BOOTCORE_STATUS_BAD_RESERVED, firmware.reserved[0] = 1);
    TELLS(BOOTCORE_STATUS_BAD_RESERVED, firmware.reserved[5] = 1);
    TELLS(BOOTCORE_STATUS_BAD_EFI_BITS, firmware.efi.bits = 16; firmware.efi.secure_boot = 4; c.machine.size = 1);
    TELLS(BOOTCORE_STATUS_BAD_SECURE_BOOT, firmware.efi.secure_boot = 4; c.machine.size = 1);
    TELLS(BOOTCORE_STATUS_BAD_SIZE, firmware.screen.width = 0; c.machine.size = 1);
    TELLS(BOOTCORE_STATUS_BAD_SCREEN_SIZE, firmware.screen.width = 0; firmware.rsdp = 4096; c.entry.protocol = 0);
    TELLS(BOOTCORE_STATUS_BAD_SCREEN_SIZE, firmware.screen.pitch = 0x10000);
    TELLS(BOOTCORE_STATUS_BAD_SCREEN_DEPTH, firmware.screen.depth = 8);
    TELLS(BOOTCORE_STATUS_BAD_SCREEN_COLOR, firmware.screen.red.size = 17);
    TELLS(BOOTCORE_STATUS_BAD_SCREEN_COLOR, firmware.screen.blue = ((bootcore_color){255, 255}));
    TELLS(BOOTCORE_STATUS_BAD_SCREEN_PITCH, firmware.screen.pitch = 4095);
    TELLS(BOOTCORE_STATUS_BAD_SCREEN_PLACE, firmware.screen.base = SIZE - 1);
    TELLS(BOOTCORE_STATUS_BAD_SCREEN_PLACE, firmware.screen.base = UINT64_MAX);
    TELLS(BOOTCORE_STATUS_BAD_RSDP, firmware.rsdp = SIZE - 1);
    TELLS(BOOTCORE_STATUS_BAD_SYSTEM_TABLE, firmware.efi.system_table = (uint64_t)1 << 32; firmware.efi.bits = 32);
    TELLS(BOOTCORE_STATUS_BAD_DESCRIPTORS, firmware.efi.descriptor_size = 0);
    TELLS(BOOTCORE_STATUS_BAD_DESCRIPTORS, firmware.efi.descriptor_size = 44);
    TELLS(BOOTCORE_STATUS_BAD_DESCRIPTORS, firmware.efi.descriptor_version = 2);
    TELLS(BOOTCORE_STATUS_BAD_EFI_MAP_SIZE, firmware.efi.map.length = 95);
    TELLS(BOOTCORE_STATUS_BAD_EFI_MAP_SIZE, firmware.efi.map = ((bootcore_bytes){NULL, 0}));
    TELLS(BOOTCORE_STATUS_BAD_EFI_MAP_SIZE, firmware.efi.map = ((bootcore_bytes){loaded, 0x10020})); /* 1366 descriptors */
    TELLS(BOOTCORE_STATUS_BAD_EFI_MAP_PLACE, firmware.efi.map_address = 0x400004);
    TELLS(BOOTCORE_STATUS_BAD_EFI_MAP_PLACE, firmware.efi.map_address = SIZE - 8);
    TELLS(BOOTCORE_STATUS_BAD_EFI_MAP_PLACE, firmware.efi.map_address = UINT64_MAX - 7);
    TELLS(BOOTCORE_STATUS_BAD_SMBIOS_SIZE, firmware.smbios.tables = ((bootcore_bytes){loaded, 0x10001}));
    TELLS(BOOTCORE_STATUS_TOO_MANY_AVOIDED, firmware.avoided_count = BOOTCORE_MAX_AVOIDED + 1);
    TELLS(BOOTCORE_STATUS_TOO_MANY_AVOIDED, firmware.avoided_count = SIZE_MAX); /* those behind are not looked at */
    TELLS(BOOTCORE_STATUS_BAD_AVOIDED, firmware.avoided = high_range; firmware.avoided_count = 2);
    TELLS(BOOTCORE_STATUS_BAD_AVOIDED, firmware.avoided = highest);
    TELLS(BOOTCORE_STATUS_POOL_AVOIDED, c.machine.pool_base = 0x180000; c.machine.pool_length = 4096);
#undef TELLS
}

/* A null pointer to it, and what is all 0, leave the same bytes. */
static void try_no_firmware(void) {
    static const bootcore_firmware nothing;
    call c = right(), d = right();
    told = before;
    uint32_t status = bootcore_load(&c.memory, &c.machine, &c.entry, &c.outcome);
    count("load", "no firmware", status, BOOTCORE_STATUS_DONE, true);
    memcpy(loaded, told.memory, SIZE);
    told = before;
    d.machine.firmware = &nothing;
    status = bootcore_load(&d.memory, &d.machine, &d.entry, &d.outcome);
    count("load", "firmware that tells nothing", status, BOOTCORE_STATUS_DONE,
          !memcmp(told.memory, loaded, SIZE) && !memcmp(&c.outcome, &d.outcome, sizeof c.outcome));
}

/* A line is refused for a zero byte, wherever it stands, or else for its length. */
static void try_lines(void) {
    static char line[3 * 4096 + 5];
    const size_t lengths[] = {BOOTCORE_MAX_LINE, BOOTCORE_MAX_LINE + 1, BOOTCORE_MAX_LINE + 2, sizeof line};
    for (size_t i = 0; i < sizeof lengths / sizeof *lengths; i++) {
        const size_t zeros[] = {0, BOOTCORE_MAX_LINE - 1, BOOTCORE_MAX_LINE, 8191, lengths[i] - 1, SIZE_MAX};
        for (size_t k = 0; k < sizeof zeros / sizeof *zeros; k++) {
            call c = right();
            uint32_t number = lengths[i] > BOOTCORE_MAX_LINE ? BOOTCORE_REFUSAL_LINE_TOO_LONG : 0;
            memset(line, 'x', sizeof line);
            if (zeros[k] < lengths[i]) {
                line[zeros[k]] = 0;
                number = BOOTCORE_REFUSAL_LINE_HAS_NUL;
            }
            c.entry.line = (bootcore_bytes){line, lengths[i]};
            told = before;
            uint32_t status = bootcore_prepare(&c.machine, &c.entry, &c.outcome);
            count("prepare", "with a long line", status, number ? BOOTCORE_STATUS_REFUSED : BOOTCORE_STATUS_DONE,
                  !number || told.refusals[0].number == number);
        }
    }
}

#define NO_POINTER(call) count(#call, "", call, BOOTCORE_STATUS_NULL, true)

static void try_no_pointers(void) {
    bootcore_unplaced_part part;
    call c = right();
    NO_POINTER(bootcore_load(NULL, &c.machine, &c.entry, &c.outcome));
    NO_POINTER(bootcore_load(&c.memory, NULL, &c.entry, &c.outcome));
    NO_POINTER(bootcore_load(&c.memory, &c.machine, NULL, &c.outcome));
    NO_POINTER(bootcore_load(&c.memory, &c.machine, &c.entry, NULL));
    NO_POINTER(bootcore_prepare(NULL, &c.entry, &c.outcome));
    NO_POINTER(bootcore_prepare(&c.machine, NULL, &c.outcome));
    NO_POINTER(bootcore_prepare(&c.machine, &c.entry, NULL));
    NO_POINTER(bootcore_plan(NULL, &c.entry, &c.layout));
    NO_POINTER(bootcore_plan(&c.machine, NULL, &c.layout));
    NO_POINTER(bootcore_plan(&c.machine, &c.entry, NULL));
    NO_POINTER(bootcore_unplaced(NULL, &c.entry, &part, told.refusals));
    NO_POINTER(bootcore_unplaced(&c.machine, NULL, &part, told.refusals));
    NO_POINTER(bootcore_unplaced(&c.machine, &c.entry, NULL, told.refusals));
    NO_POINTER(bootcore_unplaced(&c.machine, &c.entry, &part, NULL));
}

/* Which part finds no place: none, the kernel at its own address, a module. */
static void try_unplaced(void) {
    static const bootcore_region low[] = {{0, 0x100000, BOOTCORE_KIND_USABLE, 0}};
    static const bootcore_region small[] = {{0, 0x102000, BOOTCORE_KIND_USABLE, 0}};
    static const bootcore_unplaced_part every, kernel_part = {BOOTCORE_ROLE_KERNEL, 0, 0x2000, 0, 0, 0, 0x100000, BOOTCORE_CHOICE_FIXED, 0};
    static const bootcore_unplaced_part module_part = {BOOTCORE_ROLE_MODULE, 0, 0x1000, 0x1000, 0x100000, (uint64_t)1 << 32, 0, BOOTCORE_CHOICE_LOWEST, 0};
    bootcore_unplaced_part part;
    bootcore_refusal refusal;
    call c = right();
    uint32_t status = bootcore_unplaced(&c.machine, &c.entry, &part, &refusal);
    count("unplaced", "each part", status, BOOTCORE_STATUS_DONE, !memcmp(&part, &every, sizeof part));
    c.machine.regions = low;
    status = bootcore_unplaced(&c.machine, &c.entry, &part, &refusal);
    count("unplaced", "no kernel's memory", status, BOOTCORE_STATUS_DONE, !memcmp(&part, &kernel_part, sizeof part));
    c.machine.regions = small;
    status = bootcore_unplaced(&c.machine, &c.entry, &part, &refusal);
    count("unplaced", "no module's memory", status, BOOTCORE_STATUS_DONE, !memcmp(&part, &module_part, sizeof part));
    c.entry.kernel.length = 9;
    status = bootcore_unplaced(&c.machine, &c.entry, &part, &refusal);
    count("unplaced", "no kernel", status, BOOTCORE_STATUS_REFUSED,
          refusal.number == BOOTCORE_REFUSAL_NO_HEADER && !memcmp(&part, &module_part, sizeof part));
}

/* What the right plan is carried out with; each change starts from `right_carrying`. */
typedef struct carrying {
    bootcore_layout layout;
    bootcore_bytes files[2];
    size_t file_count;
    bootcore_memory pieces[3]; /* two, which meet at CUT, in the kernel */
    size_t piece_count;
} carrying;

static carrying right_carrying(void) {
    call c = right();
    told = before;
    uint32_t status = bootcore_plan(&c.machine, &c.entry, &c.layout);
    count("plan", "what is carried out", status, BOOTCORE_STATUS_DONE, true);
    return (carrying){c.layout, {c.entry.kernel, one[0].file}, 2,
                      {{CUT, told.memory + CUT, SIZE - CUT, 0}, {0, told.memory, CUT, 0}}, 2};
}

static void carry_out(const char *name, carrying c, uint32_t wanted) {
    uint32_t status = bootcore_carry_out(&c.layout, c.files, c.file_count, c.pieces, c.piece_count);
    count("carry_out", name, status, wanted,
          !memcmp(told.memory, wanted == BOOTCORE_STATUS_DONE ? loaded : before.memory, SIZE) &&
              !memcmp(told.second, before.second, SIZE));
}

#define CARRY(wanted, change)          \
    do {                               \
        carrying c = right_carrying(); \
        change;                        \
        carry_out(#change, c, wanted); \
    } while (0)

/* Another plan for the layout, which is not made: that of `right` with one thing changed. */
#define STALE(wanted, change)                                        \
    do {                                                             \
        call d = right();                                            \
        change;                                                      \
        count("plan", "a later one, " #change,                       \
              bootcore_plan(&d.machine, &d.entry, &c.layout), wanted, true); \
    } while (0)

static void try_carrying(void) {
    call c = right();
    told = before;
    uint32_t status = bootcore_load(&c.memory, &c.machine, &c.entry, &c.outcome);
    count("load", "what carrying out is compared with", status, BOOTCORE_STATUS_DONE, true);
    memcpy(loaded, told.memory, SIZE);
    carrying cut = right_carrying();
    cut.pieces[1] = (bootcore_memory){0, told.second, SIZE, 0}; /* of use up to the first piece alone */
    status = bootcore_carry_out(&cut.layout, cut.files, 2, cut.pieces, 2);
    count("carry_out", "a piece that an earlier one cuts", status, BOOTCORE_STATUS_DONE,
          !memcmp(told.memory, before.memory, CUT) && !memcmp(told.second, loaded, CUT) &&
              !memcmp(told.memory + CUT, loaded + CUT, SIZE - CUT) &&
              !memcmp(told.second + CUT, before.second + CUT, SIZE - CUT));
    CARRY(BOOTCORE_STATUS_DONE, (void)c);
    CARRY(BOOTCORE_STATUS_DONE, c.pieces[c.piece_count++] = ((bootcore_memory){0, told.second, SIZE, 0}));
    CARRY(BOOTCORE_STATUS_DONE, c.pieces[c.piece_count++] = c.pieces[0];
          c.pieces[0] = ((bootcore_memory){UINT64_MAX, told.second, SIZE, 0}));
    CARRY(BOOTCORE_STATUS_DONE, c.pieces[0] = ((bootcore_memory){0x100000, told.memory + 0x100000, 0x3000, 0});
          c.pieces[1] = ((bootcore_memory){0x1000, told.memory + 0x1000, 0x1000, 0}));
    CARRY(BOOTCORE_STATUS_DONE, c.files[1] = ((bootcore_bytes){"hello again", 11})); /* longer than planned */
    CARRY(BOOTCORE_STATUS_OUTSIDE, c.layout.steps[0].address = UINT64_MAX;
          c.pieces[c.piece_count++] = ((bootcore_memory){UINT64_MAX, told.second, SIZE, 0}));
    CARRY(BOOTCORE_STATUS_OUTSIDE, c.pieces[1].length--);
    CARRY(BOOTCORE_STATUS_OUTSIDE, c.piece_count = 1);
    CARRY(BOOTCORE_STATUS_OUTSIDE, c.piece_count = 0);
    CARRY(BOOTCORE_STATUS_BAD_FILE, c.file_count = 1);
    CARRY(BOOTCORE_STATUS_BAD_FILE, c.files[1].length = 4);
    CARRY(BOOTCORE_STATUS_BAD_FILE, c.files[1].length = BOOTCORE_UNREADABLE);
    CARRY(BOOTCORE_STATUS_BAD_FILE, c.layout.steps[0].source = 0);
    CARRY(BOOTCORE_STATUS_BAD_FILE, c.layout.own_length = 1);
    CARRY(BOOTCORE_STATUS_SMALL_ROOM, c.layout.step_room = 0);
    CARRY(BOOTCORE_STATUS_SMALL_ROOM, c.layout.own_room = 0);
    CARRY(BOOTCORE_STATUS_SMALL_ROOM, c.layout.step_count = 0);
    CARRY(BOOTCORE_STATUS_SMALL_ROOM, c.layout.planned = 0);
    CARRY(BOOTCORE_STATUS_BAD_RESERVED, c.layout.reserved[1] = 1);
    CARRY(BOOTCORE_STATUS_BAD_RESERVED, c.pieces[1].reserved = 1);
    CARRY(BOOTCORE_STATUS_SMALL_ROOM, STALE(BOOTCORE_STATUS_REFUSED, d.entry.kernel.length = 9));
    CARRY(BOOTCORE_STATUS_SMALL_ROOM, STALE(BOOTCORE_STATUS_BAD_SIZE, d.machine.size++));
    CARRY(BOOTCORE_STATUS_SMALL_ROOM, STALE(BOOTCORE_STATUS_NULL, d.entry.line.bytes = NULL));
    CARRY(BOOTCORE_STATUS_SMALL_ROOM, STALE(BOOTCORE_STATUS_BAD_RESERVED, d.entry.reserved[0] = 1));
    /* the counts that it tells are within the arrays as they are later */
    CARRY(BOOTCORE_STATUS_SMALL_ROOM, c.layout.step_room = 1; STALE(BOOTCORE_STATUS_SMALL_ROOM, (void)d);
          c.layout.step_room = STEPS);
    CARRY(BOOTCORE_STATUS_NULL, c.files[1].bytes = NULL);
    CARRY(BOOTCORE_STATUS_NULL, c.pieces[0].bytes = NULL);
    CARRY(BOOTCORE_STATUS_NULL, c.layout.steps = NULL);
    CARRY(BOOTCORE_STATUS_NULL, c.layout.own = NULL);
    NO_POINTER(bootcore_carry_out(NULL, &c.entry.kernel, 1, &c.memory, 1));
    NO_POINTER(bootcore_carry_out(&c.layout, NULL, 1, &c.memory, 1));
    NO_POINTER(bootcore_carry_out(&c.layout, &c.entry.kernel, 1, NULL, 1));
}

/* Each status has a sentence of its own, and no other number has one. */
static void try_texts(void) {
    const char *none = bootcore_status_text(UINT32_MAX);
    for (uint32_t status = 0; status <= BOOTCORE_STATUS_POOL_AVOIDED + 1; status++) {
        const char *text = bootcore_status_text(status);
        bool is_one = status <= BOOTCORE_STATUS_OUTSIDE ||
                      (status >= BOOTCORE_STATUS_NULL && status <= BOOTCORE_STATUS_POOL_AVOIDED);
        bool holds = text[0] && !strcmp(text, none) != is_one;
        for (uint32_t other = 0; is_one && other < status; other++) {
            holds = holds && strcmp(text, bootcore_status_text(other));
        }
        count("status_text", text, status, status, holds);
    }
}

int main(void) {
    memset(&before, 0xA5, sizeof before);
    for (int i = 0; i <= BOOTCORE_MAX_REGIONS; i++) {
        many[i] = usable[0];
    }
    try_changes();
    try_firmware();
    try_no_firmware();
    try_lines();
    try_no_pointers();
    try_unplaced();
    try_carrying();
    try_texts();
    printf("%d tried, %d wrong\n", tried, wrong);
    return wrong != 0;
}
