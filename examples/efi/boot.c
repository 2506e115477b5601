/* The plan of a boot, and the end of the firmware. */
#include "app.h"

struct boot_state boot;

static void *arena;

/* Whole pages with room for so many bytes. */
static void *take_room(uint64_t length) { return take_low_pages((length + page - 1) / page); }

/* As much as any plan may want: what it wants is known only once the firmware is asked for nothing
   more than its map. */
int take_plan_room(void) {
    static bootcore_place places[BOOTCORE_MAX_PLACES];
    boot.layout.places = places;
    boot.layout.place_room = BOOTCORE_MAX_PLACES;
    boot.layout.steps = take_room(BOOTCORE_MAX_STEPS * sizeof(bootcore_step));
    boot.layout.step_room = BOOTCORE_MAX_STEPS;
    boot.layout.own = take_room(BOOTCORE_MAX_OWN);
    boot.layout.own_room = BOOTCORE_MAX_OWN;
    arena = take_low_pages(menu.arena / page + 1);
    return boot.layout.steps != NULL && boot.layout.own != NULL && arena != NULL;
}

/* ---- the plan */

const char *refusal_words(const bootcore_refusal *refusal) {
    static char words[512];
    bootcore_refusal_line(refusal, words, sizeof words);
    return words;
}

static const char *status_words(uint32_t status) {
    switch (status) {
    case BOOTCORE_STATUS_DONE: return NULL;
    case BOOTCORE_STATUS_REFUSED: return refusal_words(&boot.layout.refusal);
    case BOOTCORE_STATUS_NO_MEMORY: return "The core is out of memory: its arena is too small.";
    case BOOTCORE_STATUS_SMALL_ROOM: return "The plan is longer than any should be.";
    case BOOTCORE_STATUS_BAD_REGION: return "The firmware's map goes beyond 2^52.";
    default: return "The core was called in a way that it does not allow.";
    }
}

static uint32_t plan(const menu_entry *entry) {
    bootcore_arena(arena, menu.arena);
    return bootcore_plan(&boot.map.machine, &entry->core, &boot.layout);
}

/* The core knows the limits of what firmware tells. What breaks one is not told, since a kernel without
   it is better than none: whether that was so, and the entry may be planned again. */
static int leave_out(uint32_t status) {
    bootcore_firmware *told = &boot.map.firmware;
    if (status >= BOOTCORE_STATUS_BAD_SCREEN_SIZE && status <= BOOTCORE_STATUS_BAD_SCREEN_PLACE)
        told->screen = (bootcore_screen){.base = 0};
    else if (status == BOOTCORE_STATUS_BAD_RSDP) told->rsdp = 0;
    else if (status >= BOOTCORE_STATUS_BAD_SYSTEM_TABLE && status <= BOOTCORE_STATUS_BAD_EFI_MAP_PLACE)
        told->efi = (bootcore_efi){.bits = 0};
    else if (status == BOOTCORE_STATUS_BAD_SMBIOS_SIZE) told->smbios = (bootcore_smbios){.major = 0};
    else return 0;
    boot.left_out[boot.left_out_count++] = status;
    return 1;
}

/* Whether it may have room where nothing is avoided. */
static int lacks_room(uint32_t status) {
    const uint32_t number = boot.layout.refusal.number;
    return status == BOOTCORE_STATUS_REFUSED &&
           (number == BOOTCORE_REFUSAL_NOT_USABLE || number == BOOTCORE_REFUSAL_NO_ROOM ||
            number == BOOTCORE_REFUSAL_NO_POOL);
}

const char *plan_entry(const menu_entry *entry) {
    const char *wrong = read_map(&boot.map);
    if (wrong != NULL) return wrong;
    tell_firmware(&boot.map, entry);
    boot.left_out_count = 0;
    uint32_t status = plan(entry);
    while (leave_out(status)) status = plan(entry);
    boot.avoids_nothing = lacks_room(status) && boot.map.firmware.avoided_count != 0;
    if (boot.avoids_nothing) { /* parts may come over tables to which UEFI's lead, and Linux would read them */
        boot.map.firmware.avoided_count = 0;
        boot.map.firmware.efi = (bootcore_efi){.bits = 0};
        status = plan(entry);
    }
    if (status == BOOTCORE_STATUS_DONE && hides_secure_boot(entry))
        return "Secure Boot is on, and the kernel would not be told so.";
    return status_words(status);
}

/* ---- the end of the firmware */

enum { most_tries = 8 };

/* Whether a part is planned where the firmware has come to use memory that is to be avoided. */
static int meets_avoided(machine_map *now) {
    const size_t count = boot.avoids_nothing ? 0 : list_avoided(now, now->avoided);
    for (size_t i = 0; i < count; i++)
        for (size_t k = 0; k < boot.layout.step_count; k++)
            if (is_met(&boot.layout.steps[k], now->avoided[i].base, now->avoided[i].length)) return 1;
    return 0;
}

/* Whether the firmware's map is still that of the plan: then its new key is known. */
static int is_same_map(void) {
    static machine_map now;
    size_t count = boot.map.machine.region_count;
    if (read_map(&now) != NULL || now.machine.region_count != count ||
        memcmp(now.regions, boot.map.regions, count * sizeof now.regions[0]) != 0 || meets_avoided(&now))
        return 0;
    int is_kept = boot.map.list.descriptors != now.list.descriptors; /* and not read over */
    if (is_kept && !are_alike(&now.list, &boot.map.list)) return 0;
    boot.map.key = now.key;
    return 1;
}

const char *make_ready(menu_entry *entry) {
    const char *wrong = plan_entry(entry);
    if (wrong != NULL) return wrong;
    if (!clear_sources() || !make_entry()) return "There is no room beside the entry's parts.";
    give_files(entry);
    return NULL;
}

/* Makes an entry ready and measures the plan, until the map is the same afterwards. Each print may
   change it, and so may a measurement. */
static const char *make_measured(menu_entry *entry) {
    for (int tries = 0; tries < most_tries; tries++) {
        const char *wrong = make_ready(entry);
        if (wrong == NULL) wrong = measure_handover(entry);
        if (wrong != NULL) return wrong;
        say_measured(tries != 0);
        change("measured");
        change("used");
        if (is_same_map()) return NULL;
    }
    return "The firmware's memory map does not stay as it is.";
}

/* A machine whose restarts can't be counted would restart for ever, so it is turned off. */
__attribute__((noreturn)) static void restart(void) {
    EFI_RESET_TYPE how = keep_restart() ? EfiResetCold : EfiResetShutdown;
    ST->RuntimeServices->ResetSystem(how, EFI_SUCCESS, 0, NULL);
    for (;;) __asm__ volatile("hlt");
}

/* What is carried out is planned on the map with which the firmware ends. If it changes even between
   its last reading and ExitBootServices, that call fails, and the firmware may have ended in part,
   and need serve memory alone: nothing is printed any more, and nothing measured. So the plan is
   made again only if none was measured; else another map was measured than would be booted. The
   next boot says that there was a restart. */
const char *leave_firmware(EFI_HANDLE image, menu_entry *entry) {
    const char *wrong = make_measured(entry);
    if (wrong != NULL) return wrong;
    for (int tries = 0; tries < most_tries; tries++) {
        change("");
        change("key");
        if (!EFI_ERROR(BS->ExitBootServices(image, boot.map.key))) {
            keep_log();
            change("byte");
            enter_alone();
        }
        if (!is_same_map() && (is_handover_measured() || make_ready(entry) != NULL)) break;
    }
    restart();
}
