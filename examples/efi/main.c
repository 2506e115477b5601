/* A boot manager on the loader core: reads a menu from the disk, lets one choose, and boots through
   the core. The order is what makes it safe: all that can fail does so while the firmware still
   serves, and then the menu is shown again. What is left after its end are copies and a jump. */
#include "app.h"

EFI_SYSTEM_TABLE *ST;
EFI_BOOT_SERVICES *BS;
EFI_HANDLE application;

static EFI_LOADED_IMAGE *self;

/* 0, so that a test can end with what it says. */
static int say(const char *what) {
    print("\n    %s\n", what);
    return 0;
}

/* The core is compiled for x86-64-v2: SSE3, SSSE3, CMPXCHG16B, SSE4.1, SSE4.2, POPCNT. */
static int has_instructions(void) {
    uint32_t a = 1, b, c, d, wanted = 1 | 1 << 9 | 1 << 13 | 1 << 19 | 1 << 20 | 1 << 23;
    __asm__("cpuid" : "+a"(a), "=b"(b), "=c"(c), "=d"(d));
    return (c & wanted) == wanted;
}

/* A machine that starts alone neither shows what is wrong for ever, nor restarts for ever: the firmware
   goes on with what it boots next. */
enum { most_restarts = 3 };
static uint32_t restarts;
static int has_menu; /* a file, not only loader/entries */

/* The menu, and memory that is taken once. */
static int begin(EFI_HANDLE image) {
    static EFI_GUID loaded = LOADED_IMAGE_PROTOCOL;
    static char no_menu[] = "timeout 5\nentries\n";
    const char *wrong = NULL;
    uint32_t line = 0;
    if (!open_screen()) return say("There is too little memory.");
    restarts = forget_restarts();
    if (restarts >= most_restarts)
        return say("The memory map changed as the firmware ended, at each of the last three boots.");
    if (!has_instructions()) return say("This processor is older than x86-64-v2.");
    if (EFI_ERROR(BS->HandleProtocol(image, &loaded, (void **)&self)) ||
        !open_disk(self->DeviceHandle))
        return say("The disk that this was started from can't be read.");
    find_tpm();
    menu.boots_unmeasured = 1;
    has_menu = has_file("bootcore/menu.txt");
    char *text = has_menu ? read_text("bootcore/menu.txt", NULL, &wrong) : no_menu;
    if (text != NULL) wrong = read_menu(text, &line);
    if (wrong != NULL) {
        print("\n    %s", has_menu ? "bootcore/menu.txt" : "No bootcore/menu.txt; loader/entries");
        if (line) print(", line %u", (uint64_t)line);
        return print(": %s\n", wrong), say_unmeasured(has_menu), 0;
    }
    mark_kept();
    read_variables();
    write_variables(self);
    if (!take_plan_room()) return say("There is too little memory.");
    take_log_room();
    return 1;
}

/* What was planned otherwise than one might expect. */
static void say_plan(void) {
    for (uint32_t i = 0; i < boot.left_out_count; i++)
        print_sentence("It is not told all of the firmware", bootcore_status_text(boot.left_out[i]));
    if (boot.avoids_nothing)
        print("    It has room only where memory of boot services is not avoided, so it is not told of UEFI.\n");
}

/* Returns only if the entry can't be booted, with the reason; or NULL after a program. The entry is
   a copy for this attempt: files come to it. */
static const char *attempt(EFI_HANDLE image, menu_entry *entry) {
    if (entry->wrong != NULL)
        return compose(entry->wrong_line ? "%s: %s in line %u." : "%s: %s.", entry->file, entry->wrong,
                       (uint64_t)entry->wrong_line);
    const char *wrong = measure_choice(entry);
    if (wrong == NULL) wrong = use_partition(entry->partition);
    if (wrong != NULL) return wrong;
    if (entry->core.protocol == efi_program) return start_program(image, entry);
    find_firmware();
    wrong = read_files(entry);
    use_partition(NULL);
    if (wrong == NULL) wrong = make_ready(entry);
    if (wrong != NULL) return wrong;
    write_handover(entry);
    print("    Booting %s. It is told of %u KiB of usable memory, the core took %u bytes.\n",
          entry->title, boot.map.usable / 1024, (uint64_t)bootcore_arena_peak());
    say_plan();
    if (restarts)
        print("    Before, the memory map changed as the firmware ended: restarts: %u.\n", (uint64_t)restarts);
    return leave_firmware(image, entry);
}

/* Fallbacks are for the machine that starts alone: who chose an entry wants no other, if the menu
   does not say so. NULL, or what was wrong with the last attempt, which was shown. */
static const char *boot_choice(EFI_HANDLE image, enum choice how) {
    if (how != chosen_by_time && !keep_choice()) say("The choice can't be kept.");
    list_attempts(how == chosen_by_time || menu.falls_back);
    const char *wrong = ""; /* not NULL, so that there is a first attempt */
    for (uint32_t i = 0; i < menu.attempt_count && wrong != NULL; i++) {
        menu_entry entry = menu.entries[menu.attempts[i]];
        uint32_t kept_count = taken_count;
        entry.core.modules = entry.modules;
        print("\n");
        write_selected(menu.attempts[i]);
        wrong = attempt(image, &entry);
        if (wrong != NULL) print_sentence(entry.title, wrong);
        use_partition(NULL);
        give_back(kept_count);
    }
    if (wrong != NULL) say_unmeasured(has_menu);
    return wrong;
}

EFI_STATUS efi_main(EFI_HANDLE image, EFI_SYSTEM_TABLE *table) {
    enum choice how = to_next;
    ST = table;
    application = image;
    BS = table->BootServices;
    BS->SetWatchdogTimer(0, 0, 0, NULL);
    int is_good = begin(image);
    if (!is_good) wait_key(shown_seconds);
    while (is_good && (how = choose_entry()) < to_firmware) {
        uint32_t seconds = menu.seconds > shown_seconds ? menu.seconds : shown_seconds;
        const char *wrong = boot_choice(image, how);
        if (how == chosen_by_time) is_good = wait_key(seconds); /* also behind a program that ended well */
        else if (wrong != NULL) wait_key(no_limit);
        menu.seconds = no_limit; /* from here on a person decides */
    }
    close_screen();
    close_disk();
    give_back(0);
    return is_good && how == to_firmware ? EFI_SUCCESS : EFI_LOAD_ERROR;
}
