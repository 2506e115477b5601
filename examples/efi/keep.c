/* What is kept for the next boot, in variables of the firmware's: the choice, by its title, and how
   often the machine was restarted since no kernel could be entered. */
#include "app.h"

static EFI_GUID vendor = {
    0x6c1f0d3b, 0x8e52, 0x4f97, {0xa4, 0x1e, 0x39, 0x7b, 0xd2, 0x60, 0x5c, 0x88}};
static CHAR16 variable[] = {'C', 'h', 'o', 'i', 'c', 'e', 0};

enum { max_title = 256 };

static size_t kept_length(const char *title) {
    size_t length = strlen(title);
    return length < max_title ? length : max_title;
}

/* Whether it is the title that was kept. */
static int is_kept(const char *title) {
    static char found[max_title];
    UINTN size = sizeof found;
    return !EFI_ERROR(ST->RuntimeServices->GetVariable(variable, &vendor, NULL, &size, found)) &&
           size == kept_length(title) && memcmp(found, title, size) == 0;
}

void mark_kept(void) {
    for (uint32_t i = menu.entry_count; menu.keeps && i-- > 0;)
        if (is_kept(menu.entries[i].title)) menu.chosen = i;
}

static CHAR16 restarts_variable[] = {'R', 'e', 's', 't', 'a', 'r', 't', 's', 0};
enum { kept_always = EFI_VARIABLE_NON_VOLATILE | EFI_VARIABLE_BOOTSERVICE_ACCESS | EFI_VARIABLE_RUNTIME_ACCESS };

static uint8_t restarts;

uint32_t forget_restarts(void) {
    UINTN size = sizeof restarts;
    if (EFI_ERROR(ST->RuntimeServices->GetVariable(restarts_variable, &vendor, NULL, &size, &restarts)))
        return restarts = 0;
    ST->RuntimeServices->SetVariable(restarts_variable, &vendor, kept_always, 0, NULL);
    return restarts;
}

int keep_restart(void) {
    restarts++;
    return !EFI_ERROR(ST->RuntimeServices->SetVariable(restarts_variable, &vendor, kept_always,
                                                       sizeof restarts, &restarts));
}

/* Nothing is written that is there already: the firmware's memory for variables wears out. */
int keep_choice(void) {
    char *title = (char *)(UINTN)menu.entries[menu.chosen].title;
    uint32_t attributes = EFI_VARIABLE_NON_VOLATILE | EFI_VARIABLE_BOOTSERVICE_ACCESS;
    return !menu.keeps || is_kept(title) ||
           !EFI_ERROR(ST->RuntimeServices->SetVariable(variable, &vendor, attributes,
                                                       kept_length(title), title));
}
