/* The screen: the menu with its marked entry, keys, and lines of text. */
#include "app.h"

#include <stdarg.h>

/* ---- text */

char *kept, *kept_end;

static char run[256]; /* what is shown next, since one call of the firmware's for each letter is slow */
static size_t run_length;

/* A machine without a console has no ConOut: nothing is shown there. */
static void show_run(void) {
    CHAR16 letters[sizeof run + 1];
    widen(run, run_length, letters);
    if (run_length && ST->ConOut != NULL) ST->ConOut->OutputString(ST->ConOut, letters);
    run_length = 0;
}

/* A run is ended before its last bytes, where no character goes on. */
static void put(char letter) {
    int is_first = (letter & 0xc0) != 0x80;
    if (kept == NULL) {
        if (run_length == sizeof run || (run_length >= sizeof run - 4 && is_first)) show_run();
        if (letter == '\n') run[run_length++] = '\r';
        run[run_length++] = letter;
    } else if (kept < kept_end) *kept++ = letter;
}

static void put_number(uint64_t number, uint64_t base) {
    if (number >= base) put_number(number / base, base);
    put("0123456789abcdef"[number % base]);
}

static void print_list(const char *form, va_list given) {
    for (; *form; form++) {
        if (*form != '%') put(*form);
        else if (*++form == 'c') put((char)va_arg(given, int));
        else if (*form != 's') put_number(va_arg(given, uint64_t), *form == 'x' ? 16 : 10);
        else
            for (const char *text = va_arg(given, const char *); *text; text++) put(*text);
    }
}

void print(const char *form, ...) {
    va_list given;
    va_start(given, form);
    print_list(form, given);
    va_end(given);
    if (kept == NULL) show_run();
}

const char *compose(const char *form, ...) {
    static char words[512];
    va_list given;
    va_start(given, form);
    kept = words;
    kept_end = words + sizeof words - 1;
    print_list(form, given);
    *kept = 0;
    kept = NULL;
    va_end(given);
    return words;
}

/* No screen of a firmware's is smaller than 80 by 25. */
static void measure_screen(UINTN *columns, UINTN *rows) {
    SIMPLE_TEXT_OUTPUT_INTERFACE *out = ST->ConOut;
    if (out == NULL || EFI_ERROR(out->QueryMode(out, (UINTN)out->Mode->Mode, columns, rows)) || *columns < 80 ||
        *rows < 25)
        *columns = 80, *rows = 25;
}

static void move_to(UINTN column, UINTN row) {
    show_run();
    if (ST->ConOut != NULL) ST->ConOut->SetCursorPosition(ST->ConOut, column, row);
}

static void set_colors(UINTN letters, UINTN ground) {
    show_run();
    if (ST->ConOut != NULL) ST->ConOut->SetAttribute(ST->ConOut, EFI_TEXT_ATTR(letters, ground));
}

/* A program may have left it in other colours. */
static void clear_screen(void) {
    set_colors(EFI_LIGHTGRAY, EFI_BLACK);
    if (ST->ConOut == NULL) return;
    ST->ConOut->EnableCursor(ST->ConOut, FALSE);
    ST->ConOut->ClearScreen(ST->ConOut);
}

/* A row that is full ends before a word, which begins the next one. */
void print_sentence(const char *about, const char *sentence) {
    UINTN columns, rows, column = 6 + count_characters(about, about + strlen(about));
    size_t length;
    measure_screen(&columns, &rows);
    print("    %s: ", about);
    for (; *sentence; sentence += length) {
        for (length = 1; sentence[length] && sentence[length] != ' '; length++) continue;
        if (column + count_characters(sentence, sentence + length) >= columns) {
            print("\n      ");
            column = 6;
            if (*sentence == ' ') sentence++, length--;
        }
        for (size_t i = 0; i < length; i++) put(sentence[i]);
        column += count_characters(sentence, sentence + length);
    }
    print("\n");
}

/* ---- the menu */

/* In so many columns, one a character, with blanks behind a text that is shorter: where it is cut. */
static void show_wide(const char *text, size_t width) {
    for (; width > 0; width--) {
        const char *next = text + step_length(text);
        if ((unsigned char)*text < ' ') put(' '), text = next;
        while (text < next) put(*text++);
    }
}

static uint32_t first, end; /* of the entries that are shown; the first one's row is the fourth */

static void show_row(uint32_t index) {
    static const char *const names[] = {"", "Multiboot2", "Linux", "Linux, 64 bits", "EFI program"};
    move_to(3, 3 + index - first);
    if (index == menu.chosen) set_colors(EFI_WHITE, EFI_BLUE);
    put(' ');
    show_wide(menu.entries[index].title, 49);
    put(' ');
    show_wide(names[menu.entries[index].core.protocol], 16);
    set_colors(EFI_LIGHTGRAY, EFI_BLACK);
    print("\n");
}

/* The cursor stands below it then, where all else is shown. */
static void show_limit(uint32_t left) {
    move_to(4, 5 + end - first);
    print(left ? "The marked entry is booted in %u seconds.  \n"
               : "                                               \n", (uint64_t)left);
}

/* As many entries as there is room for beside seven rows, so that nothing scrolls. */
static void show_menu(uint32_t left) {
    UINTN columns, rows;
    measure_screen(&columns, &rows);
    uint32_t room = (uint32_t)rows - 7;
    first = menu.chosen < room ? 0 : menu.chosen - room + 1;
    end = menu.entry_count - first < room ? menu.entry_count : first + room;
    move_to(0, 0);
    print("\n    bootcore: a boot manager on a proved loader core\n\n");
    for (uint32_t i = first; i < end; i++) show_row(i);
    print("\n    Up and Down choose, Enter boots, Escape leaves.\n");
    show_limit(left);
}

/* A line as slow as a serial one gets no more than the two rows that change. */
static void mark(uint32_t index) {
    uint32_t before = menu.chosen;
    menu.chosen = index;
    if (index < first || index >= end) show_menu(0);
    else show_row(before), show_row(index);
    move_to(0, 6 + end - first);
}

/* ---- keys */

static EFI_INPUT_KEY key; /* the last one that was pressed */
static EFI_EVENT timer;

int open_screen(void) {
    if (EFI_ERROR(BS->CreateEvent(EVT_TIMER, 0, NULL, NULL, &timer))) timer = NULL;
    return timer != NULL;
}

void close_screen(void) {
    if (timer != NULL) BS->CloseEvent(timer);
}

/* Without a ConIn no key is ever pressed. */
static int read_key(void) {
    return ST->ConIn != NULL && !EFI_ERROR(ST->ConIn->ReadKeyStroke(ST->ConIn, &key));
}

/* Whether a key is pressed within this time. A Shift alone ends a wait too, and is no key: the time
   goes on. Where the firmware can't wait, a key is looked for once the time is over. */
static int is_pressed_within(uint64_t milliseconds) {
    UINTN index = 0, count = ST->ConIn == NULL ? 1 : 2;
    EFI_EVENT events[2] = {timer, count == 2 ? ST->ConIn->WaitForKey : NULL};
    EFI_STATUS status = BS->SetTimer(timer, TimerRelative, milliseconds * 10000); /* in steps of 100 ns */
    do {
        if (!EFI_ERROR(status)) status = BS->WaitForEvent(count, events, &index);
        if (EFI_ERROR(status)) {
            BS->Stall(milliseconds * 1000);
            return read_key();
        }
        if (read_key()) return 1;
    } while (index != 0);
    return 0;
}

int wait_key(uint32_t seconds) {
    if (ST->ConIn == NULL && seconds == no_limit) seconds = shown_seconds;
    print(seconds == no_limit ? "\n    Press a key.\n"
                              : "\n    Press a key, or the firmware goes on in %u seconds.\n",
          (uint64_t)seconds);
    for (; seconds; seconds -= seconds != no_limit)
        if (is_pressed_within(1000)) return 1;
    return 0;
}

/* ---- the choice */

/* The menu until a key ends it or the time is over. */
static enum choice ask(uint32_t left) {
    for (show_menu(left);;) {
        if (!is_pressed_within(1000)) {
            if (left == 0) continue;
            if (--left == 0) return chosen_by_time;
            show_limit(left);
            continue;
        }
        if (left) show_limit(left = 0); /* a key ends the time limit */
        if (key.UnicodeChar == '\r') return chosen_by_hand;
        if (key.ScanCode == SCAN_ESC) return to_firmware;
        if (key.ScanCode == SCAN_UP && menu.chosen > 0) mark(menu.chosen - 1);
        if (key.ScanCode == SCAN_DOWN && menu.chosen + 1 < menu.entry_count) mark(menu.chosen + 1);
    }
}

/* Without time to choose the menu is shown to who holds a key down, which repeats in this time. */
enum choice choose_entry(void) {
    clear_screen();
    if (menu.seconds == 0 && !is_pressed_within(100)) return chosen_by_time;
    if (menu.seconds == no_limit && ST->ConIn == NULL) {
        print("\n    There is no keyboard to choose by, and no time limit.\n");
        return wait_key(no_limit), to_next;
    }
    return ask(menu.seconds == no_limit ? 0 : menu.seconds);
}
