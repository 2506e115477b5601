/* On the host: what stands on a screen of 80 by 25 after each key, by a console of this file's own, and how much was
   written for it; texts of UTF-8; and machines that lack a console, or whose firmware can't wait. */
#include "app.h"

#include <stdio.h>
#include <stdlib.h>
#include <string.h>

enum { columns = 80, rows = 25 };

struct menu_file menu;

static int failed;
static void expect(const char *what, int is_good) {
    if (!is_good) printf("%s\n", what), failed = 1;
}

/* ---- a console */

static CHAR16 cells[rows][columns];
static UINTN row, column, colors, cell_colors[rows][columns];
static unsigned calls, written, wraps; /* rows that are too long, or too many */

static EFI_STATUS EFIAPI output(SIMPLE_TEXT_OUTPUT_INTERFACE *out, CHAR16 *text) {
    (void)out;
    for (calls++; *text; text++, written++) {
        if (*text == '\r') column = 0;
        else if (*text == '\n') row++;
        else cell_colors[row][column] = colors, cells[row][column++] = *text;
        if (column == columns) column = 0, row++, wraps++;
        if (row == rows) row--, wraps++;
    }
    return EFI_SUCCESS;
}
static EFI_STATUS EFIAPI query(SIMPLE_TEXT_OUTPUT_INTERFACE *out, UINTN mode, UINTN *wide, UINTN *high) {
    return (void)out, (void)mode, *wide = columns, *high = rows, EFI_SUCCESS;
}
static EFI_STATUS EFIAPI color(SIMPLE_TEXT_OUTPUT_INTERFACE *out, UINTN new) {
    return (void)out, colors = new, written += 8, EFI_SUCCESS; /* about what a terminal is sent */
}
static EFI_STATUS EFIAPI clear(SIMPLE_TEXT_OUTPUT_INTERFACE *out) {
    (void)out;
    for (int i = 0; i < rows * columns; i++)
        cells[i / columns][i % columns] = ' ', cell_colors[i / columns][i % columns] = colors;
    row = column = 0;
    return EFI_SUCCESS;
}
static EFI_STATUS EFIAPI place(SIMPLE_TEXT_OUTPUT_INTERFACE *out, UINTN to_column, UINTN to_row) {
    (void)out;
    expect("the cursor stays on the screen", to_column < columns && to_row < rows);
    return column = to_column, row = to_row, written += 8, EFI_SUCCESS;
}
static EFI_STATUS EFIAPI show_cursor(SIMPLE_TEXT_OUTPUT_INTERFACE *out, BOOLEAN on) { return (void)out, (void)on, EFI_SUCCESS; }

static SIMPLE_TEXT_OUTPUT_MODE mode;
static SIMPLE_TEXT_OUTPUT_INTERFACE console = {.OutputString = output, .QueryMode = query, .SetAttribute = color,
                                               .ClearScreen = clear, .SetCursorPosition = place,
                                               .EnableCursor = show_cursor, .Mode = &mode};

/* ---- keys and time */

static EFI_INPUT_KEY keys[4096]; /* one of no code lets the time go on */
static int key_count, next_key, has_key;
static uint64_t now, set; /* in steps of 100 ns */
static int wait_fails, timer_fails, waits;
static void (*look)(void); /* at the screen, before each key and each second */

static EFI_STATUS EFIAPI read(SIMPLE_INPUT_INTERFACE *in, EFI_INPUT_KEY *to) {
    (void)in;
    if (!has_key) return EFI_NOT_READY;
    return has_key = 0, *to = keys[next_key++], EFI_SUCCESS;
}
static SIMPLE_INPUT_INTERFACE keyboard = {.ReadKeyStroke = read};

static void pass(void) {
    if (look != NULL) look();
    if (next_key < key_count && (keys[next_key].ScanCode || keys[next_key].UnicodeChar)) has_key = ST->ConIn != NULL;
    else next_key += next_key < key_count;
}
static EFI_STATUS EFIAPI wait(UINTN count, EFI_EVENT *events, UINTN *index) {
    waits++;
    if (wait_fails || events[0] == NULL) return EFI_UNSUPPORTED;
    expect("a key is waited for where there can be one", count == 1u + (ST->ConIn != NULL));
    pass();
    if (!has_key) now += set;
    return *index = has_key != 0, EFI_SUCCESS;
}
static EFI_STATUS EFIAPI set_timer(EFI_EVENT event, EFI_TIMER_DELAY how, UINT64 time) {
    return (void)event, (void)how, set = time, timer_fails ? EFI_INVALID_PARAMETER : EFI_SUCCESS;
}
static EFI_STATUS EFIAPI stall(UINTN microseconds) { return pass(), now += microseconds * 10, EFI_SUCCESS; }
static EFI_STATUS EFIAPI create(UINT32 type, EFI_TPL level, EFI_EVENT_NOTIFY call, void *context, EFI_EVENT *event) {
    return (void)type, (void)level, (void)call, (void)context, *event = &now, EFI_SUCCESS;
}

static EFI_BOOT_SERVICES services = {.WaitForEvent = wait, .SetTimer = set_timer, .Stall = stall, .CreateEvent = create};
static EFI_SYSTEM_TABLE table;
EFI_SYSTEM_TABLE *ST = &table;
EFI_BOOT_SERVICES *BS = &services;

static void begin(uint32_t entries, uint32_t seconds) {
    static char titles[BOOTCORE_MAX_ENTRIES][16];
    memset(&menu, 0, sizeof menu);
    for (menu.entry_count = 0; menu.entry_count < entries; menu.entry_count++) {
        sprintf(titles[menu.entry_count], "Entry %u", menu.entry_count);
        menu.entries[menu.entry_count].title = titles[menu.entry_count];
        menu.entries[menu.entry_count].core.protocol = 1 + menu.entry_count % 4;
        menu.entries[menu.entry_count].core.line.bytes = "";
    }
    menu.seconds = seconds;
    table.ConOut = &console, table.ConIn = &keyboard;
    wraps = 0;
    key_count = next_key = has_key = wait_fails = timer_fails = waits = 0;
    now = 0, look = NULL;
    open_screen();
}
static void press(UINT16 code, CHAR16 letter) { keys[key_count++] = (EFI_INPUT_KEY){code, letter}; }

/* ---- UTF-8 */

static size_t write_utf8(uint32_t code, char *to) {
    if (code < 0x80) return to[0] = (char)code, 1;
    if (code < 0x800) return to[0] = (char)(0xc0 | code >> 6), to[1] = (char)(0x80 | code % 64), 2;
    if (code < 0x10000)
        return to[0] = (char)(0xe0 | code >> 12), to[1] = (char)(0x80 | code / 64 % 64), to[2] = (char)(0x80 | code % 64), 3;
    to[0] = (char)(0xf0 | code >> 18), to[1] = (char)(0x80 | code / 4096 % 64);
    return to[2] = (char)(0x80 | code / 64 % 64), to[3] = (char)(0x80 | code % 64), 4;
}

static void check_texts(void) {
    static const char *const bad[] = {"\xff", "\x80", "\xc0\xaf", "\xc1\xbf", "\xc3", "\xe2\x82", "\xe0\x9f\xbf", "\xed\xa0\x80",
                                      "\xf0\x8f\xbf\xbf", "\xf0\x90\x80", "\xf4\x90\x80\x80", "\xf5\x80\x80\x80"};
    for (uint32_t code = 1; code < 0x110000; code++) {
        char text[6] = {0};
        size_t length = write_utf8(code, text);
        CHAR16 *to = malloc((length + 2) * sizeof *to);
        size_t count = (text[length] = 'x', widen(text, length + 1, to));
        int is_surrogate = code >= 0xd800 && code < 0xe000;
        if (is_surrogate) expect("a surrogate is no character", count == 0 && to[0] == 0xfffd && to[3] == 'x' && !to[4]);
        else if (code < 0x10000) expect("a character is one letter", count == 3 && to[0] == code && to[1] == 'x' && !to[2]);
        else
            expect("a character is a pair of letters", count == 4 && to[0] == 0xd800 + ((code - 0x10000) >> 10) &&
                   to[1] == 0xdc00 + ((code - 0x10000) & 0x3ff) && to[2] == 'x' && !to[3]);
        expect("a character is passed as one", step_length(text) == (is_surrogate ? 1 : length));
        free(to);
    }
    for (size_t i = 0; i < sizeof bad / sizeof bad[0]; i++) {
        const size_t length = strlen(bad[i]);
        char *copy = strcpy(malloc(length + 1), bad[i]);
        CHAR16 *to = malloc((length + 1) * sizeof *to);
        expect("what is no UTF-8 is said", widen(copy, length, to) == 0);
        for (size_t k = 0; k < length; k++) expect("each byte of it is U+FFFD", to[k] == 0xfffd);
        expect("each byte of it is passed as one", to[length] == 0 && count_characters(copy, copy + length) == length);
        free(to), free(copy);
    }
}

/* ---- the menu */

static char said[columns + 1];
static const char *row_text(UINTN at) {
    size_t length = columns;
    for (int i = 0; i < columns; i++) said[i] = cells[at][i] < 0x80 ? (char)cells[at][i] : '?';
    while (length && said[length - 1] == ' ') length--;
    return said[length] = 0, said;
}

static uint32_t marked, left, top; /* as the keys so far have it */
static unsigned most; /* that may have been written */

static void look_at_menu(void) {
    char wanted[columns + 1];
    if (marked < top) top = 0; /* a page that starts above has the marked entry last, or is the first one */
    for (UINTN i = 0; i < 18 && top + i < menu.entry_count; i++) {
        sprintf(wanted, "    Entry %u", top + (uint32_t)i);
        expect("an entry's row has its title", strncmp(row_text(3 + i), wanted, strlen(wanted)) == 0);
        for (int k = 4; k < 70; k++)
            expect("the marked entry alone has the colours for it",
                   (cell_colors[3 + i][k] == EFI_TEXT_ATTR(EFI_WHITE, EFI_BLUE)) == (top + i == marked));
    }
    UINTN below = 3 + (menu.entry_count < 18 ? menu.entry_count : 18);
    expect("what the keys do stands below", strstr(row_text(below + 1), "Up and Down choose") != NULL);
    sprintf(wanted, "    The marked entry is booted in %u seconds.", left);
    expect("the time that is left stands below", strcmp(row_text(below + 2), left ? wanted : "") == 0);
    expect("what comes next is shown below all", row == below + 3 && column == 0);
    expect("no more is written than what changed", written <= most);
    expect("a run of letters is one call", calls <= most / 20);
    written = calls = 0;
    most = 250; /* two rows */
    if (next_key < key_count && keys[next_key].ScanCode == SCAN_DOWN && marked + 1 < menu.entry_count) marked++;
    else if (next_key < key_count && keys[next_key].ScanCode == SCAN_UP && marked > 0) marked--;
    else if (left) most = 80;
    if (next_key < key_count && keys[next_key].ScanCode) left = 0;
    else if (left) left--;
    if (marked >= top + 18) top = marked - 17, most = 4000;
    if (marked < top) top = marked < 18 ? 0 : marked - 17, most = 4000;
}

static void check_menu(uint32_t entries) {
    begin(entries, 9);
    for (int i = 0; i < 3; i++) press(0, 0);
    for (uint32_t i = 0; i < entries + 2; i++) press(SCAN_DOWN, 0);
    for (uint32_t i = 0; i < entries + 2; i++) press(SCAN_UP, 0);
    press(SCAN_DOWN, 0);
    press(0, '\r');
    marked = top = 0, left = 9, most = 4000, written = calls = 0;
    look = look_at_menu;
    expect("Enter boots the marked entry", choose_entry() == chosen_by_hand && menu.chosen == (entries > 1));
    expect("no row of the menu goes beyond the screen", wraps == 0);
    begin(entries, 3);
    marked = top = 0, left = 3, most = 4000, written = calls = 0;
    look = look_at_menu;
    expect("without a key the time runs out", choose_entry() == chosen_by_time && now == 30000000);
}

/* ---- machines that lack something */

static void check_lacking(void) {
    for (int how = 0; how < 32; how++) { /* each choice of these */
        int has_no_out = how & 1, has_no_in = how >> 1 & 1, fails = how >> 2 & 1, has_no_timer = how >> 3 & 1, presses = how >> 4;
        for (int which = 0; which < 3; which++) {
            begin(3, which ? no_limit : 5);
            if (has_no_out) table.ConOut = NULL;
            if (has_no_in) table.ConIn = NULL;
            wait_fails = fails, timer_fails = has_no_timer, calls = 0;
            if (!presses && which && !has_no_in) continue; /* a person is waited for */
            if (presses) press(SCAN_DOWN, 0), press(0, 'e'), press(0, '\r');
            if (which == 2) {
                int pressed = wait_key(no_limit);
                expect("a key ends a message, or the time for it", pressed == !has_no_in && now == (pressed ? now : 300000000));
            } else {
                enum choice chosen = choose_entry();
                if (presses && !has_no_in)
                    expect("keys choose", chosen == chosen_by_hand && menu.chosen == 1);
                else if (which) expect("where nobody can choose, the firmware goes on", chosen == to_next && now == 300000000);
                else expect("where nobody chooses, the time runs out", chosen == chosen_by_time && now == 50000000);
            }
            expect("no time passes without waiting", waits <= 40);
            expect("nothing is shown without a console", (calls == 0) == has_no_out);
        }
    }
    begin(1, 5);
    table.ConOut = NULL;
    print("%s %u\n", "a text", (uint64_t)7);
    print_sentence("about", "a sentence");
    expect("a text is composed without a console", strcmp(compose("%s %x", "a", (uint64_t)255), "a ff") == 0);
}

/* ---- texts on the screen */

static void check_shown(void) {
    static char text[2000];
    size_t length = 0;
    begin(1, 5);
    for (int i = 0; i < 60; i++) length += write_utf8(i % 2 ? 0x20ac : 0xe9, text + length);
    menu.entries[0].title = text;
    clear(&console), row = 3, calls = 0;
    choose_entry();
    for (int i = 0; i < 49; i++) expect("a title is shown in characters", cells[3][4 + i] == (i % 2 ? 0x20ac : 0xe9));
    expect("and cut after its columns", cells[3][53] == ' ' && cells[3][54] == 'M');
    for (size_t before = 0; before < 70; before++) {
        memset(text, 'a', before);
        strcpy(text + before, "\xe2\x82\xac\xff\xc3\xa9");
        clear(&console);
        print_sentence(text, text);
        clear(&console);
        print("%s", text);
        expect("a character is shown wherever it stands, and a byte that is of none", cells[row][before] == 0x20ac &&
               cells[row][before + 1] == 0xfffd && cells[row][before + 2] == 0xe9 && column == before + 3);
    }
    for (size_t before = 240; before < 262; before++) { /* also at the end of a run */
        for (size_t i = 0; i < before; i++) text[i] = i % 60 == 59 ? '\n' : 'a';
        strcpy(text + before, "\xf0\x9f\x98\x80\xe2\x82\xac\n");
        clear(&console);
        print("%s", text);
        const CHAR16 *end = &cells[before / 60][before % 60];
        expect("a character is whole at the end of a run", end[0] == 0xd83d && end[1] == 0xde00 && end[2] == 0x20ac);
    }
    memset(text, 0x80, 600), text[600] = 0;
    for (int i = 59; i < 600; i += 60) text[i] = '\n';
    clear(&console);
    print("%s", text);
    expect("bytes that are no UTF-8 fill no more than their room", cells[9][58] == 0xfffd);
}

int main(void) {
    check_texts();
    check_menu(1);
    check_menu(5);
    check_menu(18);
    check_menu(32);
    check_lacking();
    check_shown();
    return failed;
}
