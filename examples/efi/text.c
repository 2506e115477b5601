/* Texts of lines: their words, and what is kept of them. */
#include "app.h"

const char *mistake;

int check(int is_good, const char *what) {
    if (!is_good && mistake == NULL) mistake = what;
    return is_good;
}

/* ---- words */

static int is_blank(char letter) { return letter == ' ' || letter == '\t' || letter == '\r'; }

int is_word(const char *word, const char *wanted) {
    return strlen(word) == strlen(wanted) && memcmp(word, wanted, strlen(word)) == 0;
}

int begins_with(const char *text, const char *start) {
    while (*start && *text == *start) text++, start++;
    return *start == 0;
}

char small_letter(char letter) { return letter >= 'A' && letter <= 'Z' ? (char)(letter - 'A' + 'a') : letter; }

char *cut_word(char *line) {
    while (*line && !is_blank(*line)) line++;
    while (is_blank(*line)) *line++ = 0;
    char *end = line + strlen(line);
    while (end > line && is_blank(end[-1])) *--end = 0;
    return line;
}

uint32_t number_of(const char *text) {
    uint32_t number = 0;
    check(*text != 0 && strlen(text) <= 9, "a number of at most nine digits is wanted");
    for (; *text >= '0' && *text <= '9'; text++) number = number * 10 + (uint32_t)(*text - '0');
    check(*text == 0, "a number is wanted");
    return number;
}

uint32_t each_line(char *text, void (*call)(const char *word, char *rest)) {
    uint32_t line = 1;
    mistake = NULL;
    if (begins_with(text, "\xef\xbb\xbf")) text += 3; /* a mark of UTF-8 */
    for (; *text; line++) {
        char *next = text;
        while (*next && *next != '\n') next++;
        if (*next) *next++ = 0;
        while (is_blank(*text)) text++;
        char *rest = cut_word(text);
        if (*text && *text != '#') call(text, rest);
        if (mistake != NULL) return line;
        text = next;
    }
    return 0;
}

/* ---- UTF-8 */

size_t character_length(const void *text, size_t left) {
    const uint8_t *bytes = text, first = bytes[0];
    uint8_t lowest = 0x80, highest = 0xbf; /* of the second byte */
    size_t length = first < 0x80 ? 1 : first < 0xe0 ? 2 : first < 0xf0 ? 3 : 4;
    if ((first >= 0x80 && first < 0xc2) || first > 0xf4 || length > left) return 0;
    if (first == 0xe0) lowest = 0xa0;  /* else it had a shorter form */
    if (first == 0xed) highest = 0x9f; /* else it were a surrogate */
    if (first == 0xf0) lowest = 0x90;
    if (first == 0xf4) highest = 0x8f; /* else it were above U+10FFFF */
    for (size_t i = 1; i < length; i++, lowest = 0x80, highest = 0xbf)
        if (bytes[i] < lowest || bytes[i] > highest) return 0;
    return length;
}

/* No character goes on with a zero byte, so the text's end is no matter. */
size_t step_length(const char *text) {
    size_t length = character_length(text, 4);
    return *text == 0 ? 0 : length == 0 ? 1 : length;
}

size_t count_characters(const char *text, const char *end) {
    size_t count = 0;
    for (; text < end && *text; text += step_length(text)) count++;
    return count;
}

size_t widen(const void *text, size_t length, CHAR16 *to) {
    const uint8_t *bytes = text;
    size_t count = 0, size;
    int is_good = 1;
    for (; length; bytes += size, length -= size) {
        size = character_length(bytes, length);
        uint32_t code = size > 1 ? bytes[0] & (0x7fu >> size) : size == 1 ? bytes[0] : 0xfffd;
        if (size == 0) is_good = 0, size = 1;
        for (size_t i = 1; i < size; i++) code = code << 6 | (bytes[i] & 0x3f);
        if (code > 0xffff) to[count++] = (CHAR16)(0xd7c0 + (code >> 10)), code = 0xdc00 | (code & 0x3ff); /* a pair */
        to[count++] = (CHAR16)code;
    }
    to[count++] = 0;
    return is_good ? count : 0;
}

/* ---- what is kept */

const char *path_of(char *path) {
    while (*path == '/') path++;
    check(*path != 0, "a file is wanted");
    return path;
}

struct text_room text_room;

bootcore_bytes keep_bytes(const void *bytes, size_t length) {
    bootcore_bytes taken = {text_room.next, 0};
    if (!check(length <= text_room.left, "too much text")) return taken;
    memcpy(text_room.next, bytes, length);
    text_room.next += length;
    text_room.left -= length;
    taken.length = length;
    return taken;
}

bootcore_bytes keep_line(const char *text) { return keep_bytes(text, strlen(text)); }

void set_kernel(char *path, menu_entry *entry) {
    if (check(entry->paths[0] == NULL, "an entry has one kernel or program"))
        entry->paths[0] = path_of(path);
}

void add_ramdisk(char *path, menu_entry *entry) {
    if (check(entry->file_count <= BOOTCORE_MAX_MODULES, "too many ramdisks of an entry"))
        entry->paths[entry->file_count++] = path_of(path);
}

void name_partition(menu_entry *entry) {
    for (uint32_t i = 0; i < entry->file_count && entry->partition != NULL; i++) {
        const char *path = entry->paths[i];
        if (path == NULL) continue;
        entry->paths[i] = keep_bytes(entry->partition, partition_letters).bytes;
        keep_bytes("/", 1);
        keep_bytes(path, strlen(path) + 1);
    }
}
