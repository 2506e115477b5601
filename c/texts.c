/* Refusals in words. */
#include "bootcore.h"

/* What stands in brackets behind a refusal's name. */
enum carried { NOTHING, A_NUMBER, TWO_NUMBERS, AN_OFFSET };

struct refusal_text {
    uint32_t number;
    enum carried carried;
    const char *name;
    const char *meaning;
};

#include "refusal_texts.h"

static const struct refusal_text *find(uint32_t number) {
    for (size_t i = 0; i < sizeof texts / sizeof *texts; i++) {
        if (texts[i].number == number) {
            return &texts[i];
        }
    }
    return NULL;
}

/* A buffer, and how long the text is so far, also where the buffer is too small for it. */
struct text {
    char *buffer;
    size_t room;
    size_t length;
};

static void put(struct text *text, char c) {
    if (text->length < text->room) {
        text->buffer[text->length] = c;
    }
    text->length++;
}

static void put_words(struct text *text, const char *words) {
    for (; *words; words++) {
        put(text, *words);
    }
}

static void put_number(struct text *text, uint64_t number, unsigned base) {
    char digits[20]; /* 2^64 - 1 has as many to the base 10 */
    size_t count = 0;
    do {
        digits[count++] = "0123456789abcdef"[number % base];
        number /= base;
    } while (number);
    while (count) {
        put(text, digits[--count]);
    }
}

static void put_carried(struct text *text, enum carried carried, const bootcore_refusal *refusal) {
    if (carried == NOTHING) {
        return;
    }
    put(text, '(');
    if (carried == AN_OFFSET) {
        put_words(text, "0x");
        put_number(text, refusal->first, 16);
    } else {
        put_number(text, refusal->first, 10);
    }
    if (carried == TWO_NUMBERS) {
        put_words(text, ", ");
        put_number(text, refusal->second, 10);
    }
    put(text, ')');
}

BOOTCORE_CALL
const char *bootcore_refusal_text(uint32_t number) {
    const struct refusal_text *found = find(number);
    return found ? found->meaning : "no refusal has this number";
}

BOOTCORE_CALL
size_t bootcore_refusal_line(const bootcore_refusal *refusal, char *buffer, size_t length) {
    const struct refusal_text *found = refusal ? find(refusal->number) : NULL;
    struct text text = {buffer, 0, 0};
    if (!buffer) {
        length = 0;
    }
    if (length) {
        text.room = length - 1;
    }
    if (refusal) {
        put_words(&text, refusal->number < BOOTCORE_FAULT_BAD_MAGIC ? "refused " : "bad image ");
        put_number(&text, refusal->number, 10);
        if (found) {
            put(&text, ' ');
            put_words(&text, found->name);
            put_carried(&text, found->carried, refusal);
        }
        put_words(&text, ": ");
        put_words(&text, bootcore_refusal_text(refusal->number));
    }
    if (length) {
        buffer[text.length < text.room ? text.length : text.room] = 0;
    }
    return text.length;
}
