/* What rustc calls of a C library, where there is none. */
#include <stddef.h>
#include <stdint.h>

void *memcpy(void *restrict to, const void *restrict from, size_t length);
void *memmove(void *to, const void *from, size_t length);
void *memset(void *to, int byte, size_t length);

static void copy_ascending(uint8_t *to, const uint8_t *from, size_t length) {
#ifdef __x86_64__
    __asm__ volatile("rep movsb" : "+D"(to), "+S"(from), "+c"(length) : : "memory");
#else
    uint64_t word;
    for (; length >= sizeof word; length -= sizeof word, to += sizeof word, from += sizeof word) {
        __builtin_memcpy(&word, from, sizeof word);
        __builtin_memcpy(to, &word, sizeof word);
    }
    while (length--) {
        *to++ = *from++;
    }
#endif
}

static void copy_descending(uint8_t *to, const uint8_t *from, size_t length) {
    uint64_t word;
    for (; length >= sizeof word; length -= sizeof word) {
        __builtin_memcpy(&word, from + length - sizeof word, sizeof word);
        __builtin_memcpy(to + length - sizeof word, &word, sizeof word);
    }
    while (length--) {
        to[length] = from[length];
    }
}

void *memcpy(void *restrict to, const void *restrict from, size_t length) {
    copy_ascending(to, from, length);
    return to;
}

void *memmove(void *to, const void *from, size_t length) {
    if ((uintptr_t)to - (uintptr_t)from >= length) {
        copy_ascending(to, from, length);
    } else {
        copy_descending(to, from, length);
    }
    return to;
}

void *memset(void *to, int byte, size_t length) {
    uint8_t *at = to;
#ifdef __x86_64__
    __asm__ volatile("rep stosb" : "+D"(at), "+c"(length) : "a"(byte) : "memory");
#else
    uint64_t word = (uint8_t)byte * UINT64_C(0x0101010101010101);
    for (; length >= sizeof word; length -= sizeof word, at += sizeof word) {
        __builtin_memcpy(at, &word, sizeof word);
    }
    while (length--) {
        *at++ = (uint8_t)byte;
    }
#endif
    return to;
}
