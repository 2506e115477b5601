/* What rustc calls of a C library beside what the headers name: the archive has its own, which no program sees. */
#include <stddef.h>
#include <stdint.h>

int memcmp(const void *one, const void *other, size_t length);
int bcmp(const void *one, const void *other, size_t length);

int memcmp(const void *one, const void *other, size_t length) {
    const uint8_t *left = one, *right = other;
    uint64_t of_left, of_right;
    size_t at = 0;
    for (; length - at >= sizeof of_left; at += sizeof of_left) {
        __builtin_memcpy(&of_left, left + at, sizeof of_left);
        __builtin_memcpy(&of_right, right + at, sizeof of_right);
        if (of_left != of_right) {
            break;
        }
    }
    for (; at < length; at++) {
        if (left[at] != right[at]) {
            return left[at] < right[at] ? -1 : 1;
        }
    }
    return 0;
}

int bcmp(const void *one, const void *other, size_t length) {
    return memcmp(one, other, length);
}
