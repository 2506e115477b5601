/* For each line `NUMBER FIRST SECOND` of standard input: the refusal in words, as bootcore_refusal_line writes it. The status is 1 if a
 * shorter buffer gets another beginning of it, or a byte behind the buffer changes. */
#include <inttypes.h>
#include <stdio.h>
#include <string.h>

#include "bootcore.h"

enum { ROOM = 256 };

static int cuts_rightly(const bootcore_refusal *refusal, const char *whole, size_t length) {
    for (size_t room = 0; room <= length + 1; room++) {
        char buffer[ROOM + 1];
        size_t kept = room ? (room - 1 < length ? room - 1 : length) : 0;
        memset(buffer, '#', sizeof buffer);
        if (bootcore_refusal_line(refusal, room ? buffer : NULL, room) != length) return 0;
        if (room && (memcmp(buffer, whole, kept) || buffer[kept])) return 0;
        if (room && buffer[kept + 1] != '#') return 0;
        if (!room && buffer[0] != '#') return 0;
        if (bootcore_refusal_line(refusal, NULL, room) != length) return 0;
    }
    return 1;
}

int main(void) {
    bootcore_refusal refusal = {0, 0, 0, 0, 0};
    if (bootcore_version() != BOOTCORE_VERSION || bootcore_refusal_line(NULL, NULL, 0)) return 1;
    while (scanf("%" SCNu32 " %" SCNu64 " %" SCNu64, &refusal.number, &refusal.first, &refusal.second) == 3) {
        char whole[ROOM];
        size_t length = bootcore_refusal_line(&refusal, whole, sizeof whole);
        if (length >= sizeof whole || strlen(whole) != length || !cuts_rightly(&refusal, whole, length)) return 1;
        if (!strstr(whole, bootcore_refusal_text(refusal.number))) return 1;
        puts(whole);
    }
    return 0;
}
