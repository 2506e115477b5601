/* On the host: the SHA-256 of what comes on standard input, as moves of so many bytes each. With a second
   word the bytes are zeros that come from nowhere, as many as came. */
#include "app.h"

#include <stdio.h>
#include <stdlib.h>

int main(int count, char **words) {
    static uint8_t bytes[1 << 20], digest[32];
    static move moves[1 << 20];
    static digest_work work;
    const uint64_t length = fread(bytes, 1, sizeof bytes, stdin), piece = (uint64_t)atol(words[1]);
    size_t used = 0;
    for (uint64_t at = 0; at < length; at += piece) {
        uint64_t left = length - at;
        moves[used++] = (move){0, count > 2 ? 0 : (UINTN)bytes + at, left < piece ? left : piece};
    }
    begin_digest(&work, moves);
    digest_moves(&work, 0);
    end_digest(&work, digest);
    for (int i = 0; i < 32; i++) printf("%02x", digest[i]);
    puts("");
    return 0;
}
