/* SHA-256 of bytes that are at hand (FIPS 180-4), to judge the core's by: it shares no line with it. The constants are reckoned, as
 * the first bits behind the point of the square and the cube roots of the first primes. */
#ifndef SHA256_H
#define SHA256_H

#include <stdint.h>
#include <string.h>

__extension__ typedef unsigned __int128 sha256_wide;

typedef struct sha256_state {
    uint32_t words[8];
    uint8_t block[64];
    uint64_t length;
} sha256_state;

static uint32_t sha256_first[8], sha256_round[64];

/* The first 32 bits behind the point of the square root, or of the cube root, of a prime: the greatest r with r^2 <= p * 2^64, or
 * r^3 <= p * 2^96, without what stands before the point. */
static uint32_t sha256_root(uint32_t prime, int power) {
    sha256_wide low = 0, high = (sha256_wide)1 << 37;
    while (high - low > 1) {
        sha256_wide r = (low + high) / 2; /* below 2^37, so r^3 has 111 bits at most */
        if ((power == 2 ? r * r : r * r * r) <= (sha256_wide)prime << (32 * power)) {
            low = r;
        } else {
            high = r;
        }
    }
    return (uint32_t)low;
}

static void sha256_set_up(void) {
    uint32_t prime = 2;
    int count = 0;
    while (count < 64) {
        uint32_t divisor = 2;
        while (divisor < prime && prime % divisor) {
            divisor++;
        }
        if (divisor == prime) {
            if (count < 8) {
                sha256_first[count] = sha256_root(prime, 2);
            }
            sha256_round[count++] = sha256_root(prime, 3);
        }
        prime++;
    }
}

static uint32_t sha256_turn(uint32_t x, int by) {
    return x >> by | x << (32 - by);
}

static void sha256_block(uint32_t *words, const uint8_t *block) {
    uint32_t w[64], v[8];
    int t;
    for (t = 0; t < 16; t++) {
        w[t] = (uint32_t)block[4 * t] << 24 | (uint32_t)block[4 * t + 1] << 16 | (uint32_t)block[4 * t + 2] << 8 | block[4 * t + 3];
    }
    for (; t < 64; t++) {
        w[t] = (sha256_turn(w[t - 2], 17) ^ sha256_turn(w[t - 2], 19) ^ w[t - 2] >> 10) + w[t - 7] +
               (sha256_turn(w[t - 15], 7) ^ sha256_turn(w[t - 15], 18) ^ w[t - 15] >> 3) + w[t - 16];
    }
    memcpy(v, words, sizeof v);
    for (t = 0; t < 64; t++) {
        uint32_t one = v[7] + (sha256_turn(v[4], 6) ^ sha256_turn(v[4], 11) ^ sha256_turn(v[4], 25)) +
                       ((v[4] & v[5]) ^ (~v[4] & v[6])) + sha256_round[t] + w[t];
        uint32_t two = (sha256_turn(v[0], 2) ^ sha256_turn(v[0], 13) ^ sha256_turn(v[0], 22)) +
                       ((v[0] & v[1]) ^ (v[0] & v[2]) ^ (v[1] & v[2]));
        memmove(v + 1, v, 7 * sizeof *v);
        v[4] += one;
        v[0] = one + two;
    }
    for (t = 0; t < 8; t++) {
        words[t] += v[t];
    }
}

static void sha256_begin(sha256_state *state) {
    if (!sha256_round[0]) {
        sha256_set_up();
    }
    memcpy(state->words, sha256_first, sizeof state->words);
    state->length = 0;
}

static void sha256_add(sha256_state *state, const uint8_t *bytes, uint64_t length) {
    uint64_t i = 0;
    while (i < length) {
        size_t at = state->length % 64, count = 64 - at;
        if (at == 0 && length - i >= 64) {
            sha256_block(state->words, bytes + i);
        } else {
            count = length - i < count ? (size_t)(length - i) : count;
            memcpy(state->block + at, bytes + i, count);
            if (at + count == 64) {
                sha256_block(state->words, state->block);
            }
        }
        i += count;
        state->length += count;
    }
}

static void sha256_end(sha256_state *state, uint8_t digest[32]) {
    static const uint8_t padding[64] = {0x80};
    uint64_t bits = state->length * 8;
    uint8_t length[8];
    int i;
    for (i = 0; i < 8; i++) {
        length[i] = (uint8_t)(bits >> (56 - 8 * i));
    }
    sha256_add(state, padding, (119 - state->length % 64) % 64 + 1);
    sha256_add(state, length, 8);
    for (i = 0; i < 32; i++) {
        digest[i] = (uint8_t)(state->words[i / 4] >> (24 - 8 * (i % 4)));
    }
}

#endif
