/* SHA-256 (FIPS 180-4) of an image, as it is about to be copied and once it is. The core's own is that of a
   plan which it makes anew; if this one were wrong, no checker would accept a boot. A copy of digest_moves
   runs once the firmware has ended: so that is one function, shorter than a page, which uses nothing but
   its work, and the general registers alone. `build` looks at it. */
#include "app.h"

#define INSIDE static inline __attribute__((always_inline)) /* that function */

static const uint32_t constants[64] = {
    0x428a2f98, 0x71374491, 0xb5c0fbcf, 0xe9b5dba5, 0x3956c25b, 0x59f111f1, 0x923f82a4, 0xab1c5ed5,
    0xd807aa98, 0x12835b01, 0x243185be, 0x550c7dc3, 0x72be5d74, 0x80deb1fe, 0x9bdc06a7, 0xc19bf174,
    0xe49b69c1, 0xefbe4786, 0x0fc19dc6, 0x240ca1cc, 0x2de92c6f, 0x4a7484aa, 0x5cb0a9dc, 0x76f988da,
    0x983e5152, 0xa831c66d, 0xb00327c8, 0xbf597fc7, 0xc6e00bf3, 0xd5a79147, 0x06ca6351, 0x14292967,
    0x27b70a85, 0x2e1b2138, 0x4d2c6dfc, 0x53380d13, 0x650a7354, 0x766a0abb, 0x81c2c92e, 0x92722c85,
    0xa2bfe8a1, 0xa81a664b, 0xc24b8b70, 0xc76c51a3, 0xd192e819, 0xd6990624, 0xf40e3585, 0x106aa070,
    0x19a4c116, 0x1e376c08, 0x2748774c, 0x34b0bcb5, 0x391c0cb3, 0x4ed8aa4a, 0x5b9cca4f, 0x682e6ff3,
    0x748f82ee, 0x78a5636f, 0x84c87814, 0x8cc70208, 0x90befffa, 0xa4506ceb, 0xbef9a3f7, 0xc67178f2};

static const uint32_t first[8] = {0x6a09e667, 0xbb67ae85, 0x3c6ef372, 0xa54ff53a,
                                  0x510e527f, 0x9b05688c, 0x1f83d9ab, 0x5be0cd19};

void begin_digest(digest_work *work, const move *moves) {
    memcpy(work->constants, constants, sizeof constants);
    memcpy(work->first, first, sizeof first);
    work->moves = moves;
}

INSIDE uint32_t turned(uint32_t word, int by) { return word >> by | word << (32 - by); }

/* The first 16 words are the block. */
INSIDE void add_block(uint32_t *words, const uint32_t *numbers, uint32_t *state) {
    uint32_t now[8];
    for (int i = 16; i < 64; i++) {
        uint32_t old = words[i - 15], late = words[i - 2];
        words[i] = words[i - 16] + (turned(old, 7) ^ turned(old, 18) ^ old >> 3) + words[i - 7] +
                   (turned(late, 17) ^ turned(late, 19) ^ late >> 10);
    }
    for (int k = 0; k < 8; k++) now[k] = state[k];
    for (int i = 64; i > 0; i--) { /* their names turn by one place each time */
        uint32_t a = now[i & 7], b = now[(i + 1) & 7], c = now[(i + 2) & 7], e = now[(i + 4) & 7];
        uint32_t one = now[(i + 7) & 7] + (turned(e, 6) ^ turned(e, 11) ^ turned(e, 25)) +
                       ((e & now[(i + 5) & 7]) ^ (~e & now[(i + 6) & 7])) + numbers[64 - i] + words[64 - i];
        now[(i + 3) & 7] += one;
        now[(i + 7) & 7] = one + (turned(a, 2) ^ turned(a, 13) ^ turned(a, 22)) + ((a & b) ^ (a & c) ^ (b & c));
    }
    for (int k = 0; k < 8; k++) state[k] += now[k];
}

/* What follows so many bytes: a bit, zeros, and their number in bits. */
INSIDE uint64_t pad(uint8_t *padding, uint64_t taken) {
    const uint64_t end = 64 - (taken + 8) % 64;
    for (uint64_t i = 0; i < end; i++) padding[i] = i == 0 ? 0x80 : 0;
    for (uint64_t i = 0; i < 8; i++) padding[end + i] = (uint8_t)(8 * taken >> (56 - 8 * i));
    return end + 8;
}

__attribute__((section(".text.alone"))) int digest_moves(digest_work *work, int are_made) {
    uint64_t taken = 0, length = 1;
    uint32_t word = 0, wrong = 0;
    for (int k = 0; k < 8; k++) work->state[k] = work->first[k];
    for (const move *each = work->moves; length != 0; each++) {
        length = each->length;
        const int is_end = length == 0, is_zero = !is_end && !are_made && each->from == 0;
        const uint64_t start = is_end ? (UINTN)work->padding : are_made ? each->to : each->from;
        for (uint64_t left = is_end ? pad(work->padding, taken) : length, at = start; left; left--, at++) {
            word = word << 8 | (is_zero ? 0 : *(const uint8_t *)(UINTN)at);
            if (++taken % 4 == 0) work->words[(taken - 1) / 4 % 16] = word;
            if (taken % 64 == 0) add_block(work->words, work->constants, work->state);
        }
    }
    for (int k = 0; k < 8; k++) wrong |= work->state[k] ^ work->wanted[k];
    return wrong == 0;
}

void end_digest(const digest_work *work, uint8_t *digest) {
    for (int i = 0; i < 32; i++) digest[i] = (uint8_t)(work->state[i / 4] >> (24 - 8 * (i % 4)));
}
