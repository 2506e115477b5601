/*
 * Plans at random that are carried out over pieces at random, as bootcore.h says it: each byte of a step goes to the first piece that
 * has its address, and nothing is written if there is none, or if a step's source has too few bytes. Prints what goes otherwise, and
 * how many were tried, done and not.
 *
 *     pieces COUNT SEED
 */
#include "bootcore.h"
#include "random.h"

#include <inttypes.h>
#include <stdio.h>
#include <stdlib.h>
#include <string.h>

enum { ADDRESSES = 96, PIECES = 7, STEPS = 4, FILES = 2, BYTES = 64 };

static uint8_t real[PIECES * ADDRESSES], wanted[PIECES * ADDRESSES];
static bootcore_memory pieces[PIECES];
static size_t piece_count, at[PIECES]; /* where a piece's bytes begin */
static bootcore_step steps[STEPS];
static uint8_t contents[FILES][BYTES], own[BYTES];
static bootcore_bytes files[FILES];
static bootcore_layout layout;
static uint64_t first; /* of the addresses */

static uint32_t draw(uint32_t below) {
    return (uint32_t)(random_number() >> 32) % below;
}

/* Pieces that follow one another, or lie as they come; here they lie behind each other, with or without a gap, or backwards. */
static void draw_pieces(void) {
    bool ascend = draw(2) == 0, back = draw(3) == 0;
    uint64_t from = 0;
    size_t free_at = 0, i;
    piece_count = draw(PIECES + 1);
    for (i = 0; i < piece_count; i++) {
        uint64_t begin = ascend ? from + (draw(3) ? 0 : draw(9)) : draw(ADDRESSES), most, length;
        begin = begin < ADDRESSES ? begin : ADDRESSES - 1;
        most = ADDRESSES - begin;
        length = draw(5) ? draw(ascend ? 24 : ADDRESSES) : 0;
        length = length < most ? length : most;
        free_at += draw(2) ? 0 : draw(4);
        at[i] = free_at + length <= sizeof real ? free_at : 0;
        if (free_at + length > sizeof real) {
            length = 0;
        }
        pieces[i].address = first + begin;
        pieces[i].length = (size_t)length;
        pieces[i].bytes = length ? real + at[i] : NULL;
        free_at += (size_t)length;
        from = begin + length;
    }
    for (i = 0; back && i < piece_count / 2; i++) {
        bootcore_memory piece = pieces[i];
        size_t other = piece_count - 1 - i, was = at[i];
        pieces[i] = pieces[other];
        pieces[other] = piece;
        at[i] = at[other];
        at[other] = was;
    }
}

static void draw_steps(void) {
    size_t i;
    layout.step_count = 1 + draw(STEPS);
    for (i = 0; i < layout.step_count; i++) {
        bootcore_step *step = &steps[i];
        memset(step, 0, sizeof *step);
        step->address = first + draw(ADDRESSES);
        step->length = draw(40);
        step->source = draw(16) ? 1 + draw(3) : draw(5);
        step->file = step->source == BOOTCORE_SOURCE_FILE ? draw(FILES + (draw(16) == 0)) : 0;
        step->offset = draw(32) + (draw(16) ? 0 : UINT64_MAX - 16);
    }
}

/* The bytes of a step's source; null if it has too few. Zeros are wherever they are asked for. */
static const uint8_t *bytes_of(const bootcore_step *step, uint64_t *length) {
    *length = BYTES;
    if (step->source == BOOTCORE_SOURCE_FILE) {
        return step->file < FILES ? contents[step->file] : NULL;
    }
    *length = layout.own_length;
    return step->source == BOOTCORE_SOURCE_LAYOUT ? own : NULL;
}

/* What a byte at a time says of the status, and of `wanted` if all is carried out. */
static uint32_t carry_out_bytewise(void) {
    uint32_t outside = BOOTCORE_STATUS_DONE;
    size_t i, p;
    uint64_t k, length;
    for (i = 0; i < layout.step_count; i++) {
        const bootcore_step *step = &steps[i];
        const uint8_t *from = bytes_of(step, &length);
        for (k = 0; k < step->length || k == 0; k++) {
            uint64_t address = step->address + k;
            if (step->source != BOOTCORE_SOURCE_ZEROS &&
                (!from || step->offset > length || (k < step->length && k >= length - step->offset))) {
                return BOOTCORE_STATUS_BAD_FILE;
            }
            if (k == step->length) {
                break;
            }
            for (p = 0; p < piece_count; p++) {
                if (address >= first && pieces[p].address <= address && address - pieces[p].address < pieces[p].length) {
                    break;
                }
            }
            if (p == piece_count) {
                outside = BOOTCORE_STATUS_OUTSIDE;
            } else {
                wanted[at[p] + (address - pieces[p].address)] = from && step->source != BOOTCORE_SOURCE_ZEROS ? from[step->offset + k] : 0;
            }
        }
    }
    return outside;
}

int main(int argc, char **argv) {
    static const uint64_t firsts[] = {0, 0x100000, UINT64_MAX - ADDRESSES + 1};
    unsigned long count, done = 0, tried, i;
    if (argc != 3) {
        fputs("pieces COUNT SEED\n", stderr);
        return 2;
    }
    count = strtoul(argv[1], NULL, 10);
    random_state = strtoull(argv[2], NULL, 10);
    for (tried = 0; tried < count; tried++) {
        uint32_t status, came;
        first = firsts[draw(3)];
        for (i = 0; i < BYTES; i++) {
            contents[0][i] = (uint8_t)(1 + i);
            contents[1][i] = (uint8_t)(65 + i);
            own[i] = (uint8_t)(129 + i);
        }
        for (i = 0; i < FILES; i++) {
            files[i].bytes = contents[i];
            files[i].length = BYTES;
        }
        memset(&layout, 0, sizeof layout);
        layout.steps = steps;
        layout.step_room = STEPS;
        layout.own = own;
        layout.own_room = BYTES;
        layout.own_length = BYTES - draw(8);
        layout.planned = 1;
        draw_pieces();
        draw_steps();
        memset(real, 0xA5, sizeof real);
        memset(wanted, 0xA5, sizeof wanted);
        status = carry_out_bytewise();
        if (status != BOOTCORE_STATUS_DONE) {
            memset(wanted, 0xA5, sizeof wanted);
        }
        came = bootcore_carry_out(&layout, files, FILES, pieces, piece_count);
        if (came != status || memcmp(real, wanted, sizeof real)) {
            printf("try %lu: %" PRIu32 ", not %" PRIu32 ", or other bytes\n", tried, came, status);
            return 1;
        }
        done += status == BOOTCORE_STATUS_DONE;
    }
    printf("%lu tried, %lu done, %lu not\n", tried, done, tried - done);
    return 0;
}
