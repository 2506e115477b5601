/* The allocator of libbootcore_freestanding.a: blocks are asked for, made longer and shorter, and given back at random. Each lies in
 * the arena, at a multiple of 16, meets no other, and keeps its bytes; and the same calls with an arena of just the peak's length end
 * alike. The status is 0 if all is so. */
#include "../../c/crossing.h"
#include "bootcore_arena.h"
#include "random.h"

#include <stdio.h>
#include <stdlib.h>
#include <string.h>

enum { LENGTH = 1 << 16, BLOCKS = 40, CALLS = 4000 };

static uint8_t arena[LENGTH + 16];
static struct { uint8_t *at; size_t length; uint8_t byte; } blocks[BLOCKS];
static void stop(const char *why) {
    puts(why);
    exit(1);
}

static void check(const uint8_t *begin, size_t length, size_t k) {
    size_t i;
    if ((uintptr_t)blocks[k].at % 16) stop("a block lies at no multiple of 16");
    if (blocks[k].at < begin || blocks[k].at + blocks[k].length > begin + length) stop("a block lies outside the arena");
    for (i = 0; i < blocks[k].length; i++) {
        if (blocks[k].at[i] != blocks[k].byte) stop("a block has lost a byte");
    }
}

static void keep(size_t k, void *at, size_t length) {
    blocks[k].at = at;
    blocks[k].length = length;
    blocks[k].byte = (uint8_t)(random_number() | 1);
    memset(at, blocks[k].byte, length);
}

/* So many calls; the answer is how many of them had no memory. Blocks that are kept in the end are forgotten. */
static int try_calls(uint64_t seed, uint8_t *begin, size_t length, size_t longest) {
    int refused = 0, i;
    random_state = seed;
    memset(blocks, 0, sizeof blocks);
    bootcore_arena(begin, length);
    for (i = 0; i < CALLS; i++) {
        size_t k = (size_t)(random_number() % BLOCKS), wanted = (size_t)(random_number() % longest), kept;
        bootcore_block block;
        if (!blocks[k].at) {
            block = rattle_alloc(wanted, 8);
            if (block.is_there) keep(k, block.at, wanted);
            refused += !block.is_there;
        } else if (random_number() % 2) {
            check(begin, length, k);
            rattle_dealloc(blocks[k].at);
            blocks[k].at = NULL;
        } else {
            check(begin, length, k);
            block = rattle_realloc(blocks[k].at, blocks[k].length, wanted, 16);
            refused += !block.is_there;
            if (block.is_there) {
                blocks[k].at = block.at;
                kept = blocks[k].length < wanted ? blocks[k].length : wanted;
                blocks[k].length = kept;
                check(begin, length, k);
                keep(k, block.at, wanted);
            } else {
                check(begin, length, k);
            }
        }
    }
    return refused;
}

int main(void) {
    uint64_t seed;
    size_t offset;
    bootcore_arena(NULL, 0);
    if (rattle_alloc(1, 1).is_there) stop("there is memory without an arena");
    for (offset = 0; offset < 48; offset++) {
        bootcore_arena(arena, offset);
        if (rattle_alloc(16, 1).is_there && offset < 32) stop("there is memory in an arena that is too short");
    }
    for (seed = 1; seed <= 16; seed++) {
        uint8_t *begin = arena + seed % 16;
        size_t peak;
        if (try_calls(seed, begin, LENGTH, 900) != 0) stop("an arena that is long enough was too short");
        peak = bootcore_arena_peak();
        if (try_calls(seed, begin, peak, 900) != 0 || bootcore_arena_peak() != peak) stop("an arena of the peak's length was too short");
        if (try_calls(seed, begin, peak / 2, 900) == 0) stop("an arena of half the peak's length was enough");
        if (try_calls(seed, begin, LENGTH / 4, 9000) == 0) stop("an arena that is too short was enough");
        bootcore_arena(begin, LENGTH);
        if (rattle_alloc(SIZE_MAX, 1).is_there || rattle_alloc(SIZE_MAX - 16, 1).is_there || rattle_alloc(LENGTH, 1).is_there ||
            rattle_alloc(16, 32).is_there || !rattle_alloc(LENGTH - 32, 16).is_there) {
            stop("the longest block is another one");
        }
    }
    return 0;
}
