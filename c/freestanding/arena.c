/* An arena in place of malloc: blocks one after the other, each behind a head. The first free block
 * that is long enough is taken, so what is used is as low as may be. */
#include "bootcore_arena.h"

#include "../crossing.h"

enum { UNIT = 16 }; /* heads and blocks begin at its multiples */

typedef struct head {
    size_t length; /* of the block behind the head */
    size_t is_used;
} head;

typedef char head_has_16[sizeof(head) == UNIT ? 1 : -1];

static uint8_t *given, *first, *end; /* as it was given; the first head; behind the last block */
static size_t peak;

BOOTCORE_CALL
void bootcore_arena(void *memory, size_t length) {
    size_t skipped = memory ? (0 - (uintptr_t)memory) % UNIT : 0;
    given = first = end = memory;
    peak = 0;
    if (memory && length >= skipped + 2 * sizeof(head)) {
        head *whole = (head *)(void *)(first += skipped);
        whole->length = (length - skipped - sizeof(head)) / UNIT * UNIT;
        whole->is_used = 0;
        end = first + sizeof(head) + whole->length;
    }
}

BOOTCORE_CALL
size_t bootcore_arena_peak(void) {
    return peak;
}

static uint8_t *behind(head *block) {
    return (uint8_t *)(block + 1) + block->length;
}

/* Joins a free block, or one that grows, with the free ones behind it. */
static void join(head *block) {
    while (behind(block) != end && !((head *)(void *)behind(block))->is_used) {
        block->length += sizeof(head) + ((head *)(void *)behind(block))->length;
    }
}

/* Cuts a block that is long enough to this length, and takes it. */
static bootcore_block take(head *block, size_t length) {
    bootcore_block taken;
    size_t used;
    if (block->length - length >= 2 * sizeof(head)) {
        head *rest = (head *)(void *)((uint8_t *)(block + 1) + length);
        rest->length = block->length - length - sizeof(head);
        rest->is_used = 0;
        block->length = length;
    }
    block->is_used = 1;
    taken.is_there = 1;
    taken.at = block + 1;
    used = (size_t)((uint8_t *)taken.at - given) + length;
    if (used > peak) {
        peak = used;
    }
    return taken;
}

/* How long a block is that has room for so many bytes; 0 if none is so long. */
static size_t whole_units(size_t length) {
    return length <= SIZE_MAX - UNIT ? (length + !length + UNIT - 1) / UNIT * UNIT : 0;
}

BOOTCORE_CALL
bootcore_block rattle_alloc(size_t length, size_t alignment) {
    const bootcore_block none = {0, NULL};
    size_t wanted = whole_units(length);
    uint8_t *at;
    for (at = first; wanted && alignment <= UNIT && at != end; at = behind((head *)(void *)at)) {
        head *block = (head *)(void *)at;
        if (!block->is_used) {
            join(block);
            if (block->length >= wanted) {
                return take(block, wanted);
            }
        }
    }
    return none;
}

BOOTCORE_CALL
void rattle_dealloc(void *at) {
    if (at) {
        ((head *)at - 1)->is_used = 0;
    }
}

BOOTCORE_CALL
bootcore_block rattle_realloc(void *at, size_t kept, size_t length, size_t alignment) {
    head *old = (head *)at - 1;
    size_t wanted = whole_units(length), i;
    bootcore_block block = {0, NULL};
    (void)kept;
    if (wanted && alignment <= UNIT) {
        size_t before = old->length;
        join(old);
        if (old->length >= wanted) {
            return take(old, wanted);
        }
        take(old, before); /* it stays as it was */
    }
    block = rattle_alloc(length, alignment);
    if (block.is_there) {
        for (i = 0; i < old->length && i < length; i++) {
            ((uint8_t *)block.at)[i] = ((uint8_t *)at)[i];
        }
        rattle_dealloc(at);
    }
    return block;
}
