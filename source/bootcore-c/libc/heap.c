/* Memory by malloc, realloc and free, in place of an arena. */
#include "../c/crossing.h"

#include <stdlib.h>

enum { ALIGNMENT = 16 }; /* malloc's, of the machines that the headers are for */

static bootcore_block block_at(void *at) {
    bootcore_block block;
    block.is_there = at != NULL;
    block.at = at;
    return block;
}

BOOTCORE_CALL
bootcore_block rattle_alloc(size_t length, size_t alignment) {
    return block_at(alignment <= ALIGNMENT ? malloc(length) : NULL);
}

BOOTCORE_CALL
bootcore_block rattle_realloc(void *at, size_t kept, size_t length, size_t alignment) {
    (void)kept;
    return block_at(alignment <= ALIGNMENT ? realloc(at, length) : NULL);
}

BOOTCORE_CALL
void rattle_dealloc(void *at) {
    free(at);
}
