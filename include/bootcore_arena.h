/* Memory for the tables of libbootcore_freestanding.a, which has no malloc: an arena, a block of
 * the caller's that the calls of bootcore.h take their memory from. docs/EMBED.md has how long it
 * must be.
 *
 * The arena belongs to all calls together, and is not safe with threads: make one call at a time,
 * of whichever function of the library. */
#ifndef BOOTCORE_ARENA_H
#define BOOTCORE_ARENA_H

#include "bootcore.h"

#ifdef __cplusplus
extern "C" {
#endif

/* How long an arena is enough for each load, preparation, plan and digest, and bootcore_unplaced,
 * if nothing else is kept in it. A boot, a session and a walk may want more: docs/EMBED.md. */
enum { BOOTCORE_ARENA = 1572864 };

/* The two functions are in libbootcore_freestanding.a alone: with libbootcore.a they don't link. */

/* Gives the arena its memory, in place of what it had before: first free the sessions and digests
 * that are kept in that. Before this call, and with a length of 0, each call that wants memory
 * answers NO_MEMORY. */
BOOTCORE_CALL void bootcore_arena(void *memory, size_t length);

/* How long an arena at the same address is enough for the same calls as since it was given. If one
 * of them answered NO_MEMORY, it says nothing of what that one wants. */
BOOTCORE_CALL size_t bootcore_arena_peak(void);

#ifdef __cplusplus
}
#endif

#endif
