/* Digests of a handoff: the SHA-256 of its image, and of each part, for one who measures or attests
 * what a machine is handed. No image is made, and no memory of the machine's is needed: files come
 * in pieces of any length. docs/EMBED.md shows it, docs/MEASURED.md of the repository says what a
 * digest proves. This file is a part of bootcore.h: include that. */
#ifndef BOOTCORE_DIGEST_H
#define BOOTCORE_DIGEST_H

#include "bootcore.h"

#ifdef __cplusplus
extern "C" {
#endif

/* The digest of what an entry hands over, as its files come. Set `kept` to null at first; after
 * that only these calls write it. The struct may be moved, but use no copy of it. Call
 * bootcore_digest_free in the end. Make one call at a time on it, also of those that take it as
 * const, on whichever thread. */
typedef struct bootcore_digest { void *kept; } bootcore_digest;

/* `length` bytes of a file of the entry, at least 1, from `offset` on. */
typedef struct bootcore_file_range {
    uint64_t file; /* 0 is the kernel, k module k - 1, or 1 the initial ramdisk */
    uint64_t offset, length;
    uint64_t reserved;
} bootcore_file_range;

/* A part: SHA-256 (FIPS 180-4) of the `length` bytes of its place. */
typedef struct bootcore_part_digest {
    bootcore_place place;
    uint8_t sha256[32];
    uint64_t reserved;
} bootcore_part_digest;

/* An image of version 2: its head, which is what bootcore_image_head writes, and behind it the
 * bytes of the parts. So head and parts are all of it, each byte once. */
typedef struct bootcore_digests {
    uint64_t image_length, head_length;
    uint8_t image_sha256[32], head_sha256[32];
    uint64_t part_count;
    uint64_t reserved[4];
} bootcore_digests;

/* Makes the digest of an entry, and keeps it; one that was kept before is freed then. Read are the
 * kernel's bytes and the other files' lengths, during this call alone. The answers are those of
 * bootcore_plan, but SMALL_ROOM.
 * - DONE: the digest is kept. Feed it until nothing is wanted.
 * - REFUSED: *refusal is told, with entry 0.
 * After any answer but DONE what was kept before is still kept. What is not told is as
 * before. */
BOOTCORE_CHECKED uint32_t bootcore_digest_make(bootcore_digest *digest,
    const bootcore_machine *machine, const bootcore_entry *entry, bootcore_refusal *refusal);

/* Tells which bytes are wanted next, and whether there are some; if there are none, or no digest,
 * *range is as before. Of a file only what lies in a part is wanted, of the kernel too; part after
 * part, by ascending address, so not always in the file's own order. If the kernel's file may
 * change meanwhile, feed a copy of it, for which the digest was made. */
BOOTCORE_CHECKED bool bootcore_digest_wanted(const bootcore_digest *digest,
    bootcore_file_range *range);

/* Feeds a digest the first bytes of what is wanted, or all of it.
 * - DONE: they were taken.
 * - NULL, NO_SESSION, or UNWANTED, if they are more than are wanted.
 *   Nothing was changed. */
BOOTCORE_CHECKED uint32_t bootcore_digest_feed(bootcore_digest *digest, const void *bytes,
    size_t length);

/* Tells the digests; the digest stays as it is.
 * - DONE: *digests is told, and the first parts, by ascending address, as many as there is
 *   room for. BOOTCORE_MAX_PLACES is always enough, and 0 is allowed. These are the digests of what
 *   a load of the same entry, with files of the bytes that were fed, would hand over.
 * - WAITING: bytes are wanted.
 * - NULL or NO_SESSION.
 * What is not told is as before. */
BOOTCORE_CHECKED uint32_t bootcore_digest_told(const bootcore_digest *digest,
    bootcore_digests *digests, bootcore_part_digest *parts, size_t room);

/* Frees what a digest keeps, if there is something; one may be made again. */
BOOTCORE_CALL void bootcore_digest_free(bootcore_digest *digest);

/* Tells the digests of an entry whose files all lie in memory, at once. The answers are those of
 * bootcore_plan, but SMALL_ROOM; after DONE *digests and parts are told as by
 * bootcore_digest_told, after REFUSED *refusal. What is not told is as before. */
BOOTCORE_CHECKED uint32_t bootcore_digest_entry(const bootcore_machine *machine,
    const bootcore_entry *entry, bootcore_digests *digests, bootcore_part_digest *parts,
    size_t room, bootcore_refusal *refusal);

#ifdef __cplusplus
}
#endif

#endif
