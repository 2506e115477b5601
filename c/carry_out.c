/* Carries out a plan's steps over memory in pieces. */
#include "given.h"

/* ---- copies */

#if __STDC_HOSTED__ || !defined(__x86_64__)
/* Of the libc; or, on other processors, of the plain source's archive, which has its own. */
static void copy(uint8_t *to, const uint8_t *from, size_t length) {
    __builtin_memcpy(to, from, length);
}

static void clear(uint8_t *to, size_t length) {
    __builtin_memset(to, 0, length);
}
#else
/* The processor's own loops, since there is no libc: the convention of calls has them ascend. */
static void copy(uint8_t *to, const uint8_t *from, size_t length) {
    __asm__ volatile("rep movsb" : "+D"(to), "+S"(from), "+c"(length) : : "memory");
}

static void clear(uint8_t *to, size_t length) {
    __asm__ volatile("rep stosb" : "+D"(to), "+c"(length) : "a"(0) : "memory");
}
#endif

/* ---- pieces */

/* Memory in pieces. If they don't meet, and ascend as they are or from the last one on, `at` is the one
 * where a byte was found last, so that bytes in order are found without a search. */
typedef struct pieces {
    const bootcore_memory *memory;
    size_t count;
    enum { IN_NO_ORDER, ASCENDING, DESCENDING } order;
    size_t at;
} pieces;

/* Piece i of those in order, counted from the lowest one on. */
static const bootcore_memory *nth(const pieces *all, size_t i) {
    return &all->memory[all->order == DESCENDING ? all->count - 1 - i : i];
}

static bool are_in_order(const pieces *all) {
    size_t i;
    for (i = 1; i < all->count; i++) {
        const bootcore_memory *before = nth(all, i - 1), *piece = nth(all, i);
        if (piece->address < before->address ||
            piece->address - before->address < before->length) {
            return false;
        }
    }
    return true;
}

static void find_order(pieces *all) {
    all->order = ASCENDING;
    if (are_in_order(all)) {
        return;
    }
    all->order = DESCENDING;
    if (!are_in_order(all)) {
        all->order = IN_NO_ORDER;
    }
}

static bool begins_below(const pieces *all, size_t i, uint64_t address) {
    return i < all->count && nth(all, i)->address <= address;
}

/* The last of pieces in order that begins at the address or below; the lowest one, if none does. */
static size_t last_below(const pieces *all, uint64_t address) {
    size_t low = 0, high = all->count;
    while (high - low > 1) {
        size_t middle = low + (high - low) / 2;
        if (begins_below(all, middle, address)) {
            low = middle;
        } else {
            high = middle;
        }
    }
    return low;
}

/* Of pieces in order, the one that can have an address. */
static size_t find_in_order(pieces *all, uint64_t address) {
    if (begins_below(all, all->at + 1, address)) {
        all->at++;
    }
    if (!begins_below(all, all->at, address) || begins_below(all, all->at + 1, address)) {
        all->at = last_below(all, address);
    }
    return all->at;
}

/* The first piece that has an address, or how many there are; *most is where an earlier one begins, as
 * a distance. */
static size_t search(const pieces *all, uint64_t address, uint64_t *most) {
    size_t i;
    for (i = 0; i < all->count; i++) {
        const bootcore_memory *piece = &all->memory[i];
        if (piece->address <= address && address - piece->address < piece->length) {
            break;
        }
        if (piece->length && piece->address > address && piece->address - address < *most) {
            *most = piece->address - address;
        }
    }
    return i;
}

/* How much of memory from an address on lies in one piece, which is the first that has it, up to where
 * an earlier one begins; *to is where it lies, and the answer 0 if no piece has it. */
static size_t find(pieces *all, uint64_t address, uint8_t **to) {
    uint64_t most = UINT64_MAX, into;
    size_t i = all->order ? find_in_order(all, address) : search(all, address, &most);
    const bootcore_memory *piece;
    if (!begins_below(all, i, address)) {
        return 0;
    }
    piece = nth(all, i);
    into = address - piece->address;
    if (into >= piece->length) {
        return 0;
    }
    *to = (uint8_t *)piece->bytes + into;
    return (size_t)(piece->length - into < most ? piece->length - into : most);
}

/* ---- steps */

/* Each byte of a step lies in some piece; no address wraps. */
static bool is_inside(const bootcore_step *step, pieces *all) {
    uint64_t done = 0;
    uint8_t *to;
    if (step->length && step->address + (step->length - 1) < step->address) {
        return false;
    }
    while (done < step->length) {
        size_t run = find(all, step->address + done, &to);
        if (run == 0) {
            return false;
        }
        done = step->length - done > run ? done + run : step->length;
    }
    return true;
}

/* The bytes that a step's source has: those of a file, of the layout, or as many zeros as there are. */
static bool has_source(const bootcore_step *step, const bootcore_layout *layout,
                       const bootcore_bytes *files, size_t file_count) {
    uint64_t length;
    switch (step->source) {
    case BOOTCORE_SOURCE_FILE:
        if (step->file >= file_count) {
            return false;
        }
        length = files[step->file].length;
        break;
    case BOOTCORE_SOURCE_LAYOUT:
        length = layout->own_length;
        break;
    case BOOTCORE_SOURCE_ZEROS:
        return true;
    default:
        return false;
    }
    return step->offset <= length && step->length <= length - step->offset;
}

static const uint8_t *source_of(const bootcore_step *step, const bootcore_layout *layout,
                                const bootcore_bytes *files) {
    switch (step->source) {
    case BOOTCORE_SOURCE_FILE:
        return (const uint8_t *)files[step->file].bytes + step->offset;
    case BOOTCORE_SOURCE_LAYOUT:
        return layout->own + step->offset;
    default:
        return NULL;
    }
}

/* Writes so many bytes of a step's source, or zeros where there is none. */
static void put(uint8_t *to, const uint8_t *from, uint64_t offset, uint64_t length) {
    if (length && from) {
        copy(to, from + offset, (size_t)length);
    } else if (length) {
        clear(to, (size_t)length);
    }
}

/* Pieces that lie one behind the other here too are written at once. */
static void carry_out(const bootcore_step *step, const uint8_t *from, pieces *all) {
    uint64_t done = 0, found = 0; /* the bytes between these lie from `to` on */
    uint8_t *to = NULL, *next = NULL;
    while (found < step->length) {
        size_t run = find(all, step->address + found, &next);
        if (found == 0 || next != to + (found - done)) {
            put(to, from, done, found - done);
            to = next;
            done = found;
        }
        found = step->length - found > run ? found + run : step->length;
    }
    put(to, from, done, found - done);
}

/* ---- what is given */

static bool has_null(const bootcore_layout *layout, const bootcore_bytes *files, size_t file_count,
                     const bootcore_memory *memory, size_t memory_count) {
    size_t i;
    if (!layout || bootcore_is_null(layout->steps, layout->step_room) ||
        bootcore_is_null(layout->own, layout->own_room) || bootcore_is_null(files, file_count) ||
        bootcore_is_null(memory, memory_count)) {
        return true;
    }
    for (i = 0; i < file_count; i++) {
        if (files[i].length != BOOTCORE_UNREADABLE &&
            bootcore_is_null(files[i].bytes, files[i].length)) {
            return true;
        }
    }
    for (i = 0; i < memory_count; i++) {
        if (bootcore_memory_has_null(&memory[i])) {
            return true;
        }
    }
    return false;
}

static bool has_reserved(const bootcore_layout *layout, const bootcore_memory *memory,
                         size_t memory_count) {
    size_t i;
    for (i = 0; i < memory_count; i++) {
        if (bootcore_memory_has_reserved(&memory[i])) {
            return true;
        }
    }
    return BOOTCORE_IS_RESERVED_SET(layout);
}

/* Each plan has a step. Room is looked at again, since it is the caller's to change. */
static bool holds_plan(const bootcore_layout *layout) {
    return layout->planned == 1 && layout->step_count && layout->step_count <= layout->step_room &&
           layout->own_length <= layout->own_room;
}

/* The first that stands of a call without null, or BOOTCORE_STATUS_DONE. */
static uint32_t find_fault(const bootcore_layout *layout, const bootcore_bytes *files,
                           size_t file_count, pieces *all) {
    size_t i;
    if (has_reserved(layout, all->memory, all->count)) {
        return BOOTCORE_STATUS_BAD_RESERVED;
    }
    for (i = 0; i < file_count; i++) {
        if (files[i].length == BOOTCORE_UNREADABLE) {
            return BOOTCORE_STATUS_BAD_FILE;
        }
    }
    if (!holds_plan(layout)) {
        return BOOTCORE_STATUS_SMALL_ROOM;
    }
    for (i = 0; i < layout->step_count; i++) {
        if (!has_source(&layout->steps[i], layout, files, file_count)) {
            return BOOTCORE_STATUS_BAD_FILE;
        }
    }
    for (i = 0; i < layout->step_count; i++) {
        if (!is_inside(&layout->steps[i], all)) {
            return BOOTCORE_STATUS_OUTSIDE;
        }
    }
    return BOOTCORE_STATUS_DONE;
}

BOOTCORE_CALL
uint32_t bootcore_carry_out(const bootcore_layout *layout, const bootcore_bytes *files,
                            size_t file_count, const bootcore_memory *memory,
                            size_t memory_count) {
    pieces all = {memory, memory_count, IN_NO_ORDER, 0};
    uint32_t status;
    size_t i;
    if (has_null(layout, files, file_count, memory, memory_count)) {
        return BOOTCORE_STATUS_NULL;
    }
    find_order(&all);
    status = find_fault(layout, files, file_count, &all);
    if (status != BOOTCORE_STATUS_DONE) {
        return status;
    }
    for (i = 0; i < layout->step_count; i++) {
        carry_out(&layout->steps[i], source_of(&layout->steps[i], layout, files), &all);
    }
    return BOOTCORE_STATUS_DONE;
}
