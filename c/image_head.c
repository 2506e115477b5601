/* The head of a handoff image. docs/FORMATS.md has the format; version 2 is written. */
#include "given.h"

enum { VERSION = 2, REGISTER_BYTES = 31 * 8, HEAD = 272, RECORD = 24 };

/* Numbers are little-endian. */
static uint8_t *put(uint8_t *at, uint64_t number, int bytes) {
    for (; bytes; bytes--) {
        *at++ = (uint8_t)number;
        number >>= 8;
    }
    return at;
}

BOOTCORE_CALL
size_t bootcore_image_head(const bootcore_handoff *handoff, const bootcore_place *places,
                           uint8_t *head, size_t length) {
    static const char magic[8] = "BLIMAGE";
    const unsigned char *registers;
    size_t wanted, i;
    if (!handoff || (!places && handoff->place_count)) {
        return 0;
    }
    wanted = HEAD + (size_t)RECORD * handoff->place_count;
    if (!head || length < wanted) {
        return wanted;
    }
    for (i = 0; i < sizeof magic; i++) {
        *head++ = (uint8_t)magic[i];
    }
    head = put(head, VERSION, 4);
    head = put(head, handoff->protocol, 4);
    /* from rip on they stand in the image's order, and as this processor keeps them */
    registers = (const unsigned char *)&handoff->registers + offsetof(bootcore_registers, rip);
    for (i = 0; i < REGISTER_BYTES; i++) {
        *head++ = registers[i];
    }
    head = put(head, handoff->place_count, 4);
    head = put(head, 0, 4);
    for (i = 0; i < handoff->place_count; i++) {
        head = put(head, places[i].role, 4);
        head = put(head, places[i].index, 4);
        head = put(head, places[i].address, 8);
        head = put(head, places[i].length, 8);
    }
    return wanted;
}

BOOTCORE_CALL
uint32_t bootcore_image_head_read(const void *head, size_t length, bootcore_handoff *handoff,
                                  bootcore_place *places, size_t place_room,
                                  bootcore_refusal *fault) {
    bootcore_place no_place;
    if (bootcore_is_null(head, length) || !handoff || bootcore_is_null(places, place_room) ||
        !fault) {
        return BOOTCORE_STATUS_NULL;
    }
    return bootcore_image_head_read_arrays(bootcore_given_array(head), length, handoff,
                                           place_room ? places : &no_place, place_room, fault);
}
