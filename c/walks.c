/* Walks of an image. */
#include "given.h"

BOOTCORE_CALL
uint32_t bootcore_walk(const void *image, size_t image_length, bootcore_seen *seen,
                       bootcore_refusal *fault) {
    if (!seen || !fault || bootcore_is_null(image, image_length)) {
        return BOOTCORE_STATUS_NULL;
    }
    return bootcore_walk_array(bootcore_given_array(image), image_length, seen, fault);
}

BOOTCORE_CALL
uint32_t bootcore_walk_all(const void *image, size_t image_length, bootcore_seen *seen,
                           const bootcore_seen_arrays *arrays, bootcore_refusal *fault) {
    bootcore_seen_part no_part;
    bootcore_seen_module no_module;
    bootcore_region no_run;
    uint8_t no_text;
    bootcore_seen_firmware no_firmware;
    if (!seen || !arrays || !fault || bootcore_is_null(image, image_length) ||
        bootcore_is_null(arrays->kernel_parts, arrays->kernel_part_room) ||
        bootcore_is_null(arrays->modules, arrays->module_room) ||
        bootcore_is_null(arrays->runs, arrays->run_room) ||
        bootcore_is_null(arrays->text, arrays->text_room)) {
        return BOOTCORE_STATUS_NULL;
    }
    if (BOOTCORE_IS_RESERVED_SET(arrays)) {
        return BOOTCORE_STATUS_BAD_RESERVED;
    }
    return bootcore_walk_all_arrays(
        bootcore_given_array(image), image_length, seen,
        arrays->kernel_parts ? arrays->kernel_parts : &no_part, arrays->kernel_part_room,
        arrays->modules ? arrays->modules : &no_module, arrays->module_room,
        arrays->runs ? arrays->runs : &no_run, arrays->run_room,
        arrays->text ? arrays->text : &no_text, arrays->text_room,
        arrays->firmware ? arrays->firmware : &no_firmware, fault);
}
