/* The version of the archive. */
#include "bootcore.h"

BOOTCORE_CALL
uint32_t bootcore_version(void) {
    return BOOTCORE_VERSION;
}
