/* Segment registers whole. */
#include "given.h"

enum { SEGMENTS = 6 };

BOOTCORE_CALL
void bootcore_segments(const bootcore_registers *registers, bootcore_segment segments[SEGMENTS]) {
    if (registers && segments) {
        bootcore_segments_told(registers, segments, SEGMENTS);
    }
}
