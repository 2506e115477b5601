/* A client in C++98: a kernel that is a header alone is loaded, and what is handed over printed. client.rs does the same. */
#include "bootcore.h"

#include <cstdio>
#include <cstring>
#include <vector>

int main() {
    const uint32_t kernel[] = {0xE85250D6u, 0, 64, 0u - 0xE85250D6u - 64u, 2, 24, 0x100000, 0x100000, 0, 0x102000, 3, 12, 0x100000, 0,
                               0, 8};
    std::vector<uint8_t> bytes(0x200000, 0xA5);
    std::vector<bootcore_place> places(BOOTCORE_MAX_PLACES);
    bootcore_region region = {0, 0x200000, BOOTCORE_KIND_USABLE, 0};
    bootcore_memory memory = {0, &bytes[0], bytes.size(), 0};
    bootcore_machine machine;
    bootcore_module module = {{"hello", 5}, {"m", 1}, {0, 0}};
    bootcore_entry entry;
    bootcore_outcome outcome;
    bootcore_segment segments[6];
    bootcore_session session = {NULL};
    std::memset(&machine, 0, sizeof machine);
    machine.size = bytes.size();
    machine.regions = &region;
    machine.region_count = 1;
    std::memset(&entry, 0, sizeof entry);
    entry.protocol = BOOTCORE_PROTOCOL_MULTIBOOT2;
    entry.kernel.bytes = kernel;
    entry.kernel.length = sizeof kernel;
    entry.line.bytes = "line";
    entry.line.length = 4;
    entry.modules = &module;
    entry.module_count = 1;
    std::memset(&outcome, 0, sizeof outcome);
    outcome.places = &places[0];
    outcome.place_room = places.size();
    std::printf("version %u\n", bootcore_version());
    std::printf("load %u\n", bootcore_load(&memory, &machine, &entry, &outcome));
    bootcore_segments(&outcome.handoff.registers, segments);
    std::printf("ip %lx, cs %x of type %u\n", static_cast<unsigned long>(outcome.handoff.registers.rip), segments[0].selector,
                segments[0].type);
    for (uint32_t i = 0; i < outcome.handoff.place_count; i++) {
        std::printf("part %u at %lx, %lu bytes\n", places[i].role, static_cast<unsigned long>(places[i].address),
                    static_cast<unsigned long>(places[i].length));
    }
    std::printf("outcome %u\n", bootcore_session_outcome(&session, &outcome));
    bootcore_session_free(&session);
    return 0;
}
