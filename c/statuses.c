/* Statuses in words. */
#include "bootcore.h"

BOOTCORE_CALL
const char *bootcore_status_text(uint32_t status) {
    switch (status) {
    case BOOTCORE_STATUS_DONE:
        return "it is done";
    case BOOTCORE_STATUS_REFUSED:
        return "the entry is refused; of a menu: no entry is left; of a walk: the image is refused";
    case BOOTCORE_STATUS_WAITING:
        return "a session awaits pieces of files, or was not started; a digest awaits bytes";
    case BOOTCORE_STATUS_NEXT:
        return "an entry was refused, and the session awaits pieces of another";
    case BOOTCORE_STATUS_NO_MEMORY:
        return "memory ran out";
    case BOOTCORE_STATUS_FAILED:
        return "the session ended without an entry: none is left, or memory ran out";
    case BOOTCORE_STATUS_OUTSIDE:
        return "a part does not lie in the memory that is given";
    case BOOTCORE_STATUS_NULL:
        return "a pointer is null that may not be";
    case BOOTCORE_STATUS_BAD_RESERVED:
        return "a reserved word is not 0";
    case BOOTCORE_STATUS_BAD_FILE:
        return "a file can't be read, or a plan is carried out with too few or too short files";
    case BOOTCORE_STATUS_SMALL_ROOM:
        return "an array has too little room, or the layout holds no whole plan";
    case BOOTCORE_STATUS_BAD_KIND:
        return "a region has a kind that there is not";
    case BOOTCORE_STATUS_BAD_SIZE:
        return "the machine's size is no multiple of 4096 from 1 MiB to 4 GiB: what lies above 4 GiB "
               "is a region alone";
    case BOOTCORE_STATUS_TOO_MANY_REGIONS:
        return "there are more than 128 regions";
    case BOOTCORE_STATUS_BAD_REGION:
        return "a region ends above 2^52";
    case BOOTCORE_STATUS_BAD_POOL:
        return "the pool is not of whole frames, or not all of it is usable";
    case BOOTCORE_STATUS_BAD_MEMORY:
        return "memory ends below the machine's size (of a boot: not at it), or begins at 4 GiB or "
               "above";
    case BOOTCORE_STATUS_BAD_PROTOCOL:
        return "an entry has a protocol that there is not";
    case BOOTCORE_STATUS_TOO_MANY_ENTRIES:
        return "there are more than 32 entries";
    case BOOTCORE_STATUS_TOO_MANY_MODULES:
        return "an entry has more than 64 modules";
    case BOOTCORE_STATUS_LONG_RSDP:
        return "a copy of an RSDP has more than 256 bytes";
    case BOOTCORE_STATUS_BAD_INDEX:
        return "a menu's first entry or a fallback is no entry";
    case BOOTCORE_STATUS_NO_SESSION:
        return "no session or digest is kept: it was not made, or it was freed";
    case BOOTCORE_STATUS_LOW_POOL:
        return "the pool begins below the memory that is given";
    case BOOTCORE_STATUS_UNWANTED:
        return "a digest is fed more bytes than it wants";
    case BOOTCORE_STATUS_BAD_EFI_BITS:
        return "UEFI has neither 32 nor 64 bits";
    case BOOTCORE_STATUS_BAD_SECURE_BOOT:
        return "the state of secure boot is not 0 to 3";
    /* >>> tools/refusals: status texts of MapFault */
    case BOOTCORE_STATUS_BAD_SCREEN_SIZE:
        return "a bad size of the screen: its width, its height or its pitch is not 1 to 65535";
    case BOOTCORE_STATUS_BAD_SCREEN_DEPTH:
        return "a bad depth of the screen: not 15, 16, 24 or 32 bits";
    case BOOTCORE_STATUS_BAD_SCREEN_COLOR:
        return "a bad colour of the screen: its bits do not lie in the pixel";
    case BOOTCORE_STATUS_BAD_SCREEN_PITCH:
        return "a bad pitch of the screen: a line's pixels do not fit into its bytes";
    case BOOTCORE_STATUS_BAD_SCREEN_PLACE:
        return "a bad place of the screen: at 0, with an end above 2^52, or over a usable byte";
    case BOOTCORE_STATUS_BAD_RSDP:
        return "a bad address of the RSDP: 0, with an end of its 36 bytes above 2^52, or over a "
               "usable byte";
    case BOOTCORE_STATUS_BAD_SYSTEM_TABLE:
        return "a bad address of the UEFI system table: 0, with 32 bits at 4 GiB or above, or "
               "with an end above 2^52";
    case BOOTCORE_STATUS_BAD_DESCRIPTORS:
        return "bad descriptors of the UEFI memory map: another version than 1, or a size below "
               "40 or no multiple of 8";
    case BOOTCORE_STATUS_BAD_EFI_MAP_SIZE:
        return "a bad size of the UEFI memory map: no descriptor, a part of one, or more than 64 "
               "KiB";
    case BOOTCORE_STATUS_BAD_EFI_MAP_PLACE:
        return "a bad place of the UEFI memory map: at 0, at no multiple of 8, with an end above "
               "4 GiB, or over a usable byte";
    case BOOTCORE_STATUS_BAD_SMBIOS_SIZE:
        return "bad tables of SMBIOS: no byte, or more than 64 KiB";
    case BOOTCORE_STATUS_TOO_MANY_AVOIDED:
        return "more than 128 ranges to avoid";
    case BOOTCORE_STATUS_BAD_AVOIDED:
        return "a range to avoid ends above 2^52, or before it begins";
    case BOOTCORE_STATUS_POOL_AVOIDED:
        return "a range to avoid meets the pool";
    /* <<< */
    default:
        return "no status has this number";
    }
}
