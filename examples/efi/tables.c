/* Tables of the firmware's: those that its system table lists, and numbers in them. */
#include "app.h"

const void *find_listed(const EFI_GUID *id) {
    for (UINTN i = 0; i < ST->NumberOfTableEntries; i++)
        if (memcmp(&ST->ConfigurationTable[i].VendorGuid, id, sizeof *id) == 0)
            return ST->ConfigurationTable[i].VendorTable;
    return NULL;
}

const uint8_t *find_rsdp(int is_new) {
    static const EFI_GUID old_acpi = ACPI_TABLE_GUID, new_acpi = ACPI_20_TABLE_GUID;
    return find_listed(is_new ? &new_acpi : &old_acpi);
}

uint32_t number16(const uint8_t *at) { return (uint32_t)at[0] | (uint32_t)at[1] << 8; }
uint32_t number32(const uint8_t *at) { return number16(at) | number16(at + 2) << 16; }
uint64_t number64(const uint8_t *at) { return number32(at) | (uint64_t)number32(at + 4) << 32; }
