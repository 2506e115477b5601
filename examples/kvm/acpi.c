/* ACPI's tables. iasl compiles them, with their checksums, from the sources in acpi/, which say where each lies. */
#include "vmm.h"

#include <string.h>

#include "apic.hex"
#include "dsdt.hex"
#include "facp.hex"
#include "facs.hex"
#include "rsdp.hex"
#include "xsdt.hex"

enum { RSDP_LENGTH = 36, LOCAL_APIC_LENGTH = 8, LENGTH_AT = 4, CHECKSUM_AT = 9 };
#define TABLE(name, place) {name##_aml_code, sizeof name##_aml_code, (place) - TABLES_BASE}

/* The compiled MADT ends with a local APIC for each processor that there may be: those that there are not are cut. */
static void cut_processors(uint8_t *madt, uint32_t processors) {
    uint32_t cut = (MAX_PROCESSORS - processors) * LOCAL_APIC_LENGTH, length = (uint32_t)sizeof apic_aml_code - cut;
    uint8_t sum = 0;
    memset(madt + length, 0, cut);
    memcpy(madt + LENGTH_AT, &length, sizeof length);
    madt[CHECKSUM_AT] = 0;
    for (uint32_t i = 0; i < length; i++) {
        sum = (uint8_t)(sum + madt[i]);
    }
    madt[CHECKSUM_AT] = (uint8_t)-sum; /* all of its bytes sum to 0 */
}

bootcore_bytes lay_tables(const guest_memory *memory, uint32_t processors) {
    static const struct {
        const uint8_t *bytes;
        size_t length, offset;
    } tables[] = {TABLE(rsdp, RSDP_PLACE), TABLE(xsdt, XSDT_PLACE), TABLE(facp, FACP_PLACE),
                  TABLE(dsdt, DSDT_PLACE), TABLE(apic, APIC_PLACE), TABLE(facs, FACS_PLACE)};
    for (size_t i = 0; i < sizeof tables / sizeof *tables; i++) {
        memcpy(memory->tables + tables[i].offset, tables[i].bytes, tables[i].length);
    }
    cut_processors(memory->tables + (APIC_PLACE - TABLES_BASE), processors);
    return (bootcore_bytes){memory->tables + (RSDP_PLACE - TABLES_BASE), RSDP_LENGTH};
}
