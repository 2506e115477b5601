/* What the monitor and ACPI's tables have to agree on: where the tables lie, in a page above a guest's low memory, and ports.
 * iasl reads this too, which compiles the tables: only numbers, and no brackets. */
#define TABLES_BASE 0xE0000000
#define TABLES_SIZE 0x1000
#define RSDP_PLACE 0xE0000000
#define XSDT_PLACE 0xE0000040
#define FACP_PLACE 0xE0000080
#define DSDT_PLACE 0xE0000200
#define APIC_PLACE 0xE0000280
#define FACS_PLACE 0xE0000FC0

#define MAX_PROCESSORS 64

#define PM1_EVENT 0x600
#define PM1_CONTROL 0x604
#define KEYBOARD_COMMAND 0x64
#define KEYBOARD_RESET 0xFE
