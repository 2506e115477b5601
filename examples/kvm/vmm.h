/* A small virtual machine monitor under KVM: what its files share. Where something fails the program ends
 * by fail(), so that no function has an error to answer. */
#ifndef VMM_H
#define VMM_H

#include "acpi/places.h"
#include "bootcore.h"

#include <linux/kvm.h>

enum { ENDED = 0, REFUSED = 1, FAILED = 2, BAD_EXIT = 3, BAD_WORDS = 64 }; /* the program's statuses */
void end(int status) __attribute__((noreturn)); /* once, whichever thread is the first */
void fail(int status, const char *format, ...) __attribute__((format(printf, 2, 3), noreturn));

/* memory.c: the guest's memory below 3 GiB, what the guest has from 4 GiB on, and the page of ACPI's tables. */
static const uint64_t LOW_END = 0xC0000000, HIGH_BASE = 0x100000000;
typedef struct guest_memory {
    uint8_t *low, *high, *tables;
    uint64_t low_size, high_size; /* the second may be 0 */
} guest_memory;
guest_memory map_memory(uint64_t size);

/* acpi.c: lays the tables of a machine with so many processors, and answers their root pointer. */
bootcore_bytes lay_tables(const guest_memory *memory, uint32_t processors);

/* load.c: plans a kernel with its modules or its initial ramdisk, reads each file to its places, and answers how
 * the kernel is entered. `places` has room for BOOTCORE_MAX_PLACES. */
bootcore_handoff load_guest(const guest_memory *memory, bootcore_bytes rsdp, uint32_t protocol, const char *line,
                            char **paths, int count, bootcore_place *places);

/* machine.c: the machine and its processors. The first one is about to execute the kernel's first instruction; the
 * others, with null registers, wait until the kernel starts them. */
typedef struct processor {
    int file;
    struct kvm_run *shared;
} processor;
int kvm_call(int file, unsigned long request, void *argument, const char *name);
void make_machine(const guest_memory *memory);
processor make_processor(uint32_t number, const bootcore_registers *registers);
void set_interrupt(uint32_t number, bool raised);

/* serial.c: the first serial port, whose eight registers are numbered from 0 on. */
enum { SERIAL_PORT = 0x3F8, SERIAL_INTERRUPT = 4 };
void start_serial(void);
uint8_t serial_in(unsigned number);
void serial_out(unsigned number, uint8_t value);

/* run.c: runs the guest to its end, which is the program's. */
void run_guest(const processor *processors, uint32_t count) __attribute__((noreturn));

#endif
