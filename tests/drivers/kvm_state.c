/* The state in which the monitor of examples/kvm is about to let its processor run, as KVM tells it. It is the monitor
 * but for its main and its loop:
 *
 *     kvm_state image|ready multiboot2|linux|linux64 MIB LINE KERNEL [FILE..]
 *     kvm_state tables PROCESSORS
 *
 * `image` writes a handoff image to the standard output: the registers by KVM_GET_REGS and KVM_GET_SREGS, and the guest's
 * memory at the parts; and each segment register whole to the standard error. tests/kvm.py compares them with the image of
 * `bootcore boot` and with the rules. `ready` writes how many KiB the program takes beside the guest's memory, and ends there,
 * so that bench/kvm.sh can take the time up to the first instruction. `tables` writes the page of ACPI's tables, and needs no
 * KVM. */
#define _DEFAULT_SOURCE
#include "vmm.h"

#include <errno.h>
#include <inttypes.h>
#include <stdarg.h>
#include <stdio.h>
#include <stdlib.h>
#include <string.h>
#include <sys/mman.h>
#include <sys/resource.h>
#include <unistd.h>

void fail(int status, const char *format, ...) {
    va_list more;
    va_start(more, format);
    vfprintf(stderr, format, more);
    fputc('\n', stderr);
    exit(status);
}

static void tell_segment(const char *name, const struct kvm_segment *s) {
    fprintf(stderr, "%s %#x base %#llx limit %#x type %u s %u dpl %u p %u avl %u l %u db %u g %u\n", name, s->selector, s->base,
            s->limit, s->type, s->s, s->dpl, s->present, s->avl, s->l, s->db, s->g);
}

/* A20 is no register of KVM's: a machine of it has no gate. */
static bootcore_registers registers_in(int file, uint64_t bits) {
    struct kvm_regs r;
    struct kvm_sregs s;
    kvm_call(file, KVM_GET_REGS, &r, "KVM_GET_REGS");
    kvm_call(file, KVM_GET_SREGS, &s, "KVM_GET_SREGS");
    tell_segment("cs", &s.cs), tell_segment("ds", &s.ds), tell_segment("es", &s.es);
    tell_segment("fs", &s.fs), tell_segment("gs", &s.gs), tell_segment("ss", &s.ss);
    return (bootcore_registers){
        .bits = bits, .rip = r.rip, .rax = r.rax, .rbx = r.rbx, .rcx = r.rcx, .rdx = r.rdx, .rsi = r.rsi, .rdi = r.rdi,
        .rbp = r.rbp, .rsp = r.rsp, .r8 = r.r8, .r9 = r.r9, .r10 = r.r10, .r11 = r.r11, .r12 = r.r12, .r13 = r.r13,
        .r14 = r.r14, .r15 = r.r15, .rflags = r.rflags, .cr0 = s.cr0, .cr3 = s.cr3, .cr4 = s.cr4, .efer = s.efer,
        .cs = s.cs.selector, .ds = s.ds.selector, .es = s.es.selector, .fs = s.fs.selector, .gs = s.gs.selector,
        .ss = s.ss.selector, .gdt_base = s.gdt.base, .gdt_limit = s.gdt.limit, .a20 = 1};
}

/* How many bytes of the guest's memory the host has given. */
static uint64_t given(const guest_memory *memory) {
    uint64_t page = (uint64_t)sysconf(_SC_PAGESIZE), size = memory->low_size + memory->high_size, count = 0;
    unsigned char *there = malloc(size / page);
    if (!there || mincore(memory->low, size, there)) {
        fail(FAILED, "the guest's pages can't be counted: %s", strerror(errno));
    }
    for (uint64_t i = 0; i < size / page; i++) {
        count += there[i] & 1;
    }
    free(there);
    return count * page;
}

static void write_image(const guest_memory *memory, const bootcore_handoff *handoff, const bootcore_place *places) {
    static uint8_t head[BOOTCORE_MAX_IMAGE_HEAD];
    fwrite(head, 1, bootcore_image_head(handoff, places, head, sizeof head), stdout);
    for (uint32_t i = 0; i < handoff->place_count; i++) {
        fwrite(memory->low + places[i].address, 1, places[i].length, stdout);
    }
}

int main(int argc, char **argv) {
    static const char *const names[] = {"multiboot2", "linux", "linux64"};
    static bootcore_place places[BOOTCORE_MAX_PLACES];
    uint32_t protocol = 0;
    if (argc == 3 && !strcmp(argv[1], "tables")) {
        guest_memory memory = map_memory(0x200000);
        lay_tables(&memory, (uint32_t)strtoul(argv[2], NULL, 10));
        return fwrite(memory.tables, 1, TABLES_SIZE, stdout) < TABLES_SIZE || fflush(stdout) ? FAILED : ENDED;
    }
    for (uint32_t i = 0; argc > 5 && i < 3; i++) {
        protocol = strcmp(argv[2], names[i]) ? protocol : BOOTCORE_PROTOCOL_MULTIBOOT2 + i;
    }
    if (!protocol) {
        fail(BAD_WORDS, "usage: kvm_state image|ready multiboot2|linux|linux64 MIB LINE KERNEL [FILE..], or kvm_state tables PROCESSORS");
    }
    guest_memory memory = map_memory(strtoull(argv[3], NULL, 10) << 20);
    bootcore_bytes rsdp = lay_tables(&memory, 1);
    bootcore_handoff handoff = load_guest(&memory, rsdp, protocol, argv[4], argv + 5, argc - 5, places);
    make_machine(&memory);
    processor first = make_processor(0, &handoff.registers);
    if (strcmp(argv[1], "image")) {
        struct rusage usage;
        getrusage(RUSAGE_SELF, &usage);
        printf("%" PRIu64 "\n", (uint64_t)usage.ru_maxrss - given(&memory) / 1024);
    } else {
        handoff.registers = registers_in(first.file, handoff.registers.bits);
        write_image(&memory, &handoff, places);
    }
    return fflush(stdout) || ferror(stdout) ? FAILED : ENDED;
}
