/* A machine of KVM: memory, the devices that KVM itself has (interrupt controllers, a timer), a processor in the
 * state that the kernel is to find, and processors that wait for it. */
#define _DEFAULT_SOURCE
#include "vmm.h"

#include <errno.h>
#include <fcntl.h>
#include <stdlib.h>
#include <string.h>
#include <sys/ioctl.h>
#include <sys/mman.h>

enum { MAX_FEATURES = 256 };
static const uint64_t TSS_ADDRESS = 0xFFFBD000; /* pages for real mode, where the guest has no memory */
static int kvm, vm;

int kvm_call(int file, unsigned long request, void *argument, const char *name) {
    int answer = ioctl(file, request, argument);
    if (answer < 0) {
        fail(FAILED, "%s: %s", name, strerror(errno));
    }
    return answer;
}

static void open_kvm(void) {
    kvm = open("/dev/kvm", O_RDWR | O_CLOEXEC);
    if (kvm < 0) {
        fail(FAILED, "/dev/kvm: %s%s", strerror(errno),
             errno == EACCES   ? "; is the user in the group kvm?"
             : errno == ENOENT ? "; is kvm_intel or kvm_amd loaded, and virtualization on in the firmware?"
                               : "");
    }
    int version = kvm_call(kvm, KVM_GET_API_VERSION, NULL, "KVM_GET_API_VERSION");
    if (version != KVM_API_VERSION) {
        fail(FAILED, "/dev/kvm has version %d of its calls, not %d", version, KVM_API_VERSION);
    }
}

static void give_memory(uint32_t slot, uint64_t address, void *bytes, uint64_t length) {
    struct kvm_userspace_memory_region region = {.slot = slot, .guest_phys_addr = address,
                                                 .memory_size = length, .userspace_addr = (uintptr_t)bytes};
    kvm_call(vm, KVM_SET_USER_MEMORY_REGION, &region, "KVM_SET_USER_MEMORY_REGION");
}

void make_machine(const guest_memory *memory) {
    struct kvm_pit_config timer = {.flags = KVM_PIT_SPEAKER_DUMMY}; /* with port 0x61, by which Linux measures */
    open_kvm();
    vm = kvm_call(kvm, KVM_CREATE_VM, NULL, "KVM_CREATE_VM");
    kvm_call(vm, KVM_SET_TSS_ADDR, (void *)TSS_ADDRESS, "KVM_SET_TSS_ADDR");
    kvm_call(vm, KVM_CREATE_IRQCHIP, NULL, "KVM_CREATE_IRQCHIP");
    kvm_call(vm, KVM_CREATE_PIT2, &timer, "KVM_CREATE_PIT2");
    give_memory(0, 0, memory->low, memory->low_size);
    give_memory(1, TABLES_BASE, memory->tables, TABLES_SIZE);
    if (memory->high_size) {
        give_memory(2, HIGH_BASE, memory->high, memory->high_size);
    }
}

void set_interrupt(uint32_t number, bool raised) {
    struct kvm_irq_level level = {.irq = number, .level = raised};
    kvm_call(vm, KVM_IRQ_LINE, &level, "KVM_IRQ_LINE");
}

/* All features that KVM offers, of a processor with a number of its own that shares its package with no other. */
static void set_features(int file, uint32_t number) {
    struct kvm_cpuid2 *features = calloc(1, sizeof *features + MAX_FEATURES * sizeof *features->entries);
    if (!features) {
        fail(FAILED, "memory ran out");
    }
    features->nent = MAX_FEATURES;
    kvm_call(kvm, KVM_GET_SUPPORTED_CPUID, features, "KVM_GET_SUPPORTED_CPUID");
    for (uint32_t i = 0; i < features->nent; i++) {
        struct kvm_cpuid_entry2 *entry = &features->entries[i];
        if (entry->function == 1) {
            entry->ebx = (entry->ebx & 0xFFFF) | 1 << 16 | number << 24;
        } else if (entry->function == 0xB || entry->function == 0x1F) {
            entry->edx = number;
        }
    }
    kvm_call(file, KVM_SET_CPUID2, features, "KVM_SET_CPUID2");
    free(features);
}

static struct kvm_segment segment_of(const bootcore_segment *from) {
    return (struct kvm_segment){.base = from->base, .limit = from->limit, .selector = from->selector,
                                .type = from->type, .s = from->s, .dpl = from->dpl, .present = from->p,
                                .avl = from->avl, .l = from->l, .db = from->db, .g = from->g};
}

/* What no protocol gives (TR, LDTR, IDTR) stays as a reset leaves it. */
static void set_state(int file, const bootcore_registers *r) {
    bootcore_segment segments[6];
    struct kvm_sregs special;
    struct kvm_regs general = {
        .rip = r->rip, .rflags = r->rflags, .rax = r->rax, .rbx = r->rbx, .rcx = r->rcx, .rdx = r->rdx,
        .rsi = r->rsi, .rdi = r->rdi, .rbp = r->rbp, .rsp = r->rsp, .r8 = r->r8, .r9 = r->r9, .r10 = r->r10,
        .r11 = r->r11, .r12 = r->r12, .r13 = r->r13, .r14 = r->r14, .r15 = r->r15};
    kvm_call(file, KVM_GET_SREGS, &special, "KVM_GET_SREGS");
    bootcore_segments(r, segments);
    special.cs = segment_of(&segments[0]), special.ds = segment_of(&segments[1]);
    special.es = segment_of(&segments[2]), special.fs = segment_of(&segments[3]);
    special.gs = segment_of(&segments[4]), special.ss = segment_of(&segments[5]);
    special.gdt.base = r->gdt_base, special.gdt.limit = (uint16_t)r->gdt_limit;
    special.cr0 = r->cr0, special.cr3 = r->cr3, special.cr4 = r->cr4, special.efer = r->efer;
    kvm_call(file, KVM_SET_SREGS, &special, "KVM_SET_SREGS");
    kvm_call(file, KVM_SET_REGS, &general, "KVM_SET_REGS");
}

processor make_processor(uint32_t number, const bootcore_registers *registers) {
    int file = kvm_call(vm, KVM_CREATE_VCPU, (void *)(uintptr_t)number, "KVM_CREATE_VCPU");
    set_features(file, number);
    if (registers) {
        set_state(file, registers);
    }
    size_t length = (size_t)kvm_call(kvm, KVM_GET_VCPU_MMAP_SIZE, NULL, "KVM_GET_VCPU_MMAP_SIZE");
    struct kvm_run *shared = mmap(NULL, length, PROT_READ | PROT_WRITE, MAP_SHARED, file, 0);
    if (shared == MAP_FAILED) {
        fail(FAILED, "what KVM shares of a processor can't be mapped: %s", strerror(errno));
    }
    return (processor){file, shared};
}
