/* The loop: a processor runs until it asks something of the monitor. */
#include "vmm.h"

#include <errno.h>
#include <pthread.h>
#include <stdio.h>
#include <string.h>
#include <sys/ioctl.h>

enum { CMOS_DATA = 0x71, SLEEPS = 0x20 }; /* a bit in the second byte of PM1_CONTROL */

/* Why no guest of this monitor goes on after an exit, and for one of them why KVM itself does not. */
static const char *const exits[] = {
    [KVM_EXIT_UNKNOWN] = "the processor stopped it for a reason that KVM does not know",
    [KVM_EXIT_EXCEPTION] = "KVM leaves an exception to the monitor",
    [KVM_EXIT_HLT] = "it halts, and KVM does not wait for its interrupt",
    [KVM_EXIT_FAIL_ENTRY] = "the processor does not accept its state",
    [KVM_EXIT_INTERNAL_ERROR] = "KVM gives up",
};
static const char *const errors[] = {
    [KVM_INTERNAL_ERROR_EMULATION] = " at an instruction that it does not emulate",
    [KVM_INTERNAL_ERROR_SIMUL_EX] = " at two exceptions at once",
    [KVM_INTERNAL_ERROR_DELIVERY_EV] = " at an exit while an event was delivered",
    [KVM_INTERNAL_ERROR_UNEXPECTED_EXIT_REASON] = " at an exit that it does not know",
};
#define WORDS(table, at) ((at) < sizeof(table) / sizeof *(table) ? (table)[at] : NULL)

static int bad_exit(int file, const struct kvm_run *shared) {
    uint32_t number = shared->exit_reason, error = shared->internal.suberror;
    bool gives_up = number == KVM_EXIT_INTERNAL_ERROR;
    const char *why = WORDS(exits, number), *more = gives_up ? WORDS(errors, error) : NULL;
    struct kvm_regs general = {0};
    struct kvm_sregs special = {0};
    kvm_call(file, KVM_GET_REGS, &general, "KVM_GET_REGS");
    kvm_call(file, KVM_GET_SREGS, &special, "KVM_GET_SREGS");
    fprintf(stderr, "vmm: the guest stopped: %s%s\n", why ? why : "the monitor does not know this exit", more ? more : "");
    fprintf(stderr, "vmm: exit %u, reason %#llx; cs %#x rip %#llx rsp %#llx cr0 %#llx cr2 %#llx cr3 %#llx\n", number,
            gives_up ? error : shared->hw.hardware_exit_reason, special.cs.selector, general.rip, general.rsp,
            special.cr0, special.cr2, special.cr3);
    return BAD_EXIT;
}

static int ended(const char *how) {
    fprintf(stderr, "vmm: the guest %s\n", how);
    return ENDED;
}

/* How the guest ended, if it did. A port of no device reads as ones, with which ACPI is on. CMOS has no clock and
 * reads as 0: with ones Linux would wait for the end of a clock's update. */
static const char *port_answered(unsigned port, bool is_in, uint8_t *bytes, size_t size) {
    bool is_serial = port >= SERIAL_PORT && port < SERIAL_PORT + 8;
    if (is_in) {
        memset(bytes, port == CMOS_DATA ? 0 : 0xFF, size);
        if (is_serial) {
            bytes[0] = serial_in(port - SERIAL_PORT);
        }
    } else if (is_serial) {
        serial_out(port - SERIAL_PORT, bytes[0]);
    } else if (port == KEYBOARD_COMMAND && bytes[0] == KEYBOARD_RESET) {
        return "restarted, by the keyboard controller";
    } else if (port == PM1_CONTROL && size > 1 && bytes[1] & SLEEPS) {
        return "switched off";
    }
    return NULL;
}

/* The same of a port's exit, of one access or of several in a row. */
static const char *ports_answered(struct kvm_run *shared) {
    uint8_t *bytes = (uint8_t *)shared + shared->io.data_offset;
    bool is_in = shared->io.direction == KVM_EXIT_IO_IN;
    const char *how = NULL;
    for (uint32_t i = 0; i < shared->io.count && !how; i++, bytes += shared->io.size) {
        how = port_answered(shared->io.port, is_in, bytes, shared->io.size);
    }
    return how;
}

/* Answers the program's status. What waits to be started does so in KVM_RUN. */
static int run_processor(int file, struct kvm_run *shared) {
    for (const char *how;;) {
        if (ioctl(file, KVM_RUN, 0) < 0) {
            if (errno == EINTR || errno == EAGAIN) {
                continue;
            }
            fail(FAILED, "KVM_RUN: %s", strerror(errno));
        }
        switch (shared->exit_reason) {
        case KVM_EXIT_IO:
            how = ports_answered(shared);
            if (how) {
                return ended(how);
            }
            break;
        case KVM_EXIT_MMIO: /* of no device */
            if (!shared->mmio.is_write) {
                memset(shared->mmio.data, 0xFF, sizeof shared->mmio.data);
            }
            break;
        case KVM_EXIT_INTR: break;
        case KVM_EXIT_SHUTDOWN: return ended("restarted, by a fault of a fault of a fault");
        case KVM_EXIT_SYSTEM_EVENT: return ended("restarted, by an event of the system");
        default: return bad_exit(file, shared);
        }
    }
}

static void *run_thread(void *given) {
    const processor *one = given;
    end(run_processor(one->file, one->shared));
}

void run_guest(const processor *processors, uint32_t count) {
    for (uint32_t i = 1; i < count; i++) {
        pthread_t thread;
        if (pthread_create(&thread, NULL, run_thread, (void *)&processors[i])) {
            fail(FAILED, "no thread can be started for a processor");
        }
    }
    end(run_processor(processors->file, processors->shared));
}
