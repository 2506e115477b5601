/* The first serial port, a 16550A: what the guest writes there comes on the standard output, and what comes on
 * the standard input, which a thread waits for, it reads there. */
#define _DEFAULT_SOURCE
#include "vmm.h"

#include <pthread.h>
#include <unistd.h>

enum { DATA, ENABLED, IDENTITY, LINE, MODEM, LINE_STATUS, MODEM_STATUS }; /* registers */
enum { ON_INPUT = 1, ON_EMPTY = 2, DIVISOR_SHOWN = 0x80, LOOP = 0x10, INTERRUPTS_OUT = 8 }; /* their bits */

static pthread_mutex_t lock = PTHREAD_MUTEX_INITIALIZER;
static pthread_cond_t was_read = PTHREAD_COND_INITIALIZER;
static uint8_t kept[8], divisor[2], input;
static bool has_input, tells_empty, has_fifo, is_raised;

static void update(void) {
    bool raised = kept[MODEM] & INTERRUPTS_OUT && ((kept[ENABLED] & ON_INPUT && has_input) ||
                                                   (kept[ENABLED] & ON_EMPTY && tells_empty));
    if (raised != is_raised) {
        set_interrupt(SERIAL_INTERRUPT, is_raised = raised);
    }
}

static uint8_t value_of(unsigned number) {
    uint8_t modem = kept[MODEM], value;
    switch (number) {
    case DATA:
        pthread_cond_signal(&was_read);
        value = has_input ? input : 0;
        has_input = false;
        return value;
    case IDENTITY: /* what the interrupt is for; that nothing is left to send is told once */
        if (kept[ENABLED] & ON_INPUT && has_input) {
            return has_fifo ? 0xC4 : 4;
        }
        if (kept[ENABLED] & ON_EMPTY && tells_empty) {
            tells_empty = false;
            return has_fifo ? 0xC2 : 2;
        }
        return has_fifo ? 0xC1 : 1;
    case LINE_STATUS: return has_input ? 0x61 : 0x60; /* all is sent at once */
    case MODEM_STATUS: /* a modem is there; in a loop the four outputs are read back */
        return (uint8_t)(modem & LOOP ? (modem & 12) << 4 | (modem & 2) << 3 | (modem & 1) << 5 : 0xB0);
    default: return kept[number];
    }
}

uint8_t serial_in(unsigned number) {
    pthread_mutex_lock(&lock);
    uint8_t value = number <= ENABLED && kept[LINE] & DIVISOR_SHOWN ? divisor[number] : value_of(number);
    update();
    pthread_mutex_unlock(&lock);
    return value;
}

void serial_out(unsigned number, uint8_t value) {
    pthread_mutex_lock(&lock);
    if (number <= ENABLED && kept[LINE] & DIVISOR_SHOWN) {
        divisor[number] = value;
    } else if (number == DATA) {
        if (!(kept[MODEM] & LOOP) && write(STDOUT_FILENO, &value, 1) != 1) {
            fail(FAILED, "the standard output can't be written");
        }
        tells_empty = false;
        update(); /* so that the interrupt controller sees an edge */
        tells_empty = true;
    } else if (number == IDENTITY) {
        has_fifo = value & 1;
    } else {
        tells_empty = tells_empty || (number == ENABLED && value & ~kept[ENABLED] & ON_EMPTY);
        kept[number] = value;
    }
    update();
    pthread_mutex_unlock(&lock);
}

static void *wait_for_input(void *none) {
    for (uint8_t byte; read(STDIN_FILENO, &byte, 1) == 1;) {
        pthread_mutex_lock(&lock);
        while (has_input) {
            pthread_cond_wait(&was_read, &lock);
        }
        input = byte;
        has_input = true;
        update();
        pthread_mutex_unlock(&lock);
    }
    return none;
}

void start_serial(void) {
    pthread_t reader;
    if (pthread_create(&reader, NULL, wait_for_input, NULL)) {
        fail(FAILED, "no thread can be started for the standard input");
    }
}
