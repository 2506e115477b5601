/*
 * Takes a kernel's payload and an initial ramdisk each once to their places in a guest's memory of 512 MiB, as often as is told:
 * the least that a loader must do.
 *
 *     plain_guest copy|read KERNEL INITRD ROUNDS
 *
 * Both files are copied from bytes that were read before; with `read` the ramdisk is read from its file straight to its place.
 */
#define _XOPEN_SOURCE 700
#include "files.h"

#include <string.h>

enum { PAYLOAD = 1024, KERNEL_AT = 0x1000000 };

int main(int argc, char **argv)
{
    size_t length, initrd_at;
    unsigned char *kernel, *initrd = NULL, *memory = calloc(SIZE, 1);
    input kernel_file, initrd_file;
    long rounds, round;
    if (argc != 5 || memory == NULL) return 1;
    kernel_file = open_file(argv[2]);
    initrd_file = open_file(argv[3]);
    rounds = strtol(argv[4], NULL, 10);
    kernel = read_file(&kernel_file);
    if (strcmp(argv[1], "read") != 0) initrd = read_file(&initrd_file);
    initrd_at = (SIZE - initrd_file.length) & ~(size_t)0xFFF;
    length = kernel_file.length - PAYLOAD;
    for (round = 0; round < rounds; round++) {
        memcpy(memory + KERNEL_AT, kernel + PAYLOAD, length);
        /* what the kernel needs behind its payload is cleared, as any loader must */
        memset(memory + KERNEL_AT + length, 0, length);
        if (initrd != NULL) {
            memcpy(memory + initrd_at, initrd, initrd_file.length);
        } else {
            read_at(&initrd_file, 0, memory + initrd_at, initrd_file.length);
        }
        printf("%ld %d\n", round, memory[initrd_at + (size_t)round]);
    }
    return 0;
}
