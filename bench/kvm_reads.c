/* Beside the monitor: reads a kernel and its files into a fresh mapping of 512 MiB, one behind the other, and ends. */
#define _DEFAULT_SOURCE
#include <fcntl.h>
#include <stdint.h>
#include <stdio.h>
#include <sys/mman.h>
#include <sys/stat.h>
#include <unistd.h>

int main(int argc, char **argv) {
    uint8_t *memory =
        mmap(NULL, 512 << 20, PROT_READ | PROT_WRITE, MAP_PRIVATE | MAP_ANONYMOUS | MAP_NORESERVE, -1, 0);
    uint8_t *to = memory + (1 << 20);
    if (memory == MAP_FAILED) {
        return 1;
    }
    for (int i = 1; i < argc; i++) {
        struct stat about;
        int file = open(argv[i], O_RDONLY);
        if (file < 0 || fstat(file, &about)) {
            return 1;
        }
        for (off_t at = 0; at < about.st_size;) {
            ssize_t count = pread(file, to + at, (size_t)(about.st_size - at), at);
            if (count <= 0) {
                return 1;
            }
            at += count;
        }
        to += (about.st_size + 4095) & ~(off_t)4095;
        close(file);
    }
    return puts("read") < 0;
}
