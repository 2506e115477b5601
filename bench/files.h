/* Included by the programs in C beside it, after _XOPEN_SOURCE is set: a file that is open, and reads from it. */
#include <fcntl.h>
#include <stdio.h>
#include <stdlib.h>
#include <unistd.h>

enum { SIZE = 0x20000000 }; /* of the guest's memory */

typedef struct input {
    int descriptor;
    size_t length;
} input;

static input open_file(const char *path)
{
    input file;
    off_t end;
    file.descriptor = open(path, O_RDONLY);
    end = lseek(file.descriptor, 0, SEEK_END);
    if (end < 0) exit(1);
    file.length = (size_t)end;
    return file;
}

/* Reads so many bytes of a file to where they belong. */
static void read_at(const input *file, size_t offset, unsigned char *to, size_t length)
{
    while (length > 0) {
        ssize_t count = pread(file->descriptor, to, length, (off_t)offset);
        if (count <= 0) exit(1);
        to += count;
        offset += (size_t)count;
        length -= (size_t)count;
    }
}

static unsigned char *read_file(const input *file)
{
    unsigned char *bytes = malloc(file->length);
    if (bytes == NULL) exit(1);
    read_at(file, 0, bytes, file->length);
    return bytes;
}
