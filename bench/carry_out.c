/* What it takes to carry out a plan over pieces of 4 KiB, over what it takes with one piece. Three quarters of the bytes are a file's,
 * the rest zeros. The ways take turns, and the best of all rounds counts. Prints `one SECONDS`, and two ratios: of pieces that lie
 * here one behind the other, and of pieces that lie here backwards.
 *
 *     carry_out MIB ROUNDS
 */
#define _POSIX_C_SOURCE 199309L
#include "bootcore.h"

#include <stdio.h>
#include <stdlib.h>
#include <string.h>
#include <time.h>

enum { AT = 0x100000, PIECE = 4096, WAYS = 3 };

static double seconds(void) {
    struct timespec now;
    clock_gettime(CLOCK_MONOTONIC, &now);
    return (double)now.tv_sec + (double)now.tv_nsec * 1e-9;
}

int main(int argc, char **argv) {
    double best[WAYS] = {1e9, 1e9, 1e9};
    if (argc != 3) {
        fputs("carry_out MIB ROUNDS\n", stderr);
        return 2;
    }
    size_t length = strtoul(argv[1], NULL, 10) << 20, count = length / PIECE, part = length / 4 * 3;
    uint8_t *file = malloc(length), *memory = malloc(length);
    bootcore_memory *pieces = calloc(count, sizeof *pieces);
    if (!length || !file || !memory || !pieces) {
        return 2;
    }
    for (size_t i = 0; i < length; i++) {
        file[i] = (uint8_t)(i * 7 + i / PIECE);
    }
    memset(memory, 1, length);
    bootcore_step steps[] = {{.address = AT, .length = part, .source = BOOTCORE_SOURCE_FILE},
                             {.address = AT + part, .length = length - part, .source = BOOTCORE_SOURCE_ZEROS}};
    const bootcore_layout layout = {.steps = steps, .step_room = 2, .step_count = 2, .planned = 1};
    const bootcore_bytes files = {file, length};
    for (long round = strtol(argv[2], NULL, 10); round > 0; round--) {
        for (int way = 0; way < WAYS; way++) {
            pieces[0] = (bootcore_memory){.address = AT, .bytes = memory, .length = length};
            for (size_t i = 0; way && i < count; i++) {
                size_t here = way == 1 ? i : count - 1 - i;
                pieces[i] = (bootcore_memory){.address = AT + i * PIECE, .bytes = memory + here * PIECE, .length = PIECE};
            }
            double began = seconds();
            if (bootcore_carry_out(&layout, &files, 1, pieces, way ? count : 1) != BOOTCORE_STATUS_DONE) {
                return 1;
            }
            double took = seconds() - began;
            best[way] = took < best[way] ? took : best[way];
        }
    }
    printf("one %.4f, behind each other %.2f, backwards %.2f\n", best[0], best[1] / best[0], best[2] / best[0]);
    free(pieces), free(memory), free(file);
    return 0;
}
