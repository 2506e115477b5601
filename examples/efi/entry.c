/* What is left to do once the firmware has ended: copies, a look at them if they were measured, and the
   last jump. Nothing is asked of anybody, and nobody can be told. It runs in pages and by page tables of
   our own. */
#include "app.h"

extern const uint8_t run_alone[], trampoline[], trampoline_registers[], trampoline_end[];

struct last_pages {
    uint8_t jump[page], digest[page]; /* code: of entry.S, and digest_moves */
    uint8_t stack[page];              /* of that */
    digest_work work;
    uint8_t head[BOOTCORE_MAX_IMAGE_HEAD];
    move moves[];
};
last_pages *last;
uint64_t last_length;

const move *last_moves(void) { return last->moves; }

/* They lie below 4 GiB, since from there the processor leaves 64-bit mode. */
int make_entry(void) {
    const bootcore_registers *registers = &boot.layout.handoff.registers;
    last_length = sizeof *last + (boot.layout.step_count + 2) * sizeof(move);
    last = take_low_pages((last_length + page - 1) / page);
    if (last == NULL) return 0;
    memcpy(last->jump, trampoline, (size_t)(trampoline_end - trampoline));
    memcpy(last->jump + (trampoline_registers - trampoline), registers, sizeof *registers);
    memcpy(last->digest, (const void *)(UINTN)digest_moves, sizeof last->digest);
    list_moves(last->moves, last->head);
    begin_digest(&last->work, last->moves);
    return make_tables(run_alone, page);
}

void digest_image(uint8_t *digest) {
    digest_moves(&last->work, 0);
    memcpy(last->work.wanted, last->work.state, sizeof last->work.wanted);
    end_digest(&last->work, digest);
}

/* A processor with five levels keeps them until it leaves 64-bit mode. */
void enter_alone(void) {
    uint64_t cr4;
    __asm__("movq %%cr4, %0" : "=r"(cr4));
    const uint8_t *look = is_handover_measured() ? last->digest : NULL;
    ((void (*)(uint8_t *, uint64_t, move *, const uint8_t *, digest_work *))(UINTN)run_alone)(
        last->jump, tables_address(cr4 >> 12 & 1), last->moves, look, &last->work);
}
