/* What is left to copy once the firmware has ended, and from where.

   The kernel is told that all memory is usable but what the firmware keeps, so the plan's steps may
   go wherever this application has something. Before the firmware ends, all that is needed
   afterwards is brought to where no step goes. So no copy writes what another one reads, in whatever
   order they are made. A file whose step ends where it lies already is not copied at all. */
#include "app.h"

#define of_no_file UINT32_MAX

/* Whether a step takes these bytes, of a file, to where they lie. */
static int is_in_place(const bootcore_step *step, uint64_t start, uint32_t file) {
    return step->source == BOOTCORE_SOURCE_FILE && step->file == file &&
           step->address == start + step->offset;
}

void *take_file_pages(uint32_t file, uint64_t length) {
    const uint64_t count = length / page + (length % page != 0);
    void *pages = NULL;
    for (size_t i = 0; i < boot.layout.step_count && pages == NULL; i++) {
        const bootcore_step *step = &boot.layout.steps[i];
        if (is_in_place(step, step->address, file) && step->length == length)
            pages = take_pages_as(AllocateAddress, EfiLoaderData, count, step->address);
    }
    return pages ? pages : take_pages(count ? count : 1);
}

/* Moves bytes, of a file or of none, if a step would write over them. 0 if there is too little
   memory. Where they were they stay as well: whoever reads them there still can. */
static int clear(const void **bytes, uint64_t length, uint32_t file) {
    const uint64_t start = (UINTN)*bytes;
    for (size_t i = 0; i < boot.layout.step_count; i++) {
        const bootcore_step *step = &boot.layout.steps[i];
        if (!is_met(step, start, length) || is_in_place(step, start, file)) continue;
        void *moved = take_pages(length / page + 1);
        if (moved != NULL) *bytes = memcpy(moved, *bytes, length);
        return moved != NULL;
    }
    return 1;
}

static const void *own; /* the plan's own bytes */

int clear_sources(void) {
    own = boot.layout.own;
    int good = clear(&own, boot.layout.own_length, of_no_file);
    for (uint32_t i = 0; good && i < files.count; i++)
        good = clear(&files.read[i].bytes, files.read[i].length, i);
    return good;
}

static uint64_t source_of(const bootcore_step *step) {
    switch (step->source) {
    case BOOTCORE_SOURCE_FILE: return (UINTN)files.read[step->file].bytes + step->offset;
    case BOOTCORE_SOURCE_LAYOUT: return (UINTN)own + step->offset;
    default: return 0;
    }
}

int is_moved(const move *each) { return each->from == 0 || each->from != each->to; }

void list_moves(move *list, uint8_t *head) {
    const bootcore_layout *layout = &boot.layout;
    const size_t length = bootcore_image_head(&layout->handoff, layout->places, head, BOOTCORE_MAX_IMAGE_HEAD);
    *list++ = (move){(UINTN)head, (UINTN)head, length};
    for (size_t i = 0; i < layout->step_count; i++)
        *list++ = (move){layout->steps[i].address, source_of(&layout->steps[i]), layout->steps[i].length};
    *list = (move){0, 0, 0};
}
