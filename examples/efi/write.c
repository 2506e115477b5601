/* For tests, and in no other build: the handover as an image, and the description of the same boot, as
   files on the disk. `bootcore boot` of that description, with the same files beside it, must write the
   same image. docs/FORMATS.md has both forms. And a file that says where all lies as the firmware is to
   end; and changes while it ends. */
#include "app.h"

static int writes;
static const char *changed; /* when, or what; NULL for nothing */

int is_for_tests(const char *word, const char *rest) {
    if (is_word(word, "write")) return writes = 1;
    if (is_word(word, "change")) return changed = rest, 1;
    return 0;
}

/* ---- the description, and where all lies */

static int write_description(EFI_FILE *file, const menu_entry *entry) {
    static char text[max_text];
    size_t length = describe(&boot.map.machine, entry, 0, text, sizeof text);
    return length != 0 && append(file, text, length);
}

/* Addresses and lengths of the firmware's ranges, by its number for their type, of the entry's files
   and parts; what is needed until the last jump; and what is moved: to, from, how many bytes. */
static int write_memory(EFI_FILE *file, const menu_entry *entry) {
    static char text[max_text];
    (void)entry;
    read_map(&boot.map); /* pages were taken since it was read */
    const memory_list *list = &boot.map.list;
    const EFI_MEMORY_DESCRIPTOR *d = first_range(list, 0);
    kept = text;
    kept_end = text + sizeof text;
    for (; d != NULL; d = first_range(list, d->PhysicalStart + 1))
        print("range %u 0x%x 0x%x\n", (uint64_t)d->Type, d->PhysicalStart, d->NumberOfPages * page);
    for (size_t i = 0; i < files.count; i++)
        print("file %u 0x%x 0x%x\n", i, (UINTN)files.read[i].bytes, files.read[i].length);
    for (size_t i = 0; i < boot.layout.handoff.place_count; i++) {
        const bootcore_place *place = &boot.layout.places[i];
        print("part %u 0x%x 0x%x\n", (uint64_t)place->role, place->address, place->length);
    }
    print("last 0x%x 0x%x\n", (UINTN)last, last_length);
    for (const move *each = last_moves(); each->length; each++)
        if (is_moved(each)) print("move 0x%x 0x%x 0x%x\n", each->to, each->from, each->length);
    size_t length = (size_t)(kept - text);
    kept = NULL;
    return append(file, text, length);
}

/* ---- the image: its head, then the parts' bytes, as the steps have them in order */

static int append_zeros(EFI_FILE *file, uint64_t length) {
    static const uint8_t zeros[page];
    int good = 1;
    for (; good && length > page; length -= page) good = append(file, zeros, page);
    return good && append(file, zeros, length);
}

static int append_step(EFI_FILE *file, const bootcore_step *step) {
    if (step->source == BOOTCORE_SOURCE_ZEROS) return append_zeros(file, step->length);
    const uint8_t *bytes = step->source == BOOTCORE_SOURCE_FILE ? files.read[step->file].bytes
                                                              : boot.layout.own;
    return append(file, bytes + step->offset, step->length);
}

static int write_image(EFI_FILE *file, const menu_entry *entry) {
    static uint8_t head[BOOTCORE_MAX_IMAGE_HEAD];
    const bootcore_layout *layout = &boot.layout;
    (void)entry;
    size_t length = bootcore_image_head(&layout->handoff, layout->places, head, sizeof head);
    int good = append(file, head, length);
    for (size_t i = 0; good && i < layout->step_count; i++)
        good = append_step(file, &layout->steps[i]);
    return good;
}

static int write_by(int (*write)(EFI_FILE *, const menu_entry *), const char *path,
                    const menu_entry *entry) {
    EFI_FILE *file = create_file(path);
    if (file == NULL) return 0;
    int good = write(file, entry);
    return !EFI_ERROR(file->Close(file)) && good;
}

/* By the plan that was made last: it is made again, on a map that must be this one still, as the
   firmware ends. */
void write_handover(const menu_entry *entry) {
    if (!writes) return;
    int good = write_by(write_description, "bootcore/handover.toml", entry) &&
               write_by(write_image, "bootcore/handover.image", entry) &&
               write_by(write_memory, "bootcore/handover.memory", entry);
    print("\n    The handover %s.\n", good ? "was written to bootcore/" : "can't be written");
}

/* ---- changes */

/* Once: another map, the same with another key, or one in which the firmware uses what is the first part's; or a byte
   that was measured, before it is copied. Then the firmware has ended. */
void change(const char *when) {
    if (changed == NULL || !is_word(changed, when)) return;
    changed = NULL;
    if (is_word(when, "byte")) {
        const move *each = last_moves() + 1; /* behind the head */
        while (each->from == 0) each++;
        *(uint8_t *)(UINTN)each->from ^= 1;
        return;
    }
    if (is_word(when, "used")) {
        take_pages_as(AllocateAddress, EfiBootServicesData, 1, boot.layout.places[0].address);
        return;
    }
    void *free = take_low_pages(1);
    give_back(taken_count - 1);
    if (!is_word(when, "key")) take_pages_as(AllocateAddress, EfiReservedMemoryType, 1, (UINTN)free);
}
