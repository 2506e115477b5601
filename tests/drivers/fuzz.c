/*
 * Machines, entries and files at random, by way of C. What a load does is compared with itself, with a preparation and with a plan:
 * - after DONE each part lies at usable addresses that are not avoided, parts ascend and don't meet, and each byte outside them is as
 *   before; after any other answer all of memory is;
 * - a preparation and a plan answer the same, and tell the same;
 * - the plan's steps, carried out over memory with other bytes, and over two pieces that meet anywhere, leave what the load leaves
 *   in the parts, and each other byte as before;
 * - the image of what is handed over is walked, and the walk sees what firmware tells;
 * - digests, at once and fed in two pieces a range, are those of this image and its parts, or end as the load does.
 *
 *     fuzz SECONDS SEED FILE..       changes the files, which are kernels, at random from this seed on
 *
 * With -DLIBFUZZER and clang's -fsanitize=fuzzer it is a target of libFuzzer, whose corpus may have kernels too. It ends by abort
 * when it finds something; then the input is in the file fuzz.found, and FILE alone with 0 seconds tries it again as it is.
 */
#define _XOPEN_SOURCE 700
#include "bootcore.h"
#include "sha256.h"
#include "told.h"

#include <inttypes.h>
#include <stdio.h>
#include <stdlib.h>
#include <string.h>
#include <time.h>

enum { MOST = 1 << 21, INPUT = 1 << 16, STEP_ROOM = 4096, OWN_ROOM = 1 << 19, HEAD = 96, MOST_KERNELS = 1024 };

static uint8_t memory[MOST], planned[MOST];
static bootcore_place places[BOOTCORE_MAX_PLACES], planned_places[BOOTCORE_MAX_PLACES];
static bootcore_step steps[STEP_ROOM];
static uint8_t own[OWN_ROOM];
static const uint8_t *input;
static size_t input_length;
static uint64_t counts[3]; /* done, refused, another answer */

static void found(const char *what) {
    FILE *file = fopen("fuzz.found", "wb");
    fprintf(stderr, "fuzz: %s\n", what);
    if (file) {
        fwrite(input, 1, input_length, file);
        fclose(file);
    }
    abort();
}

/* ---- what an input stands for: its first bytes are a machine and an entry, the rest is files */

static size_t at;

static uint64_t take(size_t count) {
    uint64_t number = 0;
    while (count-- > 0) {
        number = number << 8 | (at < HEAD && at < input_length ? input[at] : 0);
        at++;
    }
    return number;
}

static bootcore_region regions[6];
static bootcore_firmware firmware;
static bootcore_avoided avoided[4];
static bootcore_module modules[4];
static bootcore_machine machine;
static bootcore_entry entry;
static bootcore_bytes files[5];
static size_t file_count;

/* Bytes of the input from one place of it on, where it has them; the next bytes of its head say how many. */
static bootcore_bytes some(size_t from, size_t count_bytes) {
    bootcore_bytes bytes = {NULL, 0};
    size_t length = (size_t)take(count_bytes);
    if (from > input_length) {
        from = input_length;
    }
    bytes.bytes = input + from;
    bytes.length = length < input_length - from ? length : input_length - from;
    return bytes;
}

static bootcore_color color(void) {
    bootcore_color bits;
    bits.position = (uint8_t)(take(1) % 8);
    bits.size = (uint8_t)(take(1) % 9);
    return bits;
}

/* What firmware tells, nothing where the head has zeros. It lies above memory, so that most of it may be told. */
static void read_firmware(void) {
    static const uint8_t depths[] = {32, 24, 16, 15, 33};
    unsigned which = (unsigned)take(1);
    size_t i;
    memset(&firmware, 0, sizeof firmware);
    machine.firmware = which ? &firmware : NULL;
    if (which & 1) {
        firmware.screen.base = MOST + take(5);
        firmware.screen.pitch = 4096;
        firmware.screen.width = (uint32_t)(1024 - take(1) + take(1) / 8);
        firmware.screen.height = (uint32_t)(1 + take(2));
        firmware.screen.depth = depths[take(1) % sizeof depths];
        firmware.screen.red = color();
        firmware.screen.green = color();
        firmware.screen.blue = color();
    }
    if (which & 2) {
        firmware.rsdp = MOST + take(4);
    }
    if (which & 4) {
        firmware.efi.descriptor_size = (uint32_t)(40 + take(1) % 24);
        firmware.efi.descriptor_size -= firmware.efi.descriptor_size % 8;
        firmware.efi.map = some(HEAD + (size_t)take(1), 2);
        if (firmware.efi.map.length < firmware.efi.descriptor_size && input_length >= HEAD) { /* one descriptor, of the head */
            firmware.efi.map.bytes = input;
            firmware.efi.map.length = firmware.efi.descriptor_size;
        }
        firmware.efi.map.length -= firmware.efi.map.length % firmware.efi.descriptor_size;
        firmware.efi.map_address = MOST + 8 * take(2);
        firmware.efi.system_table = 1 + take(4);
        firmware.efi.bits = take(1) % 2 ? 32 : 64;
        firmware.efi.descriptor_version = 1;
        firmware.efi.secure_boot = (uint32_t)(take(1) % 4);
    }
    if (which & 8) {
        firmware.smbios.tables = some(HEAD + (size_t)take(1), 2);
        firmware.smbios.major = (uint8_t)take(1);
        firmware.smbios.minor = (uint8_t)take(1);
    }
    if (which & 16) {
        firmware.avoided = avoided;
        firmware.avoided_count = 1 + take(1) % 4;
        for (i = 0; i < firmware.avoided_count; i++) {
            avoided[i].base = take(3);
            avoided[i].length = take(2);
        }
    }
}

static void read_input(void) {
    size_t i, from;
    at = 0;
    memset(&machine, 0, sizeof machine);
    memset(&entry, 0, sizeof entry);
    entry.protocol = (uint32_t)(1 + take(1) % 3);
    entry.protocol += take(1) == 255;
    machine.size = MOST - 4096 * (take(1) % 4);
    machine.regions = regions;
    regions[0].base = 0;
    regions[0].length = MOST;
    regions[0].kind = BOOTCORE_KIND_USABLE;
    machine.region_count = 1 + take(1) % 6;
    for (i = 1; i < 6; i++) {
        size_t shift = (size_t)take(1) % 22;
        regions[i].base = take(3) >> (shift % 4);
        regions[i].length = take(2) << (shift / 4);
        regions[i].kind = (uint32_t)(1 + take(1) % 5 + (shift == 21));
        regions[i].reserved = 0;
    }
    entry.line = some(HEAD, take(1) % 8 == 7 ? 2 : 1);
    entry.module_count = take(1) % 5;
    for (i = 0; i < 4; i++) {
        from = (size_t)take(1);
        modules[i].file = some(HEAD + from * 64, 2);
        modules[i].line = some(from, 1);
    }
    entry.modules = modules;
    entry.initrd = modules[0].file;
    entry.rsdp_old = some(0, 1);
    entry.rsdp_new = some(1, 1);
    entry.kernel.bytes = input + (input_length < HEAD ? input_length : HEAD);
    entry.kernel.length = input_length < HEAD ? 0 : input_length - HEAD;
    files[0] = entry.kernel;
    file_count = 1;
    for (i = 0; i < 4 && (entry.protocol == BOOTCORE_PROTOCOL_MULTIBOOT2 ? i < entry.module_count : i < 1); i++) {
        files[file_count++] = modules[i].file;
    }
    read_firmware();
}

/* ---- what is wanted of a load */

static uint32_t kind_of(uint64_t address) {
    uint32_t kind = 0;
    size_t i;
    for (i = 0; i < machine.region_count; i++) {
        if (regions[i].base <= address && address - regions[i].base < regions[i].length && regions[i].kind > kind) {
            kind = regions[i].kind;
        }
    }
    return kind;
}

static int is_avoided(const bootcore_place *place) {
    size_t i;
    for (i = 0; i < firmware.avoided_count; i++) {
        uint64_t begins = avoided[i].base, ends = begins + avoided[i].length;
        if (begins < ends && begins < place->address + place->length && place->address < ends) {
            return 1;
        }
    }
    return 0;
}

/* A kind changes only where a region begins or ends. */
static int is_usable(const bootcore_place *place) {
    uint64_t end = place->address + place->length;
    size_t i;
    if (place->address < 4096 || end < place->address || end > machine.size || kind_of(place->address) != BOOTCORE_KIND_USABLE) {
        return 0;
    }
    for (i = 0; i < machine.region_count; i++) {
        uint64_t begins = regions[i].base, ends = regions[i].base + regions[i].length;
        if ((place->address < begins && begins < end && kind_of(begins) != BOOTCORE_KIND_USABLE) ||
            (place->address < ends && ends < end && kind_of(ends) != BOOTCORE_KIND_USABLE)) {
            return 0;
        }
    }
    return 1;
}

/* Each byte from one address up to another is as before. */
static int is_filled(const uint8_t *bytes, uint64_t from, uint64_t to, uint8_t fill) {
    return from == to || (bytes[from] == fill && !memcmp(bytes + from, bytes + from + 1, to - from - 1));
}

static int is_filled_outside(const uint8_t *bytes, const bootcore_place *of, size_t count, uint8_t fill) {
    uint64_t from = 0;
    size_t i;
    for (i = 0; i < count; i++) {
        if (of[i].address < from || !is_filled(bytes, from, of[i].address, fill)) {
            return 0;
        }
        from = of[i].address + of[i].length;
    }
    return is_filled(bytes, from, MOST, fill);
}

static void check_places(const bootcore_outcome *outcome) {
    uint64_t end = 0;
    size_t i;
    if (outcome->handoff.place_count > BOOTCORE_MAX_PLACES || outcome->handoff.protocol != entry.protocol || outcome->refusal_count) {
        found("the handoff is none of the entry");
    }
    for (i = 0; i < outcome->handoff.place_count; i++) {
        if (places[i].address < end || !is_usable(&places[i]) || is_avoided(&places[i])) {
            found("a part is not usable, or is avoided, or meets another");
        }
        end = places[i].address + places[i].length;
    }
}

/* ---- comparisons */

static void compare_carried_out(const bootcore_layout *layout, const bootcore_memory *pieces, size_t count, uint8_t fill) {
    size_t i;
    memset(planned, fill, MOST);
    if (bootcore_carry_out(layout, files, file_count, pieces, count) != BOOTCORE_STATUS_DONE) {
        found("a plan is not carried out");
    }
    for (i = 0; i < layout->handoff.place_count; i++) {
        if (memcmp(planned + places[i].address, memory + places[i].address, places[i].length)) {
            found("a plan writes another part than a load");
        }
    }
    if (!is_filled_outside(planned, places, layout->handoff.place_count, fill)) {
        found("a plan writes outside the parts");
    }
}

static void compare_plan(uint32_t status, const bootcore_outcome *outcome, const bootcore_refusal *refusal) {
    bootcore_entry bare = entry;
    bootcore_module lengths[4];
    bootcore_layout layout;
    bootcore_memory pieces[2] = {{0, NULL, 0, 0}, {0, NULL, 0, 0}};
    size_t i, cut;
    uint32_t came;
    memset(&layout, 0, sizeof layout);
    for (i = 0; i < 4; i++) {
        lengths[i] = modules[i];
        lengths[i].file.bytes = NULL;
    }
    bare.modules = lengths;
    bare.initrd.bytes = bare.initrd.length ? NULL : bare.initrd.bytes;
    layout.places = planned_places;
    layout.place_room = BOOTCORE_MAX_PLACES;
    layout.steps = steps;
    layout.step_room = STEP_ROOM;
    layout.own = own;
    layout.own_room = OWN_ROOM;
    came = bootcore_plan(&machine, &bare, &layout);
    if (came != status) {
        found("a plan answers otherwise than a load");
    }
    if (status == BOOTCORE_STATUS_REFUSED && memcmp(&layout.refusal, refusal, sizeof *refusal)) {
        found("a plan has another refusal");
    }
    if (status != BOOTCORE_STATUS_DONE) {
        return;
    }
    if (memcmp(&layout.handoff, &outcome->handoff, sizeof layout.handoff) ||
        memcmp(places, planned_places, layout.handoff.place_count * sizeof *places)) {
        found("a plan tells another handoff");
    }
    pieces[0].address = 0;
    pieces[0].bytes = planned;
    pieces[0].length = MOST;
    compare_carried_out(&layout, pieces, 1, 0x5A);
    cut = (size_t)take(3) % MOST;
    pieces[1] = pieces[0];
    pieces[1].length = cut;
    pieces[0].address = cut;
    pieces[0].bytes = planned + cut;
    pieces[0].length = MOST - cut;
    compare_carried_out(&layout, pieces, 2, 0xC3);
}

static uint8_t image[MOST + BOOTCORE_MAX_IMAGE_HEAD];

static size_t make_image(const bootcore_outcome *outcome) {
    size_t length = bootcore_image_head(&outcome->handoff, places, image, sizeof image), i;
    for (i = 0; i < outcome->handoff.place_count; i++) {
        memcpy(image + length, memory + places[i].address, places[i].length);
        length += places[i].length;
    }
    return length;
}

static void digest_of(const uint8_t *of, size_t length, uint8_t sha256[32]) {
    sha256_state state;
    sha256_begin(&state);
    sha256_add(&state, of, length);
    sha256_end(&state, sha256);
}

/* What digests are told is right for this image. */
static void check_told(const bootcore_digests *digests, const bootcore_part_digest *parts, size_t length,
                       const bootcore_outcome *outcome) {
    uint8_t wanted[32];
    size_t at_part = digests->head_length, i;
    digest_of(image, length, wanted);
    if (digests->image_length != length || memcmp(digests->image_sha256, wanted, 32) ||
        at_part != bootcore_image_head(&outcome->handoff, places, NULL, 0) || digests->part_count != outcome->handoff.place_count) {
        found("digests are of another image");
    }
    digest_of(image, at_part, wanted);
    if (memcmp(digests->head_sha256, wanted, 32)) {
        found("the head has another digest");
    }
    for (i = 0; i < digests->part_count; i++) {
        digest_of(image + at_part, places[i].length, wanted);
        if (memcmp(&parts[i].place, &places[i], sizeof *places) || memcmp(parts[i].sha256, wanted, 32)) {
            found("a part has another digest");
        }
        at_part += places[i].length;
    }
}

static void check_digests(uint32_t status, const bootcore_outcome *outcome, const bootcore_refusal *refusal) {
    static bootcore_part_digest parts[BOOTCORE_MAX_PLACES];
    bootcore_digests digests;
    bootcore_digest digest = {NULL};
    bootcore_file_range range;
    bootcore_refusal at_once = {0, 0, 0, 0, 0}, made = {0, 0, 0, 0, 0};
    size_t length, cut = (size_t)take(2);
    if (bootcore_digest_entry(&machine, &entry, &digests, parts, BOOTCORE_MAX_PLACES, &at_once) != status ||
        bootcore_digest_make(&digest, &machine, &entry, &made) != status || memcmp(&at_once, refusal, sizeof at_once) ||
        memcmp(&made, refusal, sizeof made)) {
        found("digests end otherwise than a load");
    }
    if (status != BOOTCORE_STATUS_DONE) {
        return;
    }
    length = make_image(outcome);
    check_told(&digests, parts, length, outcome);
    while (bootcore_digest_wanted(&digest, &range)) {
        const uint8_t *of = (const uint8_t *)files[range.file].bytes + range.offset;
        size_t first = cut % (range.length + 1);
        if (range.offset + range.length > files[range.file].length || bootcore_digest_feed(&digest, of, first) != BOOTCORE_STATUS_DONE ||
            bootcore_digest_feed(&digest, of + first, range.length - first) != BOOTCORE_STATUS_DONE) {
            found("a digest is not fed");
        }
    }
    memset(parts, 0, sizeof parts);
    if (bootcore_digest_told(&digest, &digests, parts, BOOTCORE_MAX_PLACES) != BOOTCORE_STATUS_DONE) {
        found("a digest tells nothing");
    }
    check_told(&digests, parts, length, outcome);
    bootcore_digest_free(&digest);
}

static bootcore_place read_places[BOOTCORE_MAX_PLACES];

/* The head of the image is read back as it was told. */
static void check_head(const bootcore_outcome *outcome, size_t length) {
    size_t of_head = bootcore_image_head(&outcome->handoff, places, NULL, 0), count = outcome->handoff.place_count;
    bootcore_handoff handoff;
    bootcore_refusal fault;
    if (bootcore_image_head_read(image, of_head, &handoff, read_places, count, &fault) != BOOTCORE_STATUS_DONE) {
        found("a head is not read");
    }
    handoff.entry = outcome->handoff.entry;
    if (memcmp(&handoff, &outcome->handoff, sizeof handoff) || memcmp(read_places, places, count * sizeof *places)) {
        found("a head is read as another");
    }
    memset(&handoff, 0, sizeof handoff);
    if (bootcore_image_head_read(image, length, &handoff, read_places, count - 1, &fault) != BOOTCORE_STATUS_SMALL_ROOM ||
        handoff.place_count != count) {
        found("a head does not say how many places it has");
    }
    if (bootcore_image_head_read(image, (size_t)take(2) % of_head, &handoff, read_places, count, &fault) != BOOTCORE_STATUS_REFUSED ||
        fault.number != 75) {
        found("a head that is cut is read");
    }
}

/* The head of an image of which a walk answers this has the same first fault, if it has one. */
static void check_changed_head(size_t length, uint32_t walked, const bootcore_refusal *of_walk) {
    bool is_bad = walked == BOOTCORE_STATUS_REFUSED && of_walk->number < 75;
    bool is_cut = walked == BOOTCORE_STATUS_REFUSED && of_walk->number == 75;
    bootcore_handoff handoff;
    bootcore_refusal fault;
    uint32_t status = bootcore_image_head_read(image, length, &handoff, read_places, BOOTCORE_MAX_PLACES, &fault);
    if (is_bad ? status != BOOTCORE_STATUS_REFUSED || memcmp(&fault, of_walk, sizeof fault)
               : status != BOOTCORE_STATUS_DONE && !(is_cut && status == BOOTCORE_STATUS_REFUSED && fault.number == 75)) {
        found("a changed head has another fault than its image");
    }
}

static void check_walk(const bootcore_outcome *outcome) {
    static bootcore_seen_part parts[BOOTCORE_MAX_PLACES];
    static bootcore_seen_module seen_modules[4];
    static bootcore_region runs[16];
    static uint8_t text[4 * INPUT];
    static bootcore_seen_firmware told;
    const bootcore_seen_arrays arrays = {parts, BOOTCORE_MAX_PLACES, seen_modules, 4,    runs,     16,
                                         text,  sizeof text,         &told,        {0, 0, 0}};
    size_t length = make_image(outcome);
    bootcore_seen seen;
    bootcore_refusal fault;
    uint32_t status;
    if (bootcore_walk(image, length, &seen, &fault) != BOOTCORE_STATUS_DONE || seen.entry_address != outcome->handoff.registers.rip) {
        found("a walk does not see what is handed over");
    }
    if (bootcore_walk_all(image, length, &seen, &arrays, &fault) != BOOTCORE_STATUS_DONE ||
        !is_firmware_seen(machine.firmware, &seen, &told, text)) {
        found("a walk does not see what firmware tells");
    }
    check_head(outcome, length);
    /* and with a byte changed it ends, whatever it answers */
    if (length) {
        image[(size_t)take(4) % length] ^= (uint8_t)(1 + take(1));
        status = bootcore_walk(image, length, &seen, &fault);
        if (status > BOOTCORE_STATUS_NO_MEMORY) {
            found("a walk of changed bytes ends in a misuse");
        }
        check_changed_head(length, status, &fault);
    }
}

static void try_input(const uint8_t *bytes, size_t length) {
    static bootcore_refusal refusal, prepared_refusal;
    bootcore_outcome outcome, prepared;
    bootcore_memory whole = {0, NULL, 0, 0};
    uint32_t status;
    input = bytes;
    input_length = length;
    read_input();
    memset(&outcome, 0, sizeof outcome);
    memset(&refusal, 0, sizeof refusal);
    memset(&prepared_refusal, 0, sizeof prepared_refusal);
    outcome.places = places;
    outcome.place_room = BOOTCORE_MAX_PLACES;
    outcome.refusals = &refusal;
    outcome.refusal_room = 1;
    prepared = outcome;
    prepared.places = planned_places;
    prepared.refusals = &prepared_refusal;
    whole.address = 0;
    whole.bytes = memory;
    whole.length = MOST;
    memset(memory, 0xA5, MOST);
    status = bootcore_load(&whole, &machine, &entry, &outcome);
    counts[status < 2 ? status : 2]++;
    if (status == BOOTCORE_STATUS_DONE) {
        check_places(&outcome);
    }
    if (!is_filled_outside(memory, places, status == BOOTCORE_STATUS_DONE ? outcome.handoff.place_count : 0, 0xA5)) {
        found("a load writes outside the parts");
    }
    if (bootcore_prepare(&machine, &entry, &prepared) != status || memcmp(&refusal, &prepared_refusal, sizeof refusal) ||
        memcmp(&outcome.handoff, &prepared.handoff, sizeof outcome.handoff)) {
        found("a preparation tells otherwise");
    }
    compare_plan(status, &outcome, &refusal);
    check_digests(status, &outcome, &refusal);
    if (status == BOOTCORE_STATUS_DONE) {
        check_walk(&outcome);
    }
}

#ifdef LIBFUZZER

int LLVMFuzzerTestOneInput(const uint8_t *bytes, size_t length);
int LLVMFuzzerTestOneInput(const uint8_t *bytes, size_t length) {
    try_input(bytes, length);
    return 0;
}

#else

/* ---- inputs at random: a head, and one of the kernels with some of its bytes changed */

#include "random.h"

static uint8_t changed[HEAD + INPUT];

/* Most heads are plain: what is rare should not hide the rest. */
static void make_head(void) {
    uint64_t plain = random_number() % 4;
    size_t i;
    for (i = 0; i < HEAD; i++) {
        changed[i] = (uint8_t)(plain && random_number() % 8 ? 0 : random_number());
    }
    changed[0] = (uint8_t)random_number();
}

static size_t make_input(const bootcore_bytes *kernel) {
    size_t length = kernel->length, changes = (size_t)(random_number() % 6), i;
    make_head();
    memcpy(changed + HEAD, kernel->bytes, length);
    for (i = 0; i < changes && length; i++) {
        /* of a kernel its head is read most */
        size_t place = (size_t)(random_number() % (random_number() % 4 ? (length < 1024 ? length : 1024) : length));
        uint8_t *byte = changed + HEAD + place;
        switch (random_number() % 5) {
        case 0: *byte = (uint8_t)random_number(); break;
        case 1: *byte ^= (uint8_t)(1 << random_number() % 8); break;
        case 2: *byte = random_number() % 2 ? 0xFF : 0; break;
        case 3: *byte = (uint8_t)(*byte + random_number() % 9 - 4); break;
        default:
            if (random_number() % 4 == 0) {
                length = place + 1;
            }
        }
    }
    return HEAD + length;
}

static bootcore_bytes read_file(const char *path) {
    bootcore_bytes file = {NULL, 0};
    uint8_t *bytes = malloc(INPUT);
    FILE *from = fopen(path, "rb");
    if (!from || !bytes) {
        fprintf(stderr, "fuzz: %s can't be read\n", path);
        exit(2);
    }
    file.length = fread(bytes, 1, INPUT, from);
    file.bytes = bytes;
    fclose(from);
    return file;
}

int main(int argc, char **argv) {
    static bootcore_bytes kernels[MOST_KERNELS];
    time_t end;
    size_t count = 0;
    int i;
    if (argc < 4 || argc > 3 + MOST_KERNELS) {
        fputs("fuzz SECONDS SEED FILE..\n", stderr);
        return 64;
    }
    for (i = 3; i < argc; i++) {
        kernels[count++] = read_file(argv[i]);
    }
    if (!strcmp(argv[1], "0")) {
        try_input(kernels[0].bytes, kernels[0].length);
        return 0;
    }
    random_state = strtoull(argv[2], NULL, 10) | 1;
    end = time(NULL) + (time_t)strtoull(argv[1], NULL, 10);
    while (time(NULL) < end) {
        try_input(changed, make_input(&kernels[random_number() % count]));
    }
    printf("%" PRIu64 " inputs from seed %s: %" PRIu64 " loaded, %" PRIu64 " refused, %" PRIu64 " misused; none wrong\n",
           counts[0] + counts[1] + counts[2], argv[2], counts[0], counts[1], counts[2]);
    return 0;
}

#endif
