/* A menu, whose files come piece by piece. */
#include "given.h"

BOOTCORE_CALL
uint32_t bootcore_session_make(bootcore_session *session, const bootcore_machine *machine,
                               const bootcore_menu *menu) {
    bootcore_given_machine given_machine;
    bootcore_crossing_entry *entries;
    uint32_t status;
    if (!session || bootcore_machine_has_null(machine) ||
        bootcore_menu_has_null(menu, BOOTCORE_READS_NONE)) {
        return BOOTCORE_STATUS_NULL;
    }
    if (bootcore_machine_has_reserved(machine) || bootcore_menu_has_reserved(menu)) {
        return BOOTCORE_STATUS_BAD_RESERVED;
    }
    entries = bootcore_menu_crossing(menu, BOOTCORE_READS_NONE);
    if (!entries) {
        return BOOTCORE_STATUS_NO_MEMORY;
    }
    bootcore_machine_crossing(machine, &given_machine);
    status = bootcore_session_make_arrays(session, &given_machine.machine, entries,
                                          bootcore_count_entries(menu), menu->first,
                                          bootcore_given_array(menu->fallbacks),
                                          menu->fallback_count);
    rattle_dealloc(entries);
    return status;
}

/* ---- steps */

/* Memory that begins where no machine has an address; without a session the core would say first that
 * there is none. */
static bool is_high(const bootcore_memory *memory) {
    return memory->address > UINT32_MAX;
}

BOOTCORE_CALL
uint32_t bootcore_session_start(bootcore_session *session, const bootcore_memory *memory) {
    bootcore_given_memory given;
    if (!session || bootcore_memory_has_null(memory)) {
        return BOOTCORE_STATUS_NULL;
    }
    if (bootcore_memory_has_reserved(memory)) {
        return BOOTCORE_STATUS_BAD_RESERVED;
    }
    if (is_high(memory)) {
        return BOOTCORE_STATUS_BAD_MEMORY;
    }
    given = bootcore_memory_crossing(memory);
    return bootcore_session_start_array(session, given.bytes, given.length, given.base);
}

/* The first piece of a request, with this length. */
static bootcore_crossing_request first_piece(const bootcore_request *request, uint32_t length) {
    bootcore_crossing_request first;
    first.entry = request->entry;
    first.attempt = request->attempt;
    first.place = request->file;
    first.piece = request->piece;
    first.length = length;
    return first;
}

BOOTCORE_CALL
uint32_t bootcore_session_pieces(bootcore_session *session, const bootcore_memory *memory,
                                 const bootcore_request *request, const void *bytes,
                                 size_t length) {
    bootcore_given_memory given;
    bootcore_crossing_request piece;
    const uint8_t *at;
    uint32_t status;
    if (!session || bootcore_memory_has_null(memory) || !request ||
        bootcore_is_null(bytes, length)) {
        return BOOTCORE_STATUS_NULL;
    }
    if (bootcore_memory_has_reserved(memory)) {
        return BOOTCORE_STATUS_BAD_RESERVED;
    }
    if (is_high(memory)) {
        return BOOTCORE_STATUS_BAD_MEMORY;
    }
    given = bootcore_memory_crossing(memory);
    at = bootcore_given_array(bytes);
    piece = first_piece(request, 0);
    for (;;) {
        piece.length = length < BOOTCORE_PIECE ? (uint32_t)length : BOOTCORE_PIECE;
        status = bootcore_session_piece_arrays(session, given.bytes, given.length, given.base,
                                               &piece, at, piece.length);
        length -= piece.length;
        /* behind the last piece that has an index there is none */
        if (status != BOOTCORE_STATUS_WAITING || length == 0 || piece.piece == UINT32_MAX) {
            return status;
        }
        at += piece.length;
        piece.piece++;
    }
}

BOOTCORE_CALL
uint32_t bootcore_session_fault(bootcore_session *session, const bootcore_memory *memory,
                                const bootcore_request *request) {
    bootcore_given_memory given;
    bootcore_crossing_request piece;
    if (!session || bootcore_memory_has_null(memory) || !request) {
        return BOOTCORE_STATUS_NULL;
    }
    if (bootcore_memory_has_reserved(memory)) {
        return BOOTCORE_STATUS_BAD_RESERVED;
    }
    if (is_high(memory)) {
        return BOOTCORE_STATUS_BAD_MEMORY;
    }
    given = bootcore_memory_crossing(memory);
    piece = first_piece(request, BOOTCORE_PIECE);
    return bootcore_session_fault_array(session, given.bytes, given.length, given.base, &piece);
}

/* ---- what is awaited */

/* Tells a run that begins with this piece, as long as the same file's next piece is awaited and there
 * is room for it. */
static void tell_run(bootcore_session *session, size_t most, bootcore_crossing_request last,
                     bootcore_request *request) {
    bootcore_crossing_request next = last;
    request->entry = last.entry;
    request->attempt = last.attempt;
    request->file = last.place;
    request->piece = last.piece;
    request->length = last.length;
    request->reserved = 0;
    while (request->length < most && bootcore_session_missing_after_record(session, &next) &&
           next.attempt == last.attempt && next.place == last.place &&
           next.piece - last.piece == 1 && next.length <= most - request->length) {
        request->length += next.length;
        last = next;
    }
}

BOOTCORE_CALL
bool bootcore_session_missing(const bootcore_session *session, size_t most,
                              bootcore_request *request) {
    bootcore_session copy;
    bootcore_crossing_request first = {0, 0, 0, 0, 0};
    if (!session || !request) {
        return false;
    }
    /* the core gives the pointer back as it is: the clause `place` of each export of bootcore_c
     * that only looks, and of c_handle's calls below it */
    copy = *session;
    if (!bootcore_session_missing_record(&copy, &first)) {
        return false;
    }
    tell_run(&copy, most, first, request);
    return true;
}

BOOTCORE_CALL
bool bootcore_session_missing_after(const bootcore_session *session, size_t most,
                                    bootcore_request *request) {
    bootcore_session copy;
    bootcore_crossing_request first = {0, 0, 0, 0, 0}, piece;
    uint64_t behind;
    if (!session || !request) {
        return false;
    }
    copy = *session;
    if (!bootcore_session_missing_record(&copy, &first)) {
        return false;
    }
    /* a request of another attempt is behind none of this one's */
    if (request->attempt != first.attempt) {
        tell_run(&copy, most, first, request);
        return true;
    }
    piece = first_piece(request, 0);
    behind = request->length ? (request->length - 1) / BOOTCORE_PIECE : 0;
    piece.piece = behind < UINT32_MAX - piece.piece ? piece.piece + (uint32_t)behind : UINT32_MAX;
    if (!bootcore_session_missing_after_record(&copy, &piece)) {
        return false;
    }
    tell_run(&copy, most, piece, request);
    return true;
}

/* ---- the end */

BOOTCORE_CALL
uint32_t bootcore_session_outcome(const bootcore_session *session, bootcore_outcome *outcome) {
    bootcore_session copy;
    bootcore_refusal no_refusal;
    uint64_t count = 0;
    uint32_t status;
    if (!session || bootcore_outcome_has_null(outcome)) {
        return BOOTCORE_STATUS_NULL;
    }
    if (bootcore_outcome_has_reserved(outcome)) {
        return BOOTCORE_STATUS_BAD_RESERVED;
    }
    if (outcome->place_room < BOOTCORE_MAX_PLACES) {
        return BOOTCORE_STATUS_SMALL_ROOM;
    }
    copy = *session;
    status = bootcore_session_outcome_arrays(
        &copy, &outcome->handoff, outcome->places, outcome->place_room,
        outcome->refusal_room ? outcome->refusals : &no_refusal, outcome->refusal_room, &count);
    if (status == BOOTCORE_STATUS_DONE || status == BOOTCORE_STATUS_REFUSED) {
        outcome->refusal_count = (size_t)count;
    }
    return status;
}

BOOTCORE_CALL
void bootcore_session_free(bootcore_session *session) {
    if (session) {
        bootcore_session_free_kept(session);
    }
}
