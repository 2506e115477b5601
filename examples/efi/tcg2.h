/* The firmware's measuring: EFI_TCG2_PROTOCOL and its event log, as the TCG EFI Protocol
   Specification for TPM 2.0 has them (sections 6 and 7). The names are our own, and what is not
   called is no more than its place. */
#ifndef TCG2_H
#define TCG2_H

#include <efi.h>

#define TCG2_PROTOCOL \
    {0x607f766c, 0x7455, 0x42be, {0x93, 0x0b, 0xe4, 0xd7, 0x6d, 0xb2, 0x72, 0x0f}}
/* Of the firmware's table that has what was logged since the log was asked for. */
#define TCG2_FINAL_EVENTS \
    {0x1e2ed096, 0x30e2, 0x4254, {0xbd, 0x89, 0x86, 0x3b, 0xbe, 0xf8, 0x23, 0x25}}

enum {
    agile_log = 2, /* the log's form with a digest for each bank */
    tag_event = 0x06, /* EV_EVENT_TAG: its data are a tcg2_tag, and a content */
    boot_event = 0x0d /* EV_IPL: the code and data that a boot loader loads */
};

typedef struct {
    UINT8 size; /* of the struct as the caller knows it */
    UINT8 structure_version[2], protocol_version[2];
    UINT32 hashes, logs;
    BOOLEAN is_present;
    UINT16 longest_command, longest_response;
    UINT32 maker, bank_count, active_banks;
} tcg2_capability;

typedef struct __attribute__((packed)) {
    UINT32 size; /* of head and data */
    UINT32 head_size; /* from here on */
    UINT16 head_version;
    UINT32 pcr, type;
} tcg2_event; /* its data follow */

typedef struct __attribute__((packed)) {
    UINT32 id, size;
} tcg2_tag; /* TCG_PCClientTaggedEvent: its content follows, of this size */

typedef struct tcg2 tcg2;
struct tcg2 {
    EFI_STATUS(EFIAPI *GetCapability)(tcg2 *, tcg2_capability *);
    EFI_STATUS(EFIAPI *GetEventLog)(tcg2 *, UINT32 form, UINT64 *first, UINT64 *last,
                                    BOOLEAN *is_cut);
    EFI_STATUS(EFIAPI *HashLogExtendEvent)(tcg2 *, UINT64 flags, UINT64 address, UINT64 length,
                                           tcg2_event *);
    void *SubmitCommand, *GetActivePcrBanks, *SetActivePcrBanks, *GetResultOfSetActivePcrBanks;
};

extern tcg2 *tpm; /* NULL if there is none */
extern int has_agile_log; /* whether the firmware says so, or says nothing */

#endif
