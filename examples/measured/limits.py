"""What a forger may cost the checker: an input above one of these is refused, and a program that takes longer is ended."""

LOG_BYTES = 8 << 20  # of a log; firmwares keep 64 KiB
EVENTS = 100_000  # some hundreds are measured in a boot
HANDOVERS = 16  # each one may cost a run of bootcore
DESCRIPTION_BYTES = 64 << 10  # the boot manager has no more room
TOLD_BYTES = 64 << 10  # of UEFI's map, of SMBIOS
SMALL_BYTES = 1 << 20  # of PCR values, a quote, a signature, a key
POLICY_BYTES = 16 << 20
FILE_BYTES = 1 << 30  # bootcore reads no larger file
HEADER_BYTES = 1 << 20  # of an application, with the list of its sections
OUTPUT_BYTES = 1 << 20  # of a program
BOOTCORE_SECONDS = 300
OPENSSL_SECONDS = 30
