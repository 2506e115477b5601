#!/usr/bin/env bash
# Writes an ELF32 kernel with a Multiboot2 header. Needs coreutils alone.
#
#   make_kernel.sh FILE SEGMENTS BYTES
#
# The file has SEGMENTS program headers of BYTES bytes each, a multiple of 4096, from offset 0x1000 on; each
# segment has 1 MiB of zeros behind its bytes, and the first one lies at 0x200000. The Multiboot2 header stands
# behind the program headers.
set -eu
if [ "${1:-}" = --help ]; then
    sed -n '2,/^[^#]/s/^# \{0,1\}//p' "$0"
    exit 0
fi

file=$1
segments=$2
bytes=$(($3))

base=0x200000
bss=0x100000

# shellcheck source-path=SCRIPTDIR source=little_endian.sh
source "$(dirname "${BASH_SOURCE[0]}")/little_endian.sh"

elf_header() {
    printf '\x7fELF\x01\x01\x01'
    zeros 9
    half 2 3
    word 1 $((base + 16)) 52 0 0
    half 52 32 "$segments" 0 0 0
}

program_headers() {
    local i address
    for ((i = 0; i < segments; i++)); do
        address=$((base + i * (bytes + bss)))
        word 1 $((0x1000 + i * bytes)) "$address" "$address" "$bytes" $((bytes + bss)) 5 0x1000
    done
}

multiboot2_header() {
    word 0xE85250D6 0 24 0x17ADAF12
    half 0 0
    word 8
}

ends=$((52 + 32 * segments))
place=$(((ends + 7) / 8 * 8))

{
    elf_header
    program_headers
    zeros $((place - ends))
    multiboot2_header
    zeros $((0x1000 - place - 24))
    # Numbers, so that no two pieces are the same: one that is misplaced shows in the image.
    seq 10000000 99999999 | head -c $((segments * bytes))
} > "$file"
