#!/usr/bin/env bash
# Writes a Linux kernel's file, a bzImage, with a payload of so many bytes. Needs coreutils alone.
#
#   make_bzimage.sh FILE BYTES
#
# One sector of setup stands behind the boot sector. The setup header is of version 2.12 and ends at 0x268; the kernel may lie
# at multiples of 2 MiB, prefers 16 MiB, and needs twice its payload there; its initial ramdisk lies below 2 GiB.
set -eu
if [ "${1:-}" = --help ]; then
    sed -n '2,/^[^#]/s/^# \{0,1\}//p' "$0"
    exit 0
fi

file=$1
bytes=$(($2))

# shellcheck source-path=SCRIPTDIR source=little_endian.sh
source "$(dirname "${BASH_SOURCE[0]}")/little_endian.sh"

# From 0x1f1 on: setup_sects, .. vid_mode, root_dev, boot_flag, jump, HdrS, version, .. loadflags, .. initrd_addr_max,
# kernel_alignment, relocatable_kernel and min_alignment, xloadflags, cmdline_size, .. pref_address, init_size.
setup_header() {
    printf '\x01'
    zeros 12
    half 0xAA55 0x66EB
    printf 'HdrS'
    half 0x020C
    zeros 9
    printf '\x01'
    zeros 26
    word 0x7FFFFFFF 0x200000
    half 1 0
    word 255
    zeros 28
    word 0x1000000 0 $((2 * bytes))
}

{
    zeros $((0x1F1))
    setup_header
    zeros $((1024 - 0x264))
    # Numbers, so that no two pieces are the same: one that is misplaced shows in the image.
    seq 10000000 99999999 | head -c "$bytes"
} > "$file"
