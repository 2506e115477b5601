#!/usr/bin/env bash
# Microseconds of `bootcore boot` for each piece of a file, from 1,000 pieces of 4096 bytes to 250,000, which are nearly 1 GiB.
#
#   bench/pieces.sh [BOOTCORE [PIECES..]]
#
# A small Multiboot2 kernel with one module of so many pieces is booted, with the pieces in either order, and in either order
# again where the pool begins with the module's own addresses, so that each of its frames is moved before it is loaded. The time
# of the kernel alone is taken off. The time for a piece should not rise with their number, and the peak memory should be at most
# three times the files. Needs what run.sh needs; a folder under TMPDIR holds a module and an image, 2 GB at most.
# shellcheck source-path=SCRIPTDIR source=measure.sh
source "$(dirname "${BASH_SOURCE[0]}")/measure.sh"

bootcore=$(realpath -m "${1:-${BOOTCORE:-$here/../crates/bootcore/out/bootcore}}")
counts=("${@:2}")
if [ "$#" -lt 2 ]; then
    counts=(1000 10000 50000 250000)
fi
cd "$work"

# Describes a machine of 3 GiB whose pool begins at an address and has so many frames.
describe() {
    cat << TOML
size = 0xC0000000
fill = 0
pool = [$1, $(($1 + 4096 * $2))]

[[region]]
base = 0x1000
length = 0xBFFFF000
kind = "usable"

[[entry]]
title = "bench"
protocol = "multiboot2"
kernel = "kernel.elf"
line = "bench"

[[entry.module]]
file = "module"
TOML
}

# Prints the row of a way to boot, of a number of pieces.
measure() {
    local name=$1 pieces=$2 description=$3 order=$4 each times=-
    weigh_command "$bootcore" boot "$description" --out image --order "$order"
    time_best "$bootcore" boot "$description" --out image --order "$order"
    each=$(awk -v t=$((least - alone)) -v n="$pieces" 'BEGIN { printf "%.2f", t / n }')
    if [ "$kib" != - ]; then
        times=$(ratio $((kib << 10)) $(($(cat kernel.elf module | wc -c))))
    fi
    printf '%-17s %9s %9s %11s   %s\n' "$name" "$pieces" \
        "$(awk -v a="$least" 'BEGIN { printf "%.3f", a / 1e6 }')" "$each" "$times"
}

[ -x "$bootcore" ] || fail "no bootcore at $bootcore"
"$here/make_kernel.sh" kernel.elf 1 0x10000
: > module
describe 0x60000000 32 > beside.toml
time_best "$bootcore" boot beside.toml --out image --order forward
alone=$least

printf '%-17s %9s %9s %11s   %s\n' order pieces seconds 'us / piece' 'memory / files'
for pieces in "${counts[@]}"; do
    numbers $((4096 * pieces)) > module
    describe 0x60000000 $((pieces + 32)) > beside.toml
    # the kernel ends at 0x310000, and the module stands behind it
    describe 0x310000 $((2 * pieces + 32)) > over.toml
    for order in forward reverse; do
        measure "$order" "$pieces" beside.toml "$order"
        measure "$order, moved" "$pieces" over.toml "$order"
    done
done
