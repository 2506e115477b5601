#!/usr/bin/env bash
# Seconds and peak memory of `bootcore boot` where entries of 64 MiB are refused at their last piece before one is booted: 0, 1,
# 8 and 31 of them. Each refusal is for the kernel's class, byte 4 of its file, which is read once all pieces came. The time should
# rise by the same for each refusal, and the memory not at all after the first.
#
#   bench/fallbacks.sh [BOOTCORE [REFUSALS..]]
#
# The program under test is the first argument, else the variable BOOTCORE, else crates/bootcore/out/bootcore. Needs what run.sh
# needs but rustc; a folder under TMPDIR holds two files and an image of 64 MiB.
# shellcheck source-path=SCRIPTDIR source=measure.sh
source "$(dirname "${BASH_SOURCE[0]}")/measure.sh"

bootcore=$(realpath -m "${1:-${BOOTCORE:-$here/../crates/bootcore/out/bootcore}}")
counts=("${@:2}")
if [ "$#" -lt 2 ]; then
    counts=(0 1 8 31)
fi
[ -x "$bootcore" ] || fail "no bootcore at $bootcore"
cd "$work"

"$here/make_kernel.sh" good.elf 1 $((64 << 20))
cp good.elf bad.elf
printf '\x03' | dd of=bad.elf bs=1 seek=4 conv=notrunc status=none

entry() {
    printf '\n[[entry]]\ntitle = "%s"\nprotocol = "multiboot2"\nkernel = "%s"\nline = "bench"\n' "$1" "$2"
}

# Describes a menu in which so many entries are refused before the last one.
describe() {
    local i
    echo 'size = 0x20000000'
    echo 'pool = [0x10000000, 0x15000000]'
    echo "fallback = [$(seq -s ', ' 1 "$1")]"
    printf '\n[[region]]\nbase = 0x1000\nlength = 0x1FFFF000\nkind = "usable"\n'
    for ((i = 0; i < $1; i++)); do
        entry "bad $i" bad.elf
    done
    entry good good.elf
}

for count in "${counts[@]}"; do
    describe "$count" > menu.toml
    boot=("$bootcore" boot menu.toml --out image)
    weigh_command "${boot[@]}"
    [ "$(tail -n 1 said)" = "booted $count good" ] || fail "bootcore said: $(cat said)"
    [ "$(grep -c '^refused [0-9]* 12$' said)" = "$count" ] || fail "bootcore said: $(cat said)"
    time_best "${boot[@]}"
    echo "$count refused: $(ratio "$least" 1000000) s, $kib KiB"
done
