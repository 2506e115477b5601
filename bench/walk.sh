#!/usr/bin/env bash
# Seconds and peak memory of `bootcore walk` and `bootcore convert` beside plain programs that do the same with the same
# image (plain_walker.rs, plain_converter.rs), in one run: the image of a Linux kernel of 10 MiB with an initial ramdisk of
# 200 MiB and a byte.
#
#   bench/walk.sh [BOOTCORE]
#
# The program under test is the argument, else the variable BOOTCORE, else crates/bootcore/out/bootcore. What is said and what is
# written is compared. Needs what run.sh needs, and rustc.
# shellcheck source-path=SCRIPTDIR source=measure.sh
source "$(dirname "${BASH_SOURCE[0]}")/measure.sh"

goal=1.2

bootcore=$(realpath -m "${1:-${BOOTCORE:-$here/../crates/bootcore/out/bootcore}}")
[ -x "$bootcore" ] || fail "no bootcore at $bootcore"
has_rustc || fail 'rustc is not at hand'
cd "$work"
build plain_walker
build plain_converter

"$here/make_bzimage.sh" vmlinuz $((10 << 20))
numbers $(((200 << 20) + 1)) > initrd.img
cat > linux.toml << 'TOML'
size = 0x20000000
pool = [0x2400000, 0x10000000]
[[region]]
base = 0x1000
length = 0x1FFFF000
kind = "usable"
[[entry]]
title = "bench"
protocol = "linux"
kernel = "vmlinuz"
line = "bench"
initrd = "initrd.img"
TOML
call "$bootcore" boot linux.toml --out image
rm vmlinuz initrd.img

image_kib=$(($(stat -c %s image) >> 10))
echo "image of $((image_kib >> 10)) MiB, best of $rounds"

# beside NAME WEIGHT: the commands `plain` and `proved` in turns, and the table of both; WEIGHT times the image is the
# goal for the memory
beside() {
    local round best_plain=999999999 best_proved=999999999 plain_kib proved_kib
    weigh_command "${plain[@]}"
    plain_kib=$kib
    cp said plain.said
    weigh_command "${proved[@]}"
    proved_kib=$kib
    cmp said plain.said || fail "the two of $1 say different things"
    for ((round = 1; round <= rounds; round++)); do
        time_command "${plain[@]}"
        best_plain=$((micros < best_plain ? micros : best_plain))
        time_command "${proved[@]}"
        best_proved=$((micros < best_proved ? micros : best_proved))
    done
    echo "$1"
    echo "plain    $(ratio "$best_plain" 1000000) s, $plain_kib KiB"
    echo "bootcore $(ratio "$best_proved" 1000000) s, $proved_kib KiB"
    echo "goal, at most $goal of the seconds of the plain program: $(ratio "$best_proved" "$best_plain")"
    if [ "$proved_kib" != - ]; then
        echo "goal, at most $2 times the image: $(ratio "$proved_kib" "$image_kib")"
    fi
}

plain=(./plain_walker image)
proved=("$bootcore" walk image)
beside walk 1.1

plain=(./plain_converter image plain.image)
proved=("$bootcore" convert image --out new.image)
beside convert 2
cmp plain.image new.image || fail 'the two convert to different images'
