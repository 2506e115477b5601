#!/usr/bin/env bash
# Seconds and peak memory of `bootcore boot` beside plain programs that do the same work, all in one run.
#
#   bench/run.sh [BOOTCORE [ENTRY..]]
#
# An ENTRY is one of these, and without one all are measured:
#
#   kernel    a Multiboot2 kernel of 60 MiB
#   modules   a small Multiboot2 kernel with 64 modules of 4 MiB
#   linux     a Linux kernel of 10 MiB with an initial ramdisk of 200 MiB and a byte
#   moved     the kernel of 60 MiB, where the pool begins with the kernel's own addresses: each of its frames is moved before
#             it is loaded
#
# The program under test is the argument, else the variable BOOTCORE, else crates/bootcore/out/bootcore; where it
# does not stand its row is left out. Needs bash 5, coreutils and awk; the plain programs need rustc, without which
# their rows are left out. Peak memory is told by GNU time, else seen in /proc, there of the program alone and not of
# one that it starts. Inputs and images lie in a new folder under TMPDIR, about 1.1 GB, which is removed at the end.
#
#   cp                a copy of the entry's files, by coreutils
#   plain copy        the same by a loop in Rust
#   plain, straight   a boot in plain Rust that loads the files from where they were read (plain.rs)
#   plain, pool       the same, by way of the frames of the machine's pool, of which those that a part meets are moved
#   bootcore          the program under test
#   bootcore, reverse the same, with the pieces of the files in reverse order
#
# The programs take turns, so that what else the machine does meets each of them; the best of all rounds counts. There
# are two tables for each entry: with fill 0 Rust takes pages that are zero already and touches none of them, with another
# fill every program writes the whole memory. The images are compared with each other, and a difference ends the run with
# status 1. A goal that is missed is told and does not end it: a busy machine misses goals too. Where all entries were
# measured, readers.sh runs at the end.
# shellcheck source-path=SCRIPTDIR source=measure.sh
source "$(dirname "${BASH_SOURCE[0]}")/measure.sh"

# on a machine that others share a round differs from the next by a tenth and more: the best of many does less
rounds=15
goal=1.1
module_count=64
module_bytes=$((4 << 20))
initrd_bytes=$(((200 << 20) + 1))

bootcore=$(realpath -m "${1:-${BOOTCORE:-$here/../crates/bootcore/out/bootcore}}")
entries=("${@:2}")
if [ "$#" -lt 2 ]; then
    entries=(kernel modules linux moved)
fi
cd "$work"

# Makes an entry's files, the kernel first, and sets what its machine is: all of it usable but for the first frame.
make_kernel() {
    protocol=multiboot2 size=0x10000000 pool_start=0x8000000 pool_end=0xF000000
    "$here/make_kernel.sh" kernel.elf 1 $((60 << 20))
    files=(kernel.elf)
}

make_moved() {
    make_kernel
    pool_start=0x200000 pool_end=0x8000000
}

make_modules() {
    protocol=multiboot2 size=0x28000000 pool_start=0x14000000 pool_end=0x26000000
    "$here/make_kernel.sh" kernel.elf 1 0x10000
    numbers $((module_count * module_bytes)) | split -b "$module_bytes" -d -a 2 - module.
    files=(kernel.elf module.*)
    [ "${#files[@]}" = $((1 + module_count)) ] || fail "${#files[@]} files"
}

make_linux() {
    protocol=linux size=0x20000000 pool_start=0x2400000 pool_end=0x10000000
    "$here/make_bzimage.sh" vmlinuz $((10 << 20))
    numbers "$initrd_bytes" > initrd.img
    files=(vmlinuz initrd.img)
}

# Makes the entry, and sets the `base` and `length` of its machine's region and the bytes of its files.
make_entry() {
    "make_$1"
    base=0x1000
    length=$((size - base))
    input=$(cat "${files[@]}" | wc -c)
}

# What follows an entry's line.
describe_files() {
    local file
    for file in "${files[@]:1}"; do
        if [ "$protocol" = linux ]; then
            printf 'initrd = "%s"\n' "$file"
        else
            printf '[[entry.module]]\nfile = "%s"\n' "$file"
        fi
    done
}

describe() {
    cat << TOML
size = $size
fill = $1
pool = [$pool_start, $pool_end]

[[region]]
base = $base
length = $length
kind = "usable"

[[entry]]
title = "bench"
protocol = "$protocol"
kernel = "${files[0]}"
line = "bench"
$(describe_files)
TOML
}

# Sets `command` and the `name` of a row. What the command writes is out.ROW.
set_row() {
    local row=$1 fill=$2
    local machine=("$size" "$fill" "$pool_start" "$pool_end" "$base" "$length" 1)
    name=$row
    case $row in
        cp) command=(cp --reflink=never -t out.cp "${files[@]}") ;;
        copy)
            name='plain copy'
            command=(./plain copy out.copy "${files[@]}")
            ;;
        straight | pool)
            name="plain, $row"
            command=(./plain "$row" "$protocol" "out.$row" bench "${files[@]}" -- "${machine[@]}")
            ;;
        bootcore) command=("$bootcore" boot "$fill.toml" --out out.bootcore) ;;
        reverse)
            name='bootcore, reverse'
            command=("$bootcore" boot "$fill.toml" --out out.reverse --order reverse)
            ;;
    esac
}

# Makes way for what a row writes.
clear_row() {
    rm -rf "out.$1"
    if [ "$1" = cp ]; then
        mkdir out.cp
    fi
}

# Round 0 weighs each program, and brings the files into the page cache.
run_round() {
    local round=$1 fill=$2 row
    for row in "${rows[@]}"; do
        set_row "$row" "$fill"
        clear_row "$row"
        if [ "$round" = 0 ]; then
            weigh_command "${command[@]}"
            peak[$row]=$kib
            continue
        fi
        time_command "${command[@]}"
        if [ "$micros" -lt "${best[$row]:-999999999}" ]; then
            best[$row]=$micros
        fi
        if [ "$row" = bootcore ] || [ "$row" = reverse ]; then
            [ "$(cat said)" = 'booted 0 bench' ] || fail "bootcore said: $(cat said)"
        fi
        # a copy is compared with nothing, and takes room on the disk
        case $row in cp | copy) rm -rf "out.$row" ;; esac
    done
}

compare_images() {
    local row
    for row in straight bootcore reverse; do
        if [ -e "out.$row" ] && [ -e out.pool ]; then
            cmp "out.$row" out.pool || fail "the images of $row and pool differ"
        fi
    done
}

print_rows() {
    local row seconds mib times
    printf '\n%-17s %8s %9s   %s\n' "fill $1" seconds 'peak MiB' 'bootcore / this'
    for row in "${rows[@]}"; do
        set_row "$row" "$1"
        seconds=$(awk -v a="${best[$row]}" 'BEGIN { printf "%.3f", a / 1e6 }')
        mib=- times=-
        if [ "${peak[$row]}" != - ]; then
            mib=$((peak[$row] >> 10))
        fi
        if [ -n "${best[bootcore]:-}" ]; then
            times=$(ratio "${best[bootcore]}" "${best[$row]}")
        fi
        printf '%-17s %8s %9s   %s\n' "$name" "$seconds" "$mib" "$times"
    done
}

print_goal() {
    local verdict
    verdict=$(awk -v a="$1" -v b="$2" 'BEGIN { print a <= b ? "met" : "missed" }')
    echo "goal, at most $2 $3: $1, $verdict"
}

print_goals() {
    local row
    if [ -z "${best[bootcore]:-}" ]; then
        return
    fi
    for row in straight pool; do
        if [ -n "${best[$row]:-}" ]; then
            print_goal "$(ratio "${best[bootcore]}" "${best[$row]}")" "$goal" "of the seconds of 'plain, $row'"
        fi
    done
    if [ "${peak[bootcore]}" != - ]; then
        print_goal $((peak[bootcore] >> 10)) $((3 * input >> 20)) 'MiB, three times the files'
    fi
}

measure_boots() {
    local fill=$1 round
    local -A best=() peak=()
    describe "$fill" > "$fill.toml"
    for ((round = 0; round <= rounds; round++)); do
        run_round "$round" "$fill"
    done
    compare_images
    print_rows "$fill"
    print_goals
    rm -rf out.*
}

measure_entry() {
    local fill
    make_entry "$1"
    printf '\n%s: %s MiB of files, machine of %s MiB, best of %s\n' \
        "$1" $((input >> 20)) $((size >> 20)) "$rounds"
    for fill in 0 0xA5; do
        measure_boots "$fill"
    done
    rm -f "${files[@]}"
}

rows=(cp)
if has_rustc; then
    build plain
    rows+=(copy straight pool)
    rustc --version
else
    echo 'no rustc: the plain programs are left out'
fi
if [ -x "$bootcore" ]; then
    rows+=(bootcore reverse)
else
    echo 'no bootcore: its row is left out'
fi
if [ -z "$gnu_time" ]; then
    echo 'no GNU time: peak memory is what was seen in /proc'
fi

for entry in "${entries[@]}"; do
    measure_entry "$entry"
done
if [ "$#" -lt 2 ]; then
    echo
    "$here/readers.sh"
fi
