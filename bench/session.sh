#!/usr/bin/env bash
# Seconds of a session that is told a file of 1 GiB piece by piece, asked before each which piece is missing, over those of
# bootcore_boot, which runs over the same bytes:
#
#   bench/session.sh
#
# A small Multiboot2 kernel with one module of 262,144 pieces. Each program boots once or three times; the difference is two
# boots, without what reading costs. The programs take turns, and the best of all rounds counts. Needs bash 5, coreutils, awk, cc,
# 5 GiB of memory, and the static library that examples/c/build makes.
# shellcheck source-path=SCRIPTDIR source=measure.sh
source "$(dirname "${BASH_SOURCE[0]}")/measure.sh"

archive=$here/../examples/c/out/libbootcore.a
[ -e "$archive" ] || fail "$archive is not built: examples/c/build builds it"
cc -std=c99 -O2 -I"$here/../include" -o "$work/core_session" "$here/core_session.c" "$archive" || fail "core_session.c does not build"
cd "$work"
"$here/make_kernel.sh" kernel.elf 1 0x10000
numbers $((1 << 30)) > module

declare -A best
for ((round = 0; round < rounds; round++)); do
    for times in 1 3; do
        for way in boot pieces; do
            time_command ./core_session "$way" kernel.elf module "$times"
            name="$way $times"
            if [ "$micros" -lt "${best[$name]:-999999999}" ]; then best[$name]=$micros; fi
        done
    done
done
for way in boot pieces; do
    two=$((${best["$way 3"]} - ${best["$way 1"]}))
    plain=${plain:-$two}
    printf '%-8s %8s seconds a boot\n' "$way" "$(awk -v a="$two" 'BEGIN { printf "%.3f", a / 2e6 }')"
done
echo "ratio $(ratio "$two" "$plain"), the goal is 1.2"
