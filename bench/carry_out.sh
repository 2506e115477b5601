#!/usr/bin/env bash
# What bootcore_carry_out takes over pieces of 4 KiB, over what it takes with one piece of 128 MiB, by both archives:
#
#   bench/carry_out.sh
#
# The pieces lie in the caller's memory one behind the other, or backwards. Needs bash 5, coreutils, cc, rt, and the static library
# that examples/c/build makes.
# shellcheck source-path=SCRIPTDIR source=measure.sh
source "$(dirname "${BASH_SOURCE[0]}")/measure.sh"

hosted=$here/../examples/c/out/libbootcore.a freestanding=$work/libbootcore_freestanding.a
[ -e "$hosted" ] || fail "$hosted is not built: examples/c/build builds it"
type -P cc > /dev/null || fail "cc is not at hand"
"$here/../tools/c_archive" --freestanding "$freestanding" || fail "the archive for firmware can't be made"
for archive in "$hosted" "$freestanding"; do
    cc -std=c99 -O2 -I"$here/../include" -o "$work/carry_out" "$here/carry_out.c" "$archive" || fail "carry_out.c does not build"
    printf '%s: ' "$(basename "$archive")"
    "$work/carry_out" 128 25 || fail "a plan is not carried out"
done
