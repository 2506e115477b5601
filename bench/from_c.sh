#!/usr/bin/env bash
# Seconds and peak memory of the three ways from C, each beside a plain program that does as much, and their ratios:
#
#   bench/from_c.sh
#
# - bootcore_plan (core_plan.c): plan, and the ramdisk read from its file straight to its place; beside plain_guest.c, which reads
#   and copies the same and plans nothing
# - bootcore_load (core_guest.c): both files copied from the caller's bytes; beside plain_guest.c, which copies each once
# - bootcore_boot (core_boot.c): by way of a pool; beside a plain loader in Rust (plain_boot.rs) that takes its pool from its
#   allocator, and one whose pool lies in the memory that is booted. Left out without rustc
#
# The files are a Linux kernel of 10 MiB and an initial ramdisk of 200 MiB, in 512 MiB of memory. Each program opens the files and
# reads what it needs, and then loads them once or eleven times; the difference is ten loads. The programs of a pair take turns,
# and the best of all rounds counts. Peak memory is that of one load. Needs bash 5, coreutils, awk, binutils, cc, rt, and the static
# library that examples/c/build makes.
# shellcheck source-path=SCRIPTDIR source=loads.sh
source "$(dirname "${BASH_SOURCE[0]}")/loads.sh"

archive=$here/../examples/c/out/libbootcore.a
[ -e "$archive" ] || fail "$archive is not built: examples/c/build builds it"
type -P cc > /dev/null || fail "cc is not at hand"
cc -std=c99 -O2 -o "$work/plain_guest" "$here/plain_guest.c" || fail "plain_guest.c does not build"
for program in core_plan core_guest core_boot; do
    cc -std=c99 -O2 -I"$here/../include" -o "$work/$program" "$here/$program.c" "$archive" || fail "$program.c does not build"
done
cd "$work"

# A program with its first word, so that all take the same ones.
with_word() {
    printf '#!/bin/sh\nexec ./%s %s "$@"\n' "$2" "$3" > "$1"
    chmod +x "$1"
}

make_files
# Two programs that load the same.
compare() {
    need_same_lines "$@"
    compare_loads "$@"
}
with_word plain_read plain_guest read
with_word plain_copy plain_guest copy
goal=1.02
compare ./plain_read ./core_plan
goal=1.1
compare ./plain_copy ./core_guest
if has_rustc; then
    build plain_boot
    with_word plain_own plain_boot own
    with_word plain_memory plain_boot memory
    goal=1.2
    compare ./plain_own ./core_boot
    compare ./plain_memory ./core_boot
else
    echo "bootcore_boot: left out, since rustc is not at hand"
fi
bytes=$(size -t core_guest | tail -n 1 | awk '{ print $1 + $2 }')
echo "core_guest, the core in it: $bytes bytes of code and data"
