#!/usr/bin/env bash
# Seconds until a newcomer has a first success, by commands alone, from a new clone of this checkout's last commit:
#
#   bench/newcomer.sh [ARCHIVE]
#
#   seen            ./bootcore --look boot: the first line, of a program that is not proved
#   checked         ./bootcore --look digest: the digests of a boot, one of which is then compared with that of a file by sha256sum
#   changed a rule  a machine may have fewer regions than 128, as CONTRIBUTING.md has it: bl_map is proved with the new rule, and the
#                   model tells the rows whose answers change. The number is another one in each run, since rt finds what it proved before
#   linked          ARCHIVE, which tools/release makes, is unpacked, and a loader in C is built on it and run; left out without ARCHIVE
#
# Each begins with a clone of its own, or with the archive. Needs rt, git, Python 3, coreutils, cc and pkg-config.
# shellcheck source-path=SCRIPTDIR source=measure.sh
source "$(dirname "${BASH_SOURCE[0]}")/measure.sh"

top=$(cd "$here/.." && pwd)
archive=
if [ $# -gt 0 ]; then
    archive=$(realpath -e -- "$1") || fail "$1 is not there"
fi
cd "$work"

# began: a new clone, and the current second
begin() {
    start=$EPOCHSECONDS
    rm -rf clone
    git clone -q "$top" clone
    cd clone
}

# told WHAT: the seconds since then
tell() {
    printf '%-16s %6d seconds\n' "$1" $((EPOCHSECONDS - start))
    cd "$work"
}

begin
call ./bootcore --look boot examples/first.toml --out first.image
[ "$(cat said)" = "booted 0 row one" ] || fail "the first example says: $(cat said)"
tell seen

begin
call ./bootcore --look digest examples/second.toml
ramdisk=$({ printf hello && head -c 4091 /dev/zero; } | sha256sum)
grep -q "^initrd .* ${ramdisk%% *}\$" said || fail "the ramdisk of the second example has another digest: $(cat said)"
tell checked

begin
most=$((32 + EPOCHSECONDS % 64))
sed -i "s/^max_regions = 128$/max_regions = $most/" crates/bl_map/specs/Limits.antt
sed -i "s/^\(pub const MAX_REGIONS: usize\) = 128;$/\1 = $most;/" crates/bl_map/src/limits.rt
sed -i "s/^MAX_REGIONS = 128$/MAX_REGIONS = $most/" model/rules/machine.py
[ "$(git diff --shortstat | awk '{ print $1, $4 }')" = "3 3" ] || fail "the rule stands elsewhere by now"
(cd crates/bl_map && call rt check)
if model/rows rows/machine.rows > said; then fail "no row of rows/machine.rows has another answer"; fi
tell "changed a rule"

[ -n "$archive" ] || exit 0
"$here/make_bzimage.sh" vmlinuz 16384
numbers 4096 > initrd.img
start=$EPOCHSECONDS
mkdir unpacked
tar -xf "$archive" -C unpacked --strip-components=1
cd unpacked
flags=$(PKG_CONFIG_PATH=$(dirname "$(find "$PWD" -name bootcore.pc)") pkg-config --cflags --libs bootcore) || fail "no bootcore.pc"
# shellcheck disable=SC2086
call cc -o first "$(find "$PWD" -name first.c -print -quit)" $flags
call ./first ../vmlinuz ../initrd.img
grep -q "^entered at" said || fail "the loader says: $(cat said)"
tell linked
