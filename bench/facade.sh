#!/usr/bin/env bash
# Seconds of the calls of the package for Rust, which is the plain source, beside those of the library for C, which is proved:
# plans, a load, a boot through a pool, a walk, digests, in one run.
#
#   bench/facade.sh [ARCHIVE]
#
# The archive is the argument, else examples/c/out/libbootcore.a. The files are a Linux kernel of 10 MiB and an initial ramdisk of
# 200 MiB, in 1 GiB of memory. Both take turns in one program (facade.rs), and the best of all rounds counts. Needs bash 5,
# coreutils, 3 GiB of memory, and cargo with what tools/plain wants.
# shellcheck source-path=SCRIPTDIR source=measure.sh
source "$(dirname "${BASH_SOURCE[0]}")/measure.sh"

goal=1.1
top=$(cd "$here/.." && pwd)
archive=$(realpath -m "${1:-$top/examples/c/out/libbootcore.a}")
[ -e "$archive" ] || fail "$archive is not built: examples/c/build builds it"
has_rustc || fail "rustc is not at hand"
"$top/tools/plain" --export || fail "the plain source is not exported"
cat > "$work/Cargo.toml" << END
[package]
name = "facade"
version = "0.0.0"
edition = "2024"
[[bin]]
name = "facade"
path = "$here/facade.rs"
[dependencies]
bootcore = { path = "$top/out/source/bootcore", features = ["digest"] }
[workspace]
END
settings=$top/out/source/.cargo/config.toml
words=(--quiet --release --offline)
if [ -e "$settings" ]; then words+=(--config "$settings"); fi
cd "$work"
cp "$archive" libbootcore.a
RUSTFLAGS="-L native=$work -l static=bootcore" cargo build "${words[@]}" || fail "facade.rs does not build"
"$here/make_bzimage.sh" vmlinuz $((10 << 20))
numbers $((200 << 20)) > initrd.img
target/release/facade vmlinuz initrd.img "$rounds"
echo "the goal is $goal"
