#!/usr/bin/env bash
# Seconds and peak memory of `bootcore digest` beside the hashes that it takes: of a Linux kernel of 10 MiB with an initial ramdisk
# of 234 MiB, together 256 MB, in a machine of 1 GiB.
#
#   [HASHER=PROGRAM] bench/digest.sh [BOOTCORE]
#
# The program under test is the argument, else crates/bootcore/out/bootcore. Each byte of an image is hashed twice, once as a byte of
# the image and once as one of its head or of a part. So the yardstick is this:
#
#   two hashes         the image's bytes hashed twice by the same library, with nothing read or copied for it
#
# It is what HASHER IMAGE 3 takes less what HASHER IMAGE 1 takes: HASHER FILE COUNT reads the file once, hashes it COUNT times,
# and prints the first digest. Where the variable HASHER names no such program, it is the crate written by write_hasher below, which
# is proved and built here; without rt its row is left out. The other rows:
#
#   digest DESC        the program under test reads the files, and plans and hashes what a boot would write
#   digest --image     it reads and hashes the image that a boot wrote
#   sha256sum          the same files and that image by coreutils, which may use the processor's own instructions for SHA-256
#
# All take turns, and the best of all rounds counts. A digest of the image that sha256sum has otherwise ends the run with status 1.
# Then comes the peak memory of `digest DESC` for machines of several sizes, which should not differ. Needs bash 5, coreutils and awk.
# shellcheck source-path=SCRIPTDIR source=measure.sh
source "$(dirname "${BASH_SOURCE[0]}")/measure.sh"

rounds=10
goal=1.1

bootcore=$(realpath -m "${1:-$here/../crates/bootcore/out/bootcore}")
[ -x "$bootcore" ] || fail "no bootcore at $bootcore"
hasher=${HASHER:+$(realpath -m "$HASHER")}
cd "$work"

# Writes the crate of the program that hashes alone. Each digest goes into the next one, so that none can be left out.
write_hasher() {
    mkdir -p hasher/crates/hasher/src
    echo 'Handles allowed: none.' > hasher/HANDLES
    echo 'hasher: sha2' > hasher/crates.txt
    cat > hasher/crates/hasher/src/main.rt << 'RATTLE'
//! Hashes a file's bytes many times, and prints its digest.
#![tactic(auto)]

use sha2::{Digest, Sha256};
use std::process::ExitCode;
use std::{env, fs};

// The number of a word of digits, modulo 2^64.
fn number_of(word: &str) -> u64 {
    let mut number = 0u64;
    for digit in word.as_bytes() {
        number = number.wrapping_mul(10).wrapping_add((*digit & 15) as u64);
    }
    number
}

fn digest_behind(before: &[u8], bytes: &[u8]) -> [u8; 32] {
    let mut hasher = Sha256::new();
    hasher.update(before);
    hasher.update(bytes);
    hasher.finalize()
}

fn run(rt: &HostRuntime, path: &str, count: u64) -> u8 {
    let Ok(bytes) = fs::read(rt, path) else {
        return 3;
    };
    if count == 0 {
        return 0;
    }
    let first = Sha256::digest(bytes.as_slice());
    for byte in &first {
        if print!(rt; "{byte:02x}").is_err() {
            return 3;
        }
    }
    let mut last = first;
    for _ in 1..count {
        last = digest_behind(last.as_slice(), bytes.as_slice());
    }
    // The digests after the first one are for their time alone.
    if last.as_slice() == [0u8; 32].as_slice() { 2 } else { 0 }
}

fn main(rt: HostRuntime) -> ExitCode {
    let Ok(args) = env::args(&rt) else {
        return ExitCode::from(64);
    };
    let Ok(words) = args.collect::<Vec<String>>(rt.alloc()) else {
        return ExitCode::from(4);
    };
    if words.len() != 3 {
        return ExitCode::from(64);
    }
    ExitCode::from(run(&rt, words[1].as_str(), number_of(words[2].as_str())))
}
RATTLE
}

# Sets `hasher` to that program.
build_hasher() {
    echo 'bench: building the hasher (some minutes)' >&2
    write_hasher
    (cd hasher && git init -q . && cd crates/hasher && rt run -- none 0) > hasher.log 2>&1 || true
    hasher=$PWD/hasher/crates/hasher/out/hasher
    [ -x "$hasher" ] || { tail -n 20 hasher.log >&2; exit 1; }
}

# A machine of so many bytes, with what is booted.
describe() {
    cat << TOML
size = $1
pool = [0x2400000, 0x13000000]
[[region]]
base = 0x1000
length = $(($1 - 0x1000))
kind = "usable"
[[entry]]
title = "bench"
protocol = "linux"
kernel = "vmlinuz"
line = "bench"
initrd = "initrd.img"
TOML
}

# Runs a row's command and keeps the least time of the row.
take_turn() {
    local row=$1
    time_command "${@:2}"
    if [ "$micros" -lt "${best[$row]:-999999999}" ]; then
        best[$row]=$micros
    fi
}

# NAME MICROSECONDS KIB: prints a row.
print_row() {
    local mib=- times=-
    if [ "$3" != - ]; then
        mib=$(($3 >> 10))
    fi
    if [ -n "$hasher" ]; then
        times=$(ratio "$2" "$hashes")
    fi
    printf '%-18s %8s %9s   %s\n' "$1" "$(awk -v a="$2" 'BEGIN { printf "%.3f", a / 1e6 }')" "$mib" "$times"
}

# Ends the run where the image has not this digest.
check_digest() {
    [ "$1" = "$sha256" ] || fail "the image has the digest $sha256, and $2 says '$1'"
}

# The digest of the image in a table that was said.
said_digest() {
    awk '$1 == "image" { print $5 }' said
}

if [ -z "$hasher" ] && command -v rt > /dev/null 2>&1; then
    build_hasher
fi
if [ -z "$hasher" ]; then
    echo 'no rt: the hashes alone are left out'
fi

"$here/make_bzimage.sh" vmlinuz $((10 << 20))
numbers $((234 << 20)) > initrd.img
describe $((1 << 30)) > linux.toml
call "$bootcore" boot linux.toml --out image
sha256=$(sha256sum image | cut -d ' ' -f 1)

# each once, which also brings the files into the page cache
weigh_command "$bootcore" digest linux.toml
digest_kib=$kib
check_digest "$(said_digest)" 'digest DESC'
weigh_command "$bootcore" digest --image image
image_kib=$kib
check_digest "$(said_digest)" 'digest --image'
if [ -n "$hasher" ]; then
    call "$hasher" image 1
    check_digest "$(cat said)" "$hasher"
fi

declare -A best
for ((round = 0; round < rounds; round++)); do
    if [ -n "$hasher" ]; then
        take_turn one "$hasher" image 1
        take_turn three "$hasher" image 3
    fi
    take_turn digest "$bootcore" digest linux.toml
    take_turn image "$bootcore" digest --image image
    take_turn coreutils sha256sum vmlinuz initrd.img image
done

files_kib=$(($(cat vmlinuz initrd.img | wc -c) >> 10))
printf 'files of %s MiB, an image of %s MiB, best of %s\n' $((files_kib >> 10)) $(($(wc -c < image) >> 20)) "$rounds"
printf '%-18s %8s %9s   %s\n' '' seconds 'peak MiB' 'this / two hashes'
if [ -n "$hasher" ]; then
    hashes=$((best[three] - best[one]))
    print_row 'two hashes' "$hashes" -
fi
print_row 'digest DESC' "${best[digest]}" "$digest_kib"
print_row 'digest --image' "${best[image]}" "$image_kib"
print_row sha256sum "${best[coreutils]}" -
if [ -n "$hasher" ]; then
    echo "goal, at most $goal of the two hashes: $(ratio "${best[digest]}" "$hashes")"
fi

printf '\nmachine of MiB   peak KiB beside the files, of which a program that only says its usage has\n'
weigh_command "$bootcore" --help
usage_kib=$kib
for mib in 1024 2048 4096; do
    describe $((mib << 20)) > machine.toml
    weigh_command "$bootcore" digest machine.toml
    if [ "$kib" != - ]; then
        kib=$((kib - files_kib))
    fi
    printf '%14s   %8s %s\n' "$mib" "$kib" "$usage_kib"
done
