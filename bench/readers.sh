#!/usr/bin/env bash
# How many times in a second a kernel file is read, by the plain readers (plain_reader.rs) and by a program that calls the
# proved ones: the ELF and the Multiboot2 header of a file of 66 MB with five program headers, and the setup header of a
# Linux kernel of 10 MiB. Then the files that were made to keep each reader longest, and how long a call takes with one.
# A setup header has no such file: no number in it says how much is read.
#
#   [READER=PROGRAM] bench/readers.sh
#
# Both have the same command line,
#
#   READER elf|header|setup FILE COUNT
#
# read FILE once and call read_elf, find_header or read_setup COUNT times over its bytes. They are timed here from
# outside: COUNT calls less the time of none. The proved program is the crate written by write_reader below. Where the
# variable READER does not name one it is proved and built here, beside copies of the crates that it calls with what of
# them is built already; without rt its column is left out. Needs bash 5, coreutils, awk and rustc.
# shellcheck source-path=SCRIPTDIR source=measure.sh
source "$(dirname "${BASH_SOURCE[0]}")/measure.sh"
# shellcheck source-path=SCRIPTDIR source=little_endian.sh
source "$here/little_endian.sh"

segments=5
segment_bytes=0xC96000
payload_bytes=$((10 << 20))

reader=${READER:+$(realpath -m "$READER")}
crates=(bl_mem bl_map bl_elf bl_mb2head bl_bzimage)
cd "$work"

# Writes the crate of the proved program.
write_reader() {
    mkdir -p reader/crates/reader/src
    echo 'Handles allowed: none.' > reader/HANDLES
    for crate in "${crates[@]}"; do
        cp -R "$here/../crates/$crate" "reader/crates/$crate"
        grep "^$crate:" "$here/../crates.txt"
    done > reader/crates.txt
    echo 'reader: bl_bzimage bl_elf bl_mb2head bl_mem' >> reader/crates.txt
    cat > reader/crates/reader/src/main.rt << 'RATTLE'
//! Reads a kernel's file many times: its ELF, its Multiboot2 header or its setup header.
#![tactic(auto)]

use bl_bzimage::read_setup;
use bl_elf::read_elf;
use bl_mb2head::find_header;
use bl_mem::SliceView;
use std::process::ExitCode;
use std::{env, fs};

// The number of a word of digits, modulo 2^64.
fn number_of(word: &str) -> u64 {
    let mut number = 0u64;
    for digit in word.as_bytes() {
        number = number.wrapping_mul(10).wrapping_add((*digit & 15) as u64);
    }
    number
}

fn run(rt: &HostRuntime, part: &str, path: &str, count: u64) -> u8 {
    let Ok(bytes) = fs::read(rt, path) else {
        return 3;
    };
    let view = SliceView::new(bytes.as_slice());
    let mut sum = 0u64;
    for _ in 0..count {
        if part == "setup" {
            let Ok(setup) = read_setup(&view) else {
                return 1;
            };
            sum = sum.wrapping_add(setup.payload_size);
        } else if part == "elf" {
            let Ok(elf) = read_elf(rt.alloc(), &view) else {
                return 1;
            };
            sum = sum.wrapping_add(elf.segments().len() as u64);
        } else {
            let Ok(header) = find_header(&view) else {
                return 1;
            };
            sum = sum.wrapping_add(header.place);
        }
    }
    if count > 0 && sum == 0 { 2 } else { 0 }
}

fn main(rt: HostRuntime) -> ExitCode {
    let Ok(args) = env::args(&rt) else {
        return ExitCode::from(64);
    };
    let Ok(words) = args.collect::<Vec<String>>(rt.alloc()) else {
        return ExitCode::from(4);
    };
    if words.len() != 4 {
        return ExitCode::from(64);
    }
    let (part, path, count) = (words[1].as_str(), words[2].as_str(), words[3].as_str());
    ExitCode::from(run(&rt, part, path, number_of(count)))
}
RATTLE
}

# Sets `reader` to the proved program.
build_reader() {
    echo 'bench: building the proved reader (some minutes where its crates were not built before)' >&2
    write_reader
    (cd reader && git init -q . && cd crates/reader && rt run -- elf none 0) > reader.log 2>&1 || true
    reader=$PWD/reader/crates/reader/out/reader
    [ -x "$reader" ] || { tail -n 20 reader.log >&2; exit 1; }
}

# Sets `rate`, the calls in a second of a reader of a file.
rate_reader() {
    local none
    time_best "$1" "$2" "$3" 0
    none=$least
    time_best "$1" "$2" "$3" "$calls"
    rate=$(awk -v n="$calls" -v t=$((least - none)) 'BEGIN { if (t > 0) printf "%d", n / t * 1e6; else print 0 }')
}

if ! has_rustc; then
    echo 'no rustc: the readers are left out'
    exit 0
fi
build plain_reader
if [ -z "$reader" ] && command -v rt > /dev/null 2>&1; then
    build_reader
fi
"$here/make_kernel.sh" kernel.elf "$segments" "$segment_bytes"
"$here/make_bzimage.sh" bzimage "$payload_bytes"

printf '%-16s %12s %12s   %s\n' 'parses a second' plain proved 'plain / proved'
for part in elf header setup; do
    file=kernel.elf calls=2000000
    if [ "$part" = setup ]; then
        file=bzimage calls=20000000
    fi
    rate_reader ./plain_reader "$part" "$file"
    plain=$rate proved=- times=-
    if [ -n "$reader" ]; then
        rate_reader "$reader" "$part" "$file"
        proved=$rate
        times=$(ratio "$plain" "$proved")
    fi
    printf '%-16s %12s %12s   %s\n' "$part" "$plain" "$proved" "$times"
done

# The first four words of a header of some bytes.
header() {
    word 0xE85250D6 0 "$1" $((-(0xE85250D6 + $1) & 0xFFFFFFFF))
}

# The words given, so many times.
times() {
    local i
    for ((i = 0; i < $1; i++)); do
        word "${@:2}"
    done
}

# A header at the last place where one fits, and before it the magic number at each multiple of 8, with a sum that is
# not 0.
make_late() {
    times 2046 0xE85250D6 0 0xE85250D6 0
    word 0xE85250D6 0
    header 24
    word 0 8
}

# A header at 8 of 32760 bytes, all tags of 8 bytes.
make_tags() {
    word 0 0
    header 32760
    times 4092 6 8
    word 0 8
}

# A header at 8 of 32760 bytes, one request for 8182 types of information.
make_types() {
    word 0 0
    header 32760
    word 1 $((8 + 4 * 8182))
    times 8182 21
    word 0 8
}

# 128 segments of one byte, of which no two share it: each two are compared.
make_segments() {
    local i
    word 0x464C457F 0x00010101 0 0 0x00030002 1 0x100000 52 0 0
    half 52 32 128 0 0 0
    for ((i = 0; i < 128; i++)); do
        word 1 0 $((0x100000 + i)) $((0x100000 + i)) 0 1 5 1
    done
}

printf '\n%-16s %12s %12s %12s   %s\n' 'longest' 'plain ns' 'proved ns' 'ns a byte' 'proved / plain'
for row in 'header late' 'header tags' 'header types' 'elf segments'; do
    read -r part file <<< "$row"
    calls=20000
    "make_$file" > "$file"
    rate_reader ./plain_reader "$part" "$file"
    plain=$(ratio 1000000000 "$rate") proved=- byte=- times=-
    if [ -n "$reader" ]; then
        rate_reader "$reader" "$part" "$file"
        proved=$(ratio 1000000000 "$rate")
        byte=$(ratio "$proved" "$(wc -c < "$file")")
        times=$(ratio "$proved" "$plain")
    fi
    printf '%-16s %12s %12s %12s   %s\n' "$row" "$plain" "$proved" "$byte" "$times"
done
