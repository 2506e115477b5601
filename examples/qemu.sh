#!/usr/bin/env bash
# Runs the kernel of an image in QEMU: a PC without firmware, whose memory holds the image's parts and
# else zeros, but for one word at 0x413; and whose processor has the image's registers. What the
# kernel writes to the first serial port is shown here, and what is typed here it reads there.
#
#   PATH-OF-THIS-REPOSITORY/examples/qemu.sh linux.image PATH-OF-THIS-REPOSITORY/examples/linux.toml
#
# Ctrl-A X ends it, and so does the kernel that restarts the machine. The memory's size is that of
# the description DESC; without one memory ends with the map that the kernel is told. It needs
# qemu-system-x86_64 and the usual tools, no assembler: qemu.hex has the bytes of the stub that
# enters the kernel, qemu.S their source.
#
# There is no BIOS and no UEFI, so a kernel finds what the image hands to it and no more: no tables of
# ACPI, no call of the BIOS; and no screen (console=ttyS0 in the line of a Linux kernel), unless DESC has a
# table [firmware.screen]: the machine has that screen then.
# docs/FORMATS.md, "An image in QEMU", says which kernels want these, and what to do.
#
# What comes after -- is handed to QEMU: `-- -accel kvm -cpu host`, a disk, or `-- -display gtk` to see
# the screen.
set -u
usage="usage: examples/qemu.sh [--seconds N] IMAGE [DESC] [-- OPTION-OF-QEMU ..]
  runs the kernel of IMAGE in QEMU, with memory of the size of DESC, for at most N seconds"
top=$(cd "$(dirname "${BASH_SOURCE[0]}")/.." && pwd) || exit 1

fail() {
    echo "qemu.sh: $1" >&2
    exit "${2:-1}"
}

seconds=0
named=()
while [ "$#" -gt 0 ]; do
    case $1 in
    --help)
        echo "$usage"
        exit 0
        ;;
    --seconds)
        [[ ${2:-} =~ ^[0-9]+$ ]] || fail "--seconds wants a number" 64
        seconds=$2
        shift 2
        ;;
    --)
        shift
        break
        ;;
    -*) fail "unknown option $1; see --help" 64 ;;
    *)
        named+=("$1")
        shift
        ;;
    esac
done
image=${named[0]:-}
description=${named[1]:-}
if [ "${#named[@]}" = 0 ] || [ "${#named[@]}" -gt 2 ]; then
    echo "$usage" >&2
    exit 64
fi
for file in "${named[@]}"; do
    [ -f "$file" ] || fail "there is no file '$file'"
done
if ! command -v qemu-system-x86_64 >/dev/null 2>&1; then
    fail "the command qemu-system-x86_64 is not at hand. Install it:
  Debian, Ubuntu   apt-get install qemu-system-x86
  Fedora, RHEL     dnf install qemu-system-x86-core
  Arch             pacman -S qemu-system-x86
  openSUSE         zypper install qemu-x86" 127
fi

room=$(mktemp -d) || exit 1
trap 'rm -rf "$room"' EXIT

# cut_out FILE OFFSET LENGTH: these bytes of the file
cut_out() { tail -c +$(($2 + 1)) "$1" | head -c "$3"; }
# numbers FILE OFFSET LENGTH SIZE: the numbers of SIZE bytes that stand there, the lowest byte first
numbers() {
    od -An -v -j "$2" -N "$3" -tu"$4" --endian=little "$1"
}
# bytes DIGITS: the bytes of hexadecimal digits
bytes() { printf '%b' "$(printf '%s' "$1" | sed 's/../\\x&/g')"; }

# ---- the image

is_image() {
    [ "$(head -c 8 "$1" | od -An -v -tx1 | tr -d ' \n')" = 424c494d41474500 ]
}
is_image "$image" || fail "'$image' is no image: bootcore boot DESC --out IMAGE makes one"
read -r version protocol < <(numbers "$image" 8 8 4 | tr '\n' ' ')
if [ "$version" = 1 ]; then
    "${BOOTCORE:-$top/bootcore}" convert "$image" --out "$room/converted" || fail "'$image' could not be converted"
    image=$room/converted
    read -r version protocol < <(numbers "$image" 8 8 4 | tr '\n' ' ')
fi
[ "$version" = 2 ] || fail "'$image' has a version that this script does not know: $version"
read -r -a registers < <(numbers "$image" 16 248 8 | tr '\n' ' ')
[ "${#registers[@]}" = 31 ] || fail "'$image' is cut"
[ "${registers[22]} ${registers[30]}" = "16 1" ] ||
    fail "'$image' has no state that a kernel is entered in; see: bootcore walk '$image'"
read -r count _ < <(numbers "$image" 264 8 4 | tr '\n' ' ')

roles=()
addresses=()
lengths=()
offset=$((272 + 24 * count))
for ((i = 0; i < count; i++)); do
    read -r role address length < <(numbers "$image" $((272 + 24 * i)) 24 8 | tr '\n' ' ')
    roles+=($((role & 0xffffffff)))
    addresses+=("$address")
    lengths+=("$length")
    cut_out "$image" "$offset" "$length" >"$room/part$i"
    [ "$(wc -c <"$room/part$i")" = "$length" ] || fail "'$image' is cut"
    offset=$((offset + length))
done

# ---- memory

# runs: what the kernel is told of memory, a run a line: its start, its end and its kind
runs() {
    local i
    for ((i = 0; i < count; i++)); do
        case $protocol,${roles[i]} in
        1,3) runs_of_information "$room/part$i" ;;
        2,4 | 3,4) runs_of_parameters "$room/part$i" ;;
        esac
    done
}
# the memory map, tag 6, of the boot information of Multiboot2
runs_of_information() {
    local total at=8 type size words k
    total=$(numbers "$1" 0 4 4)
    while [ "$at" -lt "$total" ]; do
        read -r type size < <(numbers "$1" "$at" 8 4 | tr '\n' ' ')
        [ "$size" -ge 8 ] || return
        if [ "$type" = 6 ]; then
            read -r -a words < <(numbers "$1" $((at + 16)) $((size - 16)) 8 | tr '\n' ' ')
            for ((k = 0; k + 2 < ${#words[@]}; k += 3)); do
                echo "${words[k]} $((words[k] + words[k + 1])) $((words[k + 2]))"
            done
        fi
        at=$(((at + size + 7) / 8 * 8))
    done
}
# the e820 table of the boot parameters of Linux: entries of 20 bytes
runs_of_parameters() {
    local entries k base length kind
    entries=$(numbers "$1" $((0x1e8)) 1 1)
    for ((k = 0; k < entries; k++)); do
        read -r base length < <(numbers "$1" $((0x2d0 + 20 * k)) 16 8 | tr '\n' ' ')
        kind=$(numbers "$1" $((0x2d0 + 20 * k + 16)) 4 4)
        echo "$base $((base + length)) $((kind))"
    done
}

four_gib=$((1 << 32))
size=0
if [ -n "$description" ]; then
    size=$(sed -n '/^[[:space:]]*\[/q; s/^[[:space:]]*size[[:space:]]*=[[:space:]]*\([0-9A-Za-z_]*\).*/\1/p' \
        "$description" | tr -d _ | sed 's/^0o/0/')
    [[ $size =~ ^(0x[0-9A-Fa-f]+|[0-9]+)$ ]] || fail "'$description' has no line 'size = NUMBER'"
fi
# Memory that the map says to be there is there: the kernel believes the map.
low=$((size))
high=0
while read -r start end kind; do
    case $kind in 1 | 3 | 4) ;; *) continue ;; esac
    if [ "$end" -le "$four_gib" ]; then
        low=$((end > low ? end : low))
    else
        high=$((end > high ? end : high))
    fi
done < <(runs | tee "$room/map")
# QEMU's PC has memory below 4 GiB up to one of these two limits, and the rest from 4 GiB on.
if [ "$high" -gt 0 ] || [ "$low" -ge $((0xe0000000)) ]; then
    memory=$((high > 0 ? 0xc0000000 + high - four_gib : low))
    low=$((0xc0000000))
else
    memory=$low
fi
# has_memory START END: whether this PC has memory there. From 640 KiB to 1 MiB it has none without
# a BIOS that opens it.
has_memory() {
    [ "$2" -le $((0xa0000)) ] ||
        { [ "$1" -ge $((0x100000)) ] && [ "$2" -le "$low" ]; } ||
        { [ "$1" -ge "$four_gib" ] && [ "$2" -le "$high" ]; }
}
options=()
for ((i = 0; i < count; i++)); do
    end=$((addresses[i] + lengths[i]))
    has_memory "${addresses[i]}" "$end" ||
        fail "$(printf 'QEMU has no memory at a part, from 0x%x to 0x%x' "${addresses[i]}" "$end")"
    options+=(-device "loader,file=$room/part$i,addr=${addresses[i]},force-raw=on")
done
while read -r start end kind; do
    if [ "$kind" = 1 ] && ! has_memory "$start" "$end"; then
        printf 'qemu.sh: the map has usable memory from 0x%x to 0x%x; in QEMU some of it is not there\n' \
            "$start" "$end" >&2
    fi
done <"$room/map"

# ---- the screen: a VGA of QEMU's, which the stub sets to the mode that DESC tells

# screen_key KEY: the numbers of the key in the table [firmware.screen]
screen_key() {
    sed -n "s/^[[:space:]]*$1[[:space:]]*=[[:space:]]*\[*\([0-9A-Za-z_, ]*\).*/\1/p" "$room/screen" | tr -d _, | sed 's/\<0o/0/g'
}
# write_port PORT COUNT NUMBER: an item of the stub's list: COUNT bytes to a port
write_port() {
    bytes "$(printf '%02x%02x%02x00%02x%02x%02x%02x' $(($1 & 255)) $(($1 >> 8)) "$2" $(($3 & 255)) \
        $(($3 >> 8 & 255)) $(($3 >> 16 & 255)) $(($3 >> 24 & 255)))"
}
# write_pci REGISTER NUMBER: to the configuration of PCI's device 2
write_pci() {
    write_port 0xcf8 4 $((0x80001000 + $1))
    write_port 0xcfc 4 "$2"
}
# write_vbe INDEX NUMBER: to a register of Bochs' VBE
write_vbe() {
    write_port 0x1ce 2 "$1"
    write_port 0x1cf 2 "$2"
}
: >"$room/port_writes"
[ -z "$description" ] ||
    sed -n '/^[[:space:]]*\[firmware\.screen\]/,/^[[:space:]]*\[\{1,2\}[a-z]/p' "$description" >"$room/screen"
if [ -s "$room/screen" ]; then
    mode=()
    for key in base pitch width height depth red green blue; do
        read -r -a told < <(screen_key "$key")
        mode+=("${told[@]}")
    done
    [[ ${mode[*]} =~ ^((0x[0-9A-Fa-f]+|[0-9]+)( |$)){11}$ ]] || fail "[firmware.screen] of '$description' can't be read: a key a line"
    for ((i = 0; i < 11; i++)); do mode[i]=$((mode[i])); done
    read -r base pitch width height depth colors <<<"${mode[*]}"
    case $depth,$colors in
    15,'10 5 5 5 0 5' | 16,'11 5 5 6 0 5' | 24,'16 8 8 8 0 8' | 32,'16 8 8 8 0 8') ;;
    *) fail "QEMU's VGA has no pixels of $depth bits with these colours" ;;
    esac
    vram=$((16 << 20))
    pixel=$(((depth + 7) / 8))
    if [ $((width % 8)) != 0 ] || [ $((pitch % (8 * pixel))) != 0 ] || [ $((pitch * height)) -gt "$vram" ] ||
        [ $((base % vram)) != 0 ] || [ "$base" -lt "$low" ] || [ "$base" -ge $((0xfec00000)) ]; then
        fail "QEMU's VGA has lines of 8, 16, .. pixels, and 16 MiB, which begin at a multiple of that between memory and 0xfec00000"
    fi
    options+=(-device "VGA,addr=2")
    {
        write_pci 0x10 "$base"
        write_pci 0x04 3 # it answers at ports and in memory
        write_vbe 4 0
        write_vbe 1 "$width"
        write_vbe 2 "$height"
        write_vbe 3 "$depth"
        write_vbe 4 $((0x41)) # on, its memory in one piece
        write_vbe 6 $((pitch / pixel))
        write_port 0x3c0 1 $((0x20)) # the attribute controller lets the picture through
    } >"$room/port_writes"
fi

# ---- the ROM: the image's head, what LGDT takes, what is written to ports, zeros, the stub

{
    cut_out "$image" 0 272
    bytes 000000000000
    cut_out "$image" 248 2
    cut_out "$image" 240 8
    cat "$room/port_writes"
    head -c $((0x10000 - 272 - 16 - 512 - $(wc -c <"$room/port_writes"))) /dev/zero
    bytes "$(tr -d ' \n' <"$top/examples/qemu.hex")"
} >"$room/rom"
[ "$(wc -c <"$room/rom")" = 65536 ] || fail "examples/qemu.hex has not 512 bytes"

# A BIOS keeps the KiB of memory from address 0 on in the word at 0x413. Xen puts its first code below
# that, and with 0 there it fails.
kib=0
while read -r start end kind; do
    case $start,$kind in 0,1) kib=$((end / 1024 < 640 ? end / 1024 : 640)) ;; esac
done <"$room/map"
options+=(-device "loader,addr=0x413,data=$kib,data-len=2")

command=(qemu-system-x86_64 -M pc -m "${memory}B" -bios "$room/rom" -nodefaults -display none
    -serial mon:stdio -no-reboot "${options[@]}" "$@")
if [ "$seconds" -gt 0 ]; then
    command=(timeout --foreground "$seconds" "${command[@]}")
fi
"${command[@]}"
