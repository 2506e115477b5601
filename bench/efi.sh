#!/usr/bin/env bash
# The boot manager beside other EFI images in QEMU under OVMF, without hardware acceleration: processor seconds of QEMU from the
# firmware's start of the image to the kernel's first line, and how much memory the kernel is told that it has (its line
# `Memory:`). For each the median of seven runs, and the least.
#
#   bench/efi.sh KERNEL [RUNS]
#
# The machine has 1 GiB, and one FAT disk with the kernel and a ramdisk of 30 MB. The boot manager enters the kernel by both
# entries, GRUB's image is made by grub-mkstandalone, systemd-boot is the distribution's file; what is not at hand is left out.
# Needs QEMU, OVMF, mtools, and what examples/efi/build made.
#   Debian, Ubuntu   apt-get install grub-efi-amd64-bin grub-common systemd-boot-efi
# shellcheck source-path=SCRIPTDIR source=measure.sh
source "$(dirname "${BASH_SOURCE[0]}")/measure.sh"

efi=$here/../examples/efi
kernel=${1:-}
runs=${2:-7}
[ -f "$kernel" ] || fail "bench/efi.sh KERNEL [RUNS]"
image=$efi/out/BOOTX64.EFI
[ -f "$image" ] || fail "examples/efi/build has not made the boot manager"
line='console=ttyS0 panic=-1'
cp "$kernel" "$work/vmlinuz"
cd "$work"
ticks=$(getconf CLK_TCK)

head -c 30000000 /dev/urandom >ramdisk # which the kernel unpacks only after these lines

# disk IMAGE FILE TARGET ..: with this image, kernel and ramdisk, and these files there
disk() {
    rm -f disk.img
    truncate -s 96M disk.img
    mformat -i disk.img -h 64 -s 32 -T $((96 * 2048)) ::
    mmd -i disk.img ::EFI ::EFI/BOOT ::bootcore ::loader ::loader/entries
    mcopy -i disk.img "$1" ::EFI/BOOT/BOOTX64.EFI
    shift
    while [ $# != 0 ]; do
        mcopy -i disk.img "$1" "::$2"
        shift 2
    done
    mcopy -i disk.img vmlinuz ramdisk ::
}
# cpu_ticks: QEMU's, all of its threads'
cpu_ticks() { awk '{ sub(/.*\) /, ""); print $12 + $13 }' "/proc/$running/stat"; }
# wait_line PATTERN: until it stands on the serial port; fails after 120 seconds, or if QEMU ends
wait_line() {
    local i
    for ((i = 0; i < 2400; i++)); do
        if grep -qa "$1" serial; then return 0; fi
        kill -0 "$running" 2>/dev/null || break
        sleep 0.05
    done
    grep -qa "$1" serial
}
# run_once OPTION..: a line `CENTISECONDS KIB`, or nothing
run_once() {
    local start=0 end=0
    : >serial
    SERIAL=file:serial "$efi/run" disk.img -display none -monitor none "$@" </dev/null >said 2>&1 &
    running=$!
    if wait_line 'BdsDxe: starting' && start=$(cpu_ticks) && wait_line 'Linux version' && end=$(cpu_ticks) &&
        wait_line 'Memory: [0-9]*K/'; then
        echo "$(((end - start) * 100 / ticks)) $(sed -n 's/.*Memory: [0-9]*K\/\([0-9]*\)K.*/\1/p' serial | head -n 1)"
    fi
    kill "$running" 2>/dev/null
    wait "$running" 2>/dev/null || true
}
# compare NAME OPTION..: the disk's image
compare() {
    local name=$1 i
    shift
    for ((i = 0; i < runs; i++)); do run_once "$@"; done | sort -n | awk -v name="$name" '
        { seconds[NR] = $1 / 100; kib = $2 }
        END {
            if (NR == 0) print name ": no kernel says how much memory it has"
            else printf "%s: %.1f s in the middle of %d, %.1f s the least; %d KiB of memory\n", name,
                seconds[int((NR + 1) / 2)], NR, seconds[1], kib
        }'
}

for protocol in linux64 linux; do
    printf '%s\n' 'timeout 0' 'title Linux' "protocol $protocol" 'kernel vmlinuz' "line $line" \
        'ramdisk ramdisk' >menu.txt
    disk "$image" menu.txt bootcore/menu.txt
    compare "the boot manager, $protocol"
done
if type -P grub-mkstandalone >/dev/null && [ -d /usr/lib/grub/x86_64-efi ]; then
    printf '%s\n' 'search --file /vmlinuz --set=root' "linux /vmlinuz $line" 'initrd /ramdisk' boot >grub.cfg
    grub-mkstandalone -O x86_64-efi -o grub.efi --modules='part_msdos part_gpt fat linux search_fs_file' \
        boot/grub/grub.cfg=grub.cfg >/dev/null
    disk grub.efi
    compare "$(grub-mkstandalone --version | sed 's/.*(\(.*\)) */\1 /')"
else
    echo "left out: GRUB, since grub-mkstandalone or its modules are not at hand"
fi
boot=/usr/lib/systemd/boot/efi/systemd-bootx64.efi
if [ -f "$boot" ]; then
    printf '%s\n' 'timeout 0' 'default linux.conf' >loader.conf
    printf '%s\n' 'title Linux' 'linux /vmlinuz' 'initrd /ramdisk' "options $line" >linux.conf
    disk "$boot" loader.conf loader/loader.conf linux.conf loader/entries/linux.conf
    compare "systemd-boot" -cpu qemu64
else
    echo "left out: systemd-boot, since $boot is not at hand"
fi
