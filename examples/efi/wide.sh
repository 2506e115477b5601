# shellcheck shell=bash disable=SC2034,SC2154 # its variables are used where it is sourced, or come from there
# Sourced by `check --wide FOLDER`, which has the words: what takes too long for each run of the tests.

# ---- machines and firmware

# Of Debian's and Ubuntu's builds of OVMF: of 2 MiB, of 4 MiB, and one of 4 MiB that could check signatures and has
# no keys, which wants the machine's management mode.
builds=(/usr/share/OVMF/OVMF_CODE.fd /usr/share/OVMF/OVMF_CODE_4M.fd /usr/share/OVMF/OVMF_CODE_4M.secboot.fd)
own_entries() {
    printf '%s\n' 'timeout 0' write "default $1"
    cat <<'END'
title Multiboot2
protocol multiboot2
kernel spin_multiboot2
line one "two" \three\
module first the first one
module random
title 32-bit entry
protocol linux
kernel spin_linux
line of the entry
ramdisk random
title 64-bit entry
protocol linux64
kernel spin_linux
line of the entry
ramdisk random
END
}
entry_names=('Multiboot2' 'the 32-bit entry' 'the 64-bit entry')
entry=0 # another one for each machine, so that each is entered with each size of memory
for build in "${builds[@]}"; do
    if [ ! -f "$build" ]; then
        echo "skipped: nothing is run under another build of the firmware, since $build is not at hand"
        continue
    fi
    export OVMF=$build
    more=()
    if [ "${build%.secboot.fd}" != "$build" ]; then
        cp "${build%CODE*}VARS${build##*CODE}" variables 2>/dev/null || cp "${build%CODE*}VARS_4M.fd" variables
        more=(-machine 'q35,smm=on' -global 'driver=cfi.pflash01,property=secure,value=on'
            -drive 'if=pflash,format=raw,unit=1,file=variables')
    fi
    files=(spin_multiboot2 spin_linux first random)
    for memory in 256M 512M 1G 3G 6G; do
        disk < <(own_entries "$entry")
        handed "$(basename "$build"), $memory, ${entry_names[entry]}" -m "$memory" "${more[@]}"
        entry=$(((entry + 1) % 3))
    done
done
unset OVMF

# ---- kernels of Debian's packages

# fetched PACKAGE FILE: a package's file, as the file `fetched`; the package is the newest one in the folder
fetched() {
    local package
    rm -rf unpacked fetched
    if ! command -v dpkg-deb >/dev/null 2>&1; then return 1; fi
    package=$(find "$wide" -name "$1_*.deb" | sort -V | tail -n 1)
    if [ -z "$package" ]; then
        (cd "$wide" && apt-get download "$1") >/dev/null 2>&1
        package=$(find "$wide" -name "$1_*.deb" | sort -V | tail -n 1)
    fi
    [ -n "$package" ] && dpkg-deb -x "$package" unpacked || return 1
    cp "$(find unpacked -path "unpacked/boot/$2" | sort -V | tail -n 1)" fetched 2>/dev/null
}
# newest WORD PATTERN: the name of the newest package that the folder has, or else apt-get, from this word on
newest() {
    local found
    found=$(find "$wide" -name "$1*.deb" | sed 's|.*/||; s/_.*//' | grep -xE "$1-$2" | sort -V | tail -n 1)
    [ -n "$found" ] || found=$(apt-cache pkgnames "$1" 2>/dev/null | grep -xE "$1-$2" | sort -V | tail -n 1)
    echo "$found"
}
# runs NAME PACKAGE FILE PROTOCOL LINE PATTERN OPTION..: the kernel says so on the serial port, and its handover is
# the program's
runs() {
    local name=$1 package=$2 file=$3 protocol=$4 line=$5 pattern=$6 word=ramdisk
    shift 6
    if ! fetched "$package" "$file"; then
        echo "skipped: no $name is booted, since the package ${package:-of it} is not at hand"
        return
    fi
    [ "$protocol" != multiboot2 ] || word=module
    mv fetched kernel
    if gzip -t <kernel 2>/dev/null; then
        gzip -dc <kernel >plain
        mv plain kernel
    fi
    files=(kernel ramdisk)
    image_mib=200
    disk <<END
timeout 0
write
title $name
protocol $protocol
kernel kernel
line $line
$word ramdisk
END
    says "$name, $protocol: it says what it is to say ($*)" "$pattern" 300 "$@"
    take_handover
    is_copied_well "$name, $protocol"
    is_programs "$name, $protocol"
}
amd64=$(newest linux-image '[0-9.]+-[0-9]+-amd64')
cloud=$(newest linux-image '[0-9.]+-[0-9]+-cloud-amd64')
line='console=ttyS0 panic=-1 no_timer_check' # no panic for a timer that comes late
for memory in 256M 1G 6G; do
    runs "Debian's kernel" "$amd64" 'vmlinuz-*' linux64 "$line" 'userland is reached' -m "$memory"
done
runs "Debian's kernel" "$amd64" 'vmlinuz-*' linux "$line" 'userland is reached' -m 1G
runs "Debian's kernel for clouds" "$cloud" 'vmlinuz-*' linux64 "$line" 'userland is reached' -m 3G
# its first program is one of 64 bits, which this kernel does not start
runs "Debian's kernel of 32 bits" "$(newest linux-image '[0-9.]+-[0-9]+-686')" 'vmlinuz-*' linux "$line" \
    'Run /init as init process' -m 1G
runs "memtest86+" 'memtest86+' 'memtest86+x64.bin' linux64 'console=ttyS0,115200' 'Memtest86' -m 1G
runs "memtest86+ of 32 bits" 'memtest86+' 'memtest86+ia32.bin' linux 'console=ttyS0,115200' 'Memtest86' -m 1G
# it reads a BIOS's data, which there are none of, and ends before it says something
runs "Xen" "$(newest xen-hypervisor '[0-9.]+-amd64')" 'xen-*-amd64.gz' multiboot2 'com1=115200,8n1 console=com1' \
    'Booting Xen' -m 1G

# ---- screens

# Cards whose frame buffer the firmware has, and one whose screen the firmware alone draws.
for card in VGA cirrus-vga qxl-vga bochs-display ramfb virtio-vga; do
    seen_painted "$card" -vga none -device "$card"
done
files=(told first second)
disk < <(told_menu)
tells "a kernel is told of no screen where the firmware alone draws" 3 -vga none -device virtio-gpu-pci

# ---- memtest86+ on the screen

# tested BITS FILE PROTOCOL: its 25 rows of 80 characters stand in the middle
tested() {
    local name="memtest86+ of $1 bits"
    if ! fetched 'memtest86+' "$2"; then
        echo "skipped: no $name is seen on a screen, since the package is not at hand"
        return
    fi
    mv fetched kernel
    files=(kernel)
    disk <<END
timeout 0
title $name
protocol $3
kernel kernel
END
    start
    if shown "$name stands on the screen" 300 'Memtest86\+ ' 80x25; then
        shown "$name tests memory" 120 'Test #[0-9]' 80x25
        is_no_blank "the screen of $name is not blank"
    fi
    stop
}
if [ ! -f "$linux" ] && fetched "$amd64" 'vmlinuz-*'; then
    cp fetched vmlinuz-fetched
    linux=$room/vmlinuz-fetched
fi
if has_console && console_starts; then
    stop
    tested 64 'memtest86+x64.bin' linux64
    tested 32 'memtest86+ia32.bin' linux
fi
