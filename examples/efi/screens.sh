# shellcheck shell=bash disable=SC2034,SC2154 # its variables are used where it is sourced, or come from there
# Sourced by `check`, which has the words: what stands on a machine's screen, by the pictures that QEMU's monitor makes of
# it; and machines of other parts.

# ---- the screen

# shoot: the machine's screen as the file shot.ppm; once the monitor answers the next word, the file is whole
shoot() {
    local i answers='^[0-9]+\.[0-9]+\.' before
    before=$(grep -cE "$answers" said)
    rm -f shot.ppm
    ask 'screendump shot.ppm' 'info version'
    for ((i = 0; i < 100; i++)); do
        [ "$(grep -cE "$answers" said)" = "$before" ] || break
        sleep 0.1
    done
    [ -s shot.ppm ]
}
# look COMMAND [WORD ..]: what host/screen.py makes of that picture
look() {
    local command=$1
    shift
    python3 "$here/host/screen.py" "$command" shot.ppm "$@"
}
# until_look SECONDS COMMAND [WORD ..]: waits until that has the status 0; `rows` has what it prints
until_look() {
    local end=$((SECONDS + $1))
    shift
    while [ "$SECONDS" -lt "$end" ]; do
        if shoot && look "$@" >rows 2>&1; then return 0; fi
        kill -0 "$running" 2>/dev/null || break
        sleep 1
    done
    return 1
}
# shown NAME SECONDS PATTERN [SIZE]: waits until a row of the text on the screen is so. The file `font` has how each
# character is drawn
shown() {
    local end=$((SECONDS + $2))
    while [ "$SECONDS" -lt "$end" ]; do
        if until_look 1 text font ${4:+"$4"} && grep -qE -e "$3" rows; then
            good "$1"
            return 0
        fi
        kill -0 "$running" 2>/dev/null || break
    done
    bad "$1"
    tail -n 60 rows
    screen | tail -n 25
    return 1
}
# is_no_blank NAME: the last picture is not of one colour, nor of many
is_no_blank() {
    local share
    share=$(look share)
    check "$1: $share of 1000 pixels have another colour than the others" test "$?" = 0
}
# typed TEXT: by the keys of an American keyboard
typed() {
    local i key
    for ((i = 0; i < ${#1}; i++)); do
        key=${1:i:1}
        case $key in
        ' ') key=spc ;;
        '-') key=minus ;;
        '|') key=shift-backslash ;;
        [A-Z]) key=shift-${key,} ;;
        esac
        ask "sendkey $key"
        sleep 0.3 # it has to read them all
    done
    ask 'sendkey ret'
}

# ---- Linux's console

# console_ramdisks: initrd.img of ramdisk.sh, and `over`, which lies over it. That one lists UEFI's variables on the serial
# port, and writes the printable characters to the top of the screen, by which all else there can be read
console_ramdisks() {
    local code version
    if [ ! -f initrd.img ] && ! "$top/examples/ramdisk.sh" >ramdisk.said 2>&1; then return 1; fi
    {
        printf '\033[2J\033[H'
        for ((code = 32; code < 127; code++)); do
            printf '%b' "\\x$(printf %x "$code")"
            if [ $((code % 32)) = 31 ]; then printf '\r\n'; fi
        done
        printf '\r\n'
    } >letters
    cat >start_over <<'END'
#!/bin/sh
mount -t devtmpfs none /dev
mount -t proc none /proc
mount -t sysfs none /sys
hostname ramdisk
[ ! -f /efivarfs.ko ] || insmod /efivarfs.ko
mount -t efivarfs none /sys/firmware/efi/efivars >/dev/ttyS0 2>&1 &&
    ls /sys/firmware/efi/efivars | sed 's/^/a variable: /' >/dev/ttyS0
cat /letters >/dev/tty0
END
    # beside the kernel in its package, or installed; the kernel's own version stands where its header says
    version=$(tail -c +$(($(number "$linux" 526 2) + 513)) "$linux" | head -c 100 | sed -z 's/ .*//; q' | tr -d '\0')
    efivarfs=$(find "$(dirname "$linux")/../lib/modules/$version" "/lib/modules/$version" -name efivarfs.ko 2>/dev/null | head -n 1)
    {
        packed letters $((0x81a4)) 0 0 letters
        packed etc/start $((0x81ed)) 0 0 start_over
        [ -z "$efivarfs" ] || packed efivarfs.ko $((0x81a4)) 0 0 "$efivarfs"
        packed 'TRAILER!!!' 0 0 0
    } >over
}
# console_disk RAMDISK..: the machine's last console is the screen
console_disk() {
    cp "$linux" vmlinuz
    files=(vmlinuz "$@")
    disk < <(
        printf '%s\n' 'timeout 0' 'title Linux' 'protocol linux64' 'kernel vmlinuz' \
            'line console=ttyS0 console=tty0 panic=-1 no_timer_check'
        printf 'ramdisk %s\n' "$@"
    )
}
# console_starts OPTION..: Linux with its console on the screen, up to those characters
console_starts() {
    console_disk initrd.img over
    rm -f font
    start "$@"
    if until_look 300 letters font; then
        good "Linux writes each character to the screen"
    else
        bad "Linux writes each character to the screen"
        head -n 5 rows
        screen | tail -n 25
        stop
        return 1
    fi
}
# What is typed is answered, so it is no picture of a moment ago.
seen_console() {
    console_starts -smp 4 || return
    shown "on the screen Linux's console asks for a login" 60 '^ramdisk login:'
    typed root
    shown "on the screen a login that is typed is answered" 60 '^(~|/root) #'
    typed 'dmesg | grep -e DMI -e fb0'
    shown "on the screen Linux says what it knows of the screen" 60 '\] fb0: .*frame buffer device'
    is_no_blank "the screen of Linux's console is not blank"
    stop
    check "Linux has all of four processors" grep -qaE 'Brought up 1 node, 4 CPUs' serial
    finds_firmware "by its console on the screen"
    if grep -qa 'a variable: SecureBoot-' serial; then
        good "Linux mounts the variables of UEFI: $(grep -ca 'a variable: ' serial)"
    elif [ -z "$efivarfs" ] && grep -qa 'efivars failed' serial; then
        echo "skipped: Linux mounts no variables of UEFI, since its module efivarfs.ko is not beside the kernel"
    else
        bad "Linux mounts the variables of UEFI"
        screen | tail -n 25
    fi
}

# ---- a stick, and other machines

# stick: the image of a stick, by the two commands of docs/EFI.md: its one partition has FAT, and the type that it has in a shop
stick() {
    local line mib
    rm -rf stick stick.img
    line=$(sed -n "s/^LINE='\(.*\)' .*make_esp stick$/\1/p" "$top/docs/EFI.md")
    if ! LINE="$line no_timer_check" "$here/make_esp" stick "$linux" initrd.img; then return 1; fi >/dev/null
    mib=$((8 + $(du -sm stick | cut -f 1)))
    truncate -s "$((mib + 1))M" stick.img
    # from sector 2048 on; heads and cylinders say nothing
    printf '%b' "\0\xfe\xff\xff\x0c\xfe\xff\xff$(bytes 4 2048 $((mib * 2048)) | sed 's/../\\x&/g')" |
        dd of=stick.img bs=1 seek=446 conv=notrunc 2>/dev/null
    printf '\x55\xaa' | dd of=stick.img bs=1 seek=510 conv=notrunc 2>/dev/null
    mformat -i stick.img@@1M -h 64 -s 32 -T $((mib * 2048)) :: && mcopy -s -i stick.img@@1M stick/EFI stick/bootcore ::
}
# The machine has a disk of its own too, with a bad menu and without the boot manager.
seen_stick() {
    if ! stick; then
        bad "a stick is made"
        return
    fi
    files=()
    disk <<'END'
colour blue
END
    mdeltree -i disk.img ::EFI
    port=none
    start -drive if=none,format=raw,cache=unsafe,id=stick,file=stick.img -device qemu-xhci -device usb-storage,drive=stick
    port=
    if shown "a stick boots a machine without a serial port to a login prompt on the screen" 300 '^ramdisk login:'; then
        check "and the kernel's lines stand above it" grep -qE '^\[ *[0-9]+\.[0-9]+\] Run /init' rows
        typed root
        shown "there a login that is typed is answered" 60 '^(~|/root) #'
    fi
    stop
}
# Nothing is shown, and nobody can press a key: what runs, the processor's registers say.
unseen() {
    files=(spin_multiboot2)
    disk <<'END'
timeout 1
title Stays at its first instruction
protocol multiboot2
kernel spin_multiboot2
END
    local i
    port=none
    start -vga none -machine i8042=off
    port=
    for ((i = 0; i < 360; i++)); do
        ask 'info registers'
        sleep 0.5
        if grep -qaE '^EIP=002000' said; then break; fi
    done
    check "a machine without screen, keyboard and serial port boots" test "$i" -lt 360
    stop
}

# A firmware that checks signatures, with keys, does not start the application, which nobody signed; then it goes on.
unsigned() {
    local build=/usr/share/OVMF/OVMF_CODE_4M.ms.fd
    if [ ! -f "$build" ]; then
        echo "skipped: no firmware refuses what is not signed, since $build is not at hand"
        return
    fi
    cp "${build/CODE/VARS}" variables
    files=(told first second)
    disk < <(told_menu)
    OVMF=$build says "firmware that checks signatures does not start what is not signed, and goes on" \
        'BdsDxe: No bootable option or device was found' 180 -machine q35,smm=on \
        -global driver=cfi.pflash01,property=secure,value=on -drive if=pflash,format=raw,unit=1,file=variables
    check "since access is denied" grep -qaE 'failed to load .*HARDDISK.*: Access Denied' serial
    check "and so no kernel runs" test -z "$(grep -aE 'bootcore:|told' serial)"
}

# ---- a kernel that paints

# seen_painted CARD OPTION..: examples/kernels/screen.S, which draws by tag 8; at its end the machine stands still
seen_painted() {
    local name="a Multiboot2 kernel paints the screen of $1, and each pixel is as it should be"
    shift
    if ! command -v python3 >/dev/null 2>&1; then
        echo "skipped: no kernel is seen to paint, since python3 is not at hand"
        return
    fi
    if ! gcc -m32 -c -I"$top/examples/kernels" "$top/examples/kernels/screen.S" -o screen.o ||
        ! ld -m elf_i386 -Ttext 0x100000 --oformat binary -e 0 --build-id=none screen.o -o paints; then
        bad "the kernel that paints is made"
        return
    fi
    files=(paints)
    disk <<'END'
timeout 0
write
title Paints
protocol multiboot2
kernel paints
END
    start -no-shutdown "$@"
    if ! seen 180 '^ended'; then
        bad "$name"
        screen | tail -n 25
    elif ! shoot || ! take_handover || ! look painted handover.toml >difference; then
        bad "$name"
        cat difference
    else
        good "$name: $(($(fact firmware.screen width))) by $(($(fact firmware.screen height)))"
    fi
    stop
}

# ---- all of these

# has_console: or says why no console can be seen
has_console() {
    local why
    if ! command -v python3 >/dev/null 2>&1; then
        why="python3 is not at hand"
    elif [ ! -f "$linux" ]; then
        why="no kernel is at hand; KERNEL names one"
    elif ! console_ramdisks; then
        why="there is no ramdisk: $(head -n 1 ramdisk.said)"
    fi
    [ -z "${why:-}" ] || echo "skipped: no console is seen on a screen, since $why"
    [ -z "${why:-}" ]
}
screens() {
    seen_painted "QEMU's card"
    if has_console; then
        seen_console
        if [ -f font ]; then seen_stick; fi
    fi
    unseen
    unsigned
}
# make_picture: of a smaller screen, with more on it. The characters are learned in a boot before
make_picture() {
    local screen=(-vga none -device 'VGA,xres=800,yres=600')
    if ! has_console || ! console_starts "${screen[@]}"; then return 1; fi
    stop
    console_disk initrd.img
    start "${screen[@]}"
    if shown "the login prompt stands on the screen" 300 '^ramdisk login:'; then
        typed root
        shown "a login is answered" 60 '^(~|/root) #'
        typed 'dmesg | grep -e EFI -e DMI -e fb0'
        shown "it says what it knows of the firmware" 60 'fb0: '
        sleep 2
        if shoot && look png "$picture"; then good "$picture is made"; else bad "$picture is made"; fi
    fi
    stop
}
