#!/usr/bin/env bash
# Makes a small initial ramdisk, `initrd.img` in the current folder: busybox, and a login prompt on the
# kernel's console. linux.sh boots it with a kernel, qemu.sh shows it:
#
#   apt-get install busybox-static cpio                 # on Debian and Ubuntu
#   PATH-OF-THIS-REPOSITORY/examples/ramdisk.sh
#
# It needs no root. busybox must be linked statically, since the ramdisk has no library: it is the one
# on the PATH, or the variable BUSYBOX. The same busybox makes the same bytes each time: names are
# sorted, and no time and no owner of this machine is in them.
set -uo pipefail
umask 022
usage="usage: examples/ramdisk.sh
  makes initrd.img in the current folder"

fail() {
    echo "ramdisk.sh: $1" >&2
    exit 1
}
case "$#,${1:-}" in
0,) ;;
1,--help)
    echo "$usage"
    exit 0
    ;;
*)
    echo "$usage" >&2
    exit 64
    ;;
esac
busybox=${BUSYBOX:-$(command -v busybox)}
if [ ! -x "$busybox" ] || ldd "$busybox" >/dev/null 2>&1; then
    fail "there is no busybox that is linked statically; on Debian: apt-get install busybox-static"
fi
command -v cpio >/dev/null 2>&1 || fail "there is no cpio; on Debian: apt-get install cpio"
[ ! -e initrd.img ] || fail "there is an 'initrd.img' in the current folder already"

room=$(mktemp -d) || exit 1
trap 'rm -rf "$room"' EXIT
mkdir -p "$room"/{bin,dev,etc,proc,root,sys} || exit 1
cp "$busybox" "$room/bin/busybox" || exit 1
for name in $("$busybox" --list); do
    [ "$name" = busybox ] || ln -s busybox "$room/bin/$name"
done
# the kernel starts /init, which is busybox's init and reads inittab
ln -s bin/busybox "$room/init"
cat >"$room/etc/inittab" <<'END'
::sysinit:/etc/start
::respawn:/etc/prompt
::ctrlaltdel:/bin/reboot
END
cat >"$room/etc/start" <<'END'
#!/bin/sh
mount -t devtmpfs none /dev
mount -t proc none /proc
mount -t sysfs none /sys
hostname ramdisk
END
cat >"$room/etc/prompt" <<'END'
#!/bin/sh
# the kernel's last console: ttyS0 by console=ttyS0, hvc0 under Xen; a serial port that is not there is one too
read -r consoles </sys/class/tty/console/active
for console in $consoles; do
    if printf '\r' >"/dev/$console"; then last=$console; fi
done 2>/dev/null
exec getty -L 115200 "${last:-${consoles##* }}" vt100
END
chmod 755 "$room"/etc/{start,prompt} "$room/bin/busybox"
echo 'root::0:0:root:/root:/bin/sh' >"$room/etc/passwd"
printf '\nLog in as root. The command reboot -f ends the machine.\n' >"$room/etc/issue"

find "$room" -exec touch -h -d @0 {} +
(cd "$room" && find . -print0 | LC_ALL=C sort -z |
    cpio --null --quiet --reproducible --owner 0:0 -o -H newc) | gzip -n >initrd.img || {
    rm -f initrd.img
    fail "the ramdisk could not be made"
}
