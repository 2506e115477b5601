#!/usr/bin/env bash
# Boots the Linux kernel `vmlinuz` with the initial ramdisk `initrd.img`, both of the current
# folder, into `linux.image`:
#
#   mkdir trial; cd trial
#   cp /boot/vmlinuz-* vmlinuz; cp /boot/initrd.img-* initrd.img       # if there is one of each
#   PATH-OF-THIS-REPOSITORY/examples/linux.sh
#
# By the kernel's 64-bit entry, and if it has none by the 32-bit one, it is booted by
#   PATH-OF-THIS-REPOSITORY/examples/linux.sh linux64
#
# Here is where a user has them. Some can be read by root alone:
#   Debian, Ubuntu   /boot/vmlinuz-VERSION    /boot/initrd.img-VERSION
#   Fedora, RHEL     /boot/vmlinuz-VERSION    /boot/initramfs-VERSION.img
#   Arch             /boot/vmlinuz-linux      /boot/initramfs-linux.img
#   openSUSE         /boot/vmlinuz-VERSION    /boot/initrd-VERSION
#
# If no kernel is installed, a package has one, which need not be installed either. On Debian,
# VERSION is that of the package that `apt-cache depends linux-image-amd64` names:
#   apt-get download linux-image-VERSION
#   dpkg-deb -x linux-image-*.deb unpacked; cp unpacked/boot/vmlinuz-* vmlinuz
#
# An initial ramdisk is any file: bootcore looks at none of its bytes, and unpacks nothing. This
# makes one of a folder's files; ramdisk.sh makes a small one with a login prompt:
#   (cd FOLDER && find . | cpio -o -H newc) | gzip > initrd.img
#
# It prints `booted 0 Linux`, by the 64-bit entry `booted 0 Linux, 64-bit entry`. What the kernel
# sees then, and what it does then, these show:
#   PATH-OF-THIS-REPOSITORY/bootcore walk linux.image
#   PATH-OF-THIS-REPOSITORY/examples/qemu.sh linux.image PATH-OF-THIS-REPOSITORY/examples/linux.toml
#
# docs/FORMATS.md says what linux.image holds. This shows the fields of the kernel's setup header:
#   xxd -s 0x1f1 -l 0x80 vmlinuz
#
# The program is the variable BOOTCORE, else the script `bootcore` of the repository.
set -u
entry=${1:-linux}
case "$#,$entry" in
0,* | 1,linux | 1,linux64) ;;
1,--help)
    echo "usage: examples/linux.sh [linux|linux64]"
    echo "  boots vmlinuz and initrd.img of the current folder into linux.image, by the 32-bit entry"
    echo "  or by the 64-bit one"
    exit 0
    ;;
*)
    echo "usage: examples/linux.sh [linux|linux64]" >&2
    exit 64
    ;;
esac
top=$(cd "$(dirname "${BASH_SOURCE[0]}")/.." && pwd) || exit 1
for file in vmlinuz initrd.img; do
    if [ ! -f "$file" ]; then
        echo "linux.sh: there is no '$file' in the current folder;" \
            "this script says where to find one" >&2
        exit 1
    fi
done
exec "${BOOTCORE:-$top/bootcore}" boot "$top/examples/$entry.toml" --out linux.image
