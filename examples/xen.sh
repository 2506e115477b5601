#!/usr/bin/env bash
# Boots the hypervisor `xen` with the Linux kernel `vmlinuz` and the initial ramdisk `initrd.img` for its
# first domain, all of the current folder, into `xen.image`:
#
#   apt-get download xen-hypervisor-4.17-amd64          # on Debian 12; apt-cache search has others
#   dpkg-deb -x xen-hypervisor-*.deb unpacked; zcat unpacked/boot/xen-*.gz > xen
#   PATH-OF-THIS-REPOSITORY/examples/xen.sh
#
# linux.sh says where to find a kernel and a ramdisk; ramdisk.sh makes a small one. Xen is an ELF file
# with a Multiboot2 header. Packages have it compressed, and bootcore hands over each file as it is.
#
# It prints `booted 0 Xen`. What Xen sees then, and what it does then, these show:
#   PATH-OF-THIS-REPOSITORY/bootcore walk xen.image
#   PATH-OF-THIS-REPOSITORY/examples/qemu.sh xen.image PATH-OF-THIS-REPOSITORY/examples/xen.toml
#
# The program is the variable BOOTCORE, else the script `bootcore` of the repository.
set -u
case "$#,${1:-}" in
0,) ;;
1,--help)
    echo "usage: examples/xen.sh"
    echo "  boots xen, vmlinuz and initrd.img of the current folder into xen.image"
    exit 0
    ;;
*)
    echo "usage: examples/xen.sh" >&2
    exit 64
    ;;
esac
top=$(cd "$(dirname "${BASH_SOURCE[0]}")/.." && pwd) || exit 1
for file in xen vmlinuz initrd.img; do
    if [ ! -f "$file" ]; then
        echo "xen.sh: there is no '$file' in the current folder;" \
            "this script says where to find one" >&2
        exit 1
    fi
done
exec "${BOOTCORE:-$top/bootcore}" boot "$top/examples/xen.toml" --out xen.image
