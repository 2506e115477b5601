#!/usr/bin/env bash
# Boots the Multiboot2 kernel `kernel.elf` with the modules `ramdisk.img` and `settings.cfg`, all of
# the current folder, into `modules.image`:
#
#   mkdir trial; cd trial
#   cp YOUR-KERNEL kernel.elf; cp YOUR-FILE ramdisk.img; cp ANOTHER-FILE settings.cfg
#   PATH-OF-THIS-REPOSITORY/examples/modules.sh
#
# A kernel is an ELF file of 32 or 64 bits with a Multiboot2 header in its first 32768 bytes.
# Where GRUB is installed, this tells whether it has one, by its status:
#   grub-file --is-x86-multiboot2 kernel.elf
#
# A module is any file: bootcore looks at none of its bytes, and unpacks nothing.
#
# It prints `booted 0 kernel and modules`. What the kernel sees then, this prints:
#   PATH-OF-THIS-REPOSITORY/bootcore walk modules.image
#
# The program is the variable BOOTCORE, else the script `bootcore` of the repository.
set -u
case "$#,${1:-}" in
0,) ;;
1,--help)
    echo "usage: examples/modules.sh"
    echo "  boots kernel.elf, ramdisk.img and settings.cfg of the current folder into modules.image"
    exit 0
    ;;
*)
    echo "usage: examples/modules.sh" >&2
    exit 64
    ;;
esac
top=$(cd "$(dirname "${BASH_SOURCE[0]}")/.." && pwd) || exit 1
for file in kernel.elf ramdisk.img settings.cfg; do
    if [ ! -f "$file" ]; then
        echo "modules.sh: there is no '$file' in the current folder;" \
            "this script says where to find one" >&2
        exit 1
    fi
done
exec "${BOOTCORE:-$top/bootcore}" boot "$top/examples/modules.toml" --out modules.image
