"""The examples: the files that they boot, their images, and what walks and maps of them print, worked out by hand."""

import re
from pathlib import Path

from tests.support import TOP

EXAMPLES = TOP / "examples"
FIRST = EXAMPLES / "first.toml"
SECOND = EXAMPLES / "second.toml"
FIRMWARE = EXAMPLES / "firmware.toml"

# An image's bytes and its SHA-256. That is the one of the image that the model, written from docs/BOOT-RULES.md and
# docs/FORMATS.md alone, computes from the same files.
FIRST_IMAGE = (8616, "92fcf672e5559a3229cde842a1e1526d0e461c8b3dbcab37680e8a2edc88853b")
SECOND_IMAGE = (20872, "10e774a61468ff4dd9324c93359df539266158fec38374786e8bbc38cc5017ce")
SECOND_IMAGE_1 = (20704, "2499b11945be2d754999318ffa312a0dd724a0e1ebcfbcae6e23fef4f76d3b72")  # in version 1
# 272 bytes of head, 4 records of 24, and 1 frame of information, 80 bytes, 2 frames and 1 frame
MODULES_IMAGE = (16832, "4c1fcaf807227918b3b34eac7833c283baed1f73f210d5127bfbcf26827da8dd")
LINUX_IMAGE = (20872, "557f19275ac46a52f02c990e2e3c8871ae167067ef497266bac72b9967a25bb8")
# 272 bytes of head, 6 records of 24, 3 frames, 6 of page tables, a frame of kernel, one of the ramdisk
LINUX64_IMAGE = (45472, "430a74df792c8ed0ac837d682d44ce7d249178c25374c9d24a16ff66711bb5b6")
# 272 bytes of head, 4 records of 24, and 1 frame of information, 80 bytes, 1 frame and 1 frame
XEN_IMAGE = (12736, "e7555c1fcc91785c3e2cd5be9beac539fb602581ae01d8f73d84c9dfe1b0c8dc")
# 272 bytes of head, 2 records of 24, and 1 frame of information and 80 bytes
FIRMWARE_IMAGE = (4496, "2fa012ee00fe96e34b80aeb3b19db98224d0b1a0f683d1200b334065f5aa1741")
# 272 bytes of head, 4 records of 24, 3 frames and one of kernel
FIRMWARE_LINUX_IMAGE = (16752, "59261b085c95ce5d8886dff4abc6439c96766609f0002c6e8556f03faebbbac6")

FIRST_MAP = """\
0000000000000000 000000000009f000 usable
00000000000f0000 0000000000100000 reserved
0000000000100000 0000000000400000 usable
low 636
high 3072
pool 0000000000300000 0000000000400000
"""

FIRST_WALK = """\
protocol multiboot2
entry 00100010
line 1 6b
kernel 00100000 80
module 00101000 5 1 6d
map 0000000000000000 000000000009f000 1
map 00000000000f0000 0000000000100000 2
map 0000000000100000 0000000000400000 1
"""

# The kernel's segment is 0x30 bytes of its file and 0x20 zeros, at 0x100000. The first module, one byte over a frame,
# takes two frames from the next frame on, and the second one the frame after.
MODULES_WALK = """\
protocol multiboot2
entry 00100010
line 20 766572626f736520726f6f743d72616d6469736b
kernel 00100000 80
module 00101000 4097 7 72616d6469736b
module 00103000 10 8 73657474696e6773
map 0000000000000000 000000000009fc00 1
map 000000000009fc00 00000000000a0000 2
map 00000000000f0000 0000000000100000 2
map 0000000000100000 0000000003fe0000 1
map 0000000003fe0000 0000000004000000 2
map 00000000fffc0000 0000000100000000 2
"""

# The kernel prefers 1 MiB and needs 0x1000 bytes. The initial ramdisk is in the last usable frame, which lies below the
# kernel's limit of 0x37ffffff.
LINUX_PARTS = """\
line 13 636f6e736f6c653d7474795330
kernel 00100000 4096
initrd 1ffdf000 5
map 0000000000000000 000000000009fc00 1
map 000000000009fc00 00000000000a0000 2
map 00000000000f0000 0000000000100000 2
map 0000000000100000 000000001ffe0000 1
map 000000001ffe0000 0000000020000000 3
map 00000000fffc0000 0000000100000000 2
"""
LINUX_WALK = "protocol linux\nentry 00100000\n" + LINUX_PARTS
# By the 64-bit entry: 0x200 bytes behind 1 MiB
LINUX64_WALK = "protocol linux64\nentry 00100200\n" + LINUX_PARTS

# What the description has, in the words of each protocol. The SHA-256 are those of the bytes of its `map`, 4 descriptors
# of 48, and of its `tables`.
FIRMWARE_BOTH = """\
map 0000000000000000 00000000000a0000 1
map 0000000000100000 0000000003e00000 1
map 0000000003e00000 0000000003f00000 2
map 0000000003f00000 0000000003f20000 3
screen 00000000fd000000 4096 1024 768 32 16+8 8+8 0+8
"""
FIRMWARE_WALK = f"""\
protocol multiboot2
entry 00100010
line 0
kernel 00100000 80
{FIRMWARE_BOTH}\
efi 64 0000000003e02018
efi-map - 192 48 1 901da438b83398d57ece9ed8ba01f6464e6a9ad8f85d865a9724e31591ff8026
smbios 3 0 36 707dda40fbbd12953cb34354a409a073d9b951894b1fc203de0241ac3eb033c5
"""
FIRMWARE_LINUX_WALK = f"""\
protocol linux
entry 00100000
line 0
kernel 00100000 4096
{FIRMWARE_BOTH}\
rsdp 0000000003f00014
efi 64 0000000003e02018
efi-map 0000000003e01000 192 48 1 -
secure-boot 2
"""

LINUX_MAP = """\
0000000000000000 000000000009fc00 usable
000000000009fc00 00000000000a0000 reserved
00000000000f0000 0000000000100000 reserved
0000000000100000 000000001ffe0000 usable
000000001ffe0000 0000000020000000 acpi
00000000fffc0000 0000000100000000 reserved
low 639
high 523136
pool 0000000005000000 0000000013000000
"""

# From the lines of the firmware in the example's comments, where an end is the last byte and one more: the three ranges
# from 0xbf7d0000 on adjoin and are reserved, so they are one run. low is 0x9d800 over 1024, and high is 0xbf780000 less
# 0x100000 over 1024.
MACHINE_MAP = """\
0000000000000000 000000000009d800 usable
000000000009d800 00000000000a0000 reserved
00000000000e0000 0000000000100000 reserved
0000000000100000 00000000bf780000 usable
00000000bf780000 00000000bf78e000 acpi
00000000bf78e000 00000000bf7d0000 nvs
00000000bf7d0000 00000000c0000000 reserved
00000000fee00000 00000000fee01000 reserved
00000000ffb00000 0000000100000000 reserved
0000000100000000 0000000440000000 usable
low 630
high 3136000
pool 0000000010000000 0000000020000000
"""


def multiboot2_kernel() -> bytes:
    """The ELF kernel of examples/first.toml."""
    text = FIRST.read_text(encoding="utf-8")
    return bytes.fromhex(re.search(r'^hex = "([0-9a-f]+)"$', text, re.M)[1])


def linux_kernel() -> bytes:
    """The bzImage of examples/second.toml, which has the 32-bit entry alone."""
    text = SECOND.read_text(encoding="utf-8")
    folded = re.search(r'^hex = """\\\n(.*?)"""$', text, re.M | re.S)[1]
    return bytes.fromhex(folded.replace("\\", ""))


def linux64_kernel() -> bytes:
    """The same bzImage with bit 0 of xloadflags, and 0x200 bytes more for the 64-bit entry to lie in."""
    kernel = linux_kernel()
    return kernel[:0x236] + b"\x01" + kernel[0x237:] + bytes(0x200)


def write_modules(folder: Path) -> None:
    """The files of examples/modules.sh."""
    (folder / "kernel.elf").write_bytes(multiboot2_kernel())
    (folder / "ramdisk.img").write_bytes(b"r" * 4097)
    (folder / "settings.cfg").write_bytes(b"verbose=1\n")


def write_linux(folder: Path, kernel: bytes) -> None:
    """The files of examples/linux.sh."""
    (folder / "vmlinuz").write_bytes(kernel)
    (folder / "initrd.img").write_bytes(b"hello")
