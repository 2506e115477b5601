"""The setup of a Linux kernel. BOOT-RULES.md "A Linux kernel's file"; LBP."""

from typing import NamedTuple

from .numbers import u16, u32, u64
from .refusals import refuse

HEADER_START = 0x1F1
MAX_HEADER_END = 0x290
LEAST_HEADER_END = 0x264


class Setup(NamedTuple):
    header: bytes  # the file from 0x1F1 to the header's end
    payload_at: int  # file offset; the payload goes to the file's end
    initrd_addr_max: int
    kernel_alignment: int
    is_relocatable: bool
    cmdline_size: int
    pref_address: int
    init_size: int
    version: int
    xloadflags: int
    payload_length: int

    @property
    def header_end(self) -> int:
        """As a file offset."""
        return HEADER_START + len(self.header)


def header_end(data: bytes) -> int:
    """0x202 and the byte at 0x201, at most 0x290; of a file, or of boot parameters."""
    return min(0x202 + data[0x201], MAX_HEADER_END)


def read(file: bytes) -> Setup:
    """Refused with 22 to 26 and 18."""
    if len(file) < 1024 or u16(file, 0x1FE) != 0xAA55 or file[0x202:0x206] != b"HdrS":
        refuse(22)
    if u16(file, 0x206) < 0x020A:  # version
        refuse(23)
    if file[0x211] % 2 == 0:  # loadflags
        refuse(24)
    setup_sects = file[0x1F1] if file[0x1F1] != 0 else 4
    setup = Setup(
        header=file[HEADER_START:header_end(file)],
        payload_at=(setup_sects + 1) * 512,
        initrd_addr_max=u32(file, 0x22C),
        kernel_alignment=u32(file, 0x230),
        is_relocatable=file[0x234] != 0,
        cmdline_size=u32(file, 0x238),
        pref_address=u64(file, 0x258),
        init_size=u32(file, 0x260),
        version=u16(file, 0x206),
        xloadflags=u16(file, 0x236),
        payload_length=len(file) - (setup_sects + 1) * 512,
    )
    if setup.header_end < LEAST_HEADER_END or len(file) <= setup.payload_at:
        refuse(25)
    if setup.is_relocatable and not is_power_of_two(setup.kernel_alignment):
        refuse(18)
    if not setup.is_relocatable and not 0x100000 <= setup.pref_address <= 0xFFFFFFFF:
        refuse(26)
    return setup


def is_power_of_two(value: int) -> bool:
    return value > 0 and value & (value - 1) == 0
