"""The cases of cases/ that are accepted, and how a driver in C is given one: see case.h."""

import os
import struct
import subprocess
import sys

TOP = os.path.dirname(os.path.dirname(os.path.dirname(os.path.abspath(__file__))))
sys.path.insert(0, os.path.join(TOP, "model"))
from rules import booting, description  # noqa: E402
from rules.firmware import NO_FIRMWARE  # noqa: E402

NO_FILE = 0xFFFFFFFFFFFFFFFF
MISSING = struct.pack("<QQ", 0xFFFFFFFFFFFFFFFF, 0)


def accepted(folder):
    """How many cases there are, and of each whose description is accepted: its name, what is said, its image's digest, and itself."""
    subprocess.run([os.path.join(TOP, "cases", "expand"), folder], check=True)
    with open(os.path.join(folder, "wanted"), encoding="utf-8") as table:
        rows = [line.rstrip("\n").split("|") for line in table]

    def read():
        for name, status, said, digest in rows:
            if status in ("0", "1"):
                with open(os.path.join(folder, name + ".toml"), "rb") as file:
                    yield name, said, digest, description.read(file.read())

    return len(rows), read()


def spelled(described, path_named=booting.paths_from(TOP)):
    """What a driver reads, by case.h; path_named says what is at a path."""
    contents, files, modules, entries = bytearray(), [], [], []
    indices = {}

    def range_of(given):
        contents.extend(given)
        return struct.pack("<QQ", len(contents) - len(given), len(given))

    def file_of(name):
        if name not in indices:
            indices[name] = len(files)
            whole = described.files[name] if name in described.files else path_named(name)
            files.append(MISSING if whole is None else range_of(whole))
        return indices[name]

    for entry in described.entries:
        kernel = file_of(entry.kernel)
        initrd = NO_FILE if entry.initrd is None else file_of(entry.initrd)
        entries.append(struct.pack("<4Q", entry.protocol, kernel, initrd, len(entry.modules)) + range_of(entry.line)
                       + range_of(entry.rsdp_old or b"") + range_of(entry.rsdp_new or b""))
        modules += [struct.pack("<Q", file_of(name)) + range_of(line) for name, line in entry.modules]
    machine = described.machine
    regions = [struct.pack("<QQII", region.base, region.length, region.kind, 0) for region in machine.regions]
    avoided = [struct.pack("<QQ", start, end - start) for start, end in machine.firmware.avoided]
    told = [] if machine.firmware == NO_FIRMWARE else [spelled_firmware(machine.firmware, range_of)]
    start, end = machine.pool
    numbers = struct.pack("<12Q", machine.size, start, end - start, described.fill, len(regions), len(avoided), len(told), len(files),
                          len(entries), described.default, len(described.fallbacks), len(contents))
    fallbacks = struct.pack(f"<{len(described.fallbacks)}I", *described.fallbacks)
    return numbers + b"".join(regions + avoided + told + files + entries) + contents + b"".join(modules) + fallbacks


def spelled_firmware(told, range_of):
    """What firmware tells, but for the ranges to avoid; what it does not tell is 0."""
    screen, efi, smbios = told.screen, told.efi, told.smbios
    colors = [] if screen is None else [number for color in screen[5:] for number in color]
    pixels = bytes(32) if screen is None else struct.pack("<QIIIBB6BI", *screen[:5], 0, *colors, 0)
    numbers = [0] * 6 if efi is None else [efi.system_table, efi.map_address, efi.bits, efi.descriptor_size, efi.descriptor_version,
                                           efi.secure_boot]
    numbers += [0] * 2 if smbios is None else [smbios.major, smbios.minor]
    tables = range_of(b"" if efi is None else efi.map) + range_of(b"" if smbios is None else smbios.tables)
    return pixels + struct.pack("<9Q", told.rsdp or 0, *numbers) + tables
