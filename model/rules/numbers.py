"""Numbers in bytes, the lowest byte first, and whole frames."""

FRAME = 4096


def u8(data: bytes, at: int) -> int:
    return data[at]


def u16(data: bytes, at: int) -> int:
    return int.from_bytes(data[at:at + 2], "little")


def u32(data: bytes, at: int) -> int:
    return int.from_bytes(data[at:at + 4], "little")


def u64(data: bytes, at: int) -> int:
    return int.from_bytes(data[at:at + 8], "little")


def word(value: int) -> bytes:
    """Four bytes."""
    return value.to_bytes(4, "little")


def long(value: int) -> bytes:
    """Eight bytes."""
    return value.to_bytes(8, "little")


def round_up(value: int, step: int) -> int:
    return -(-value // step) * step


def round_down(value: int, step: int) -> int:
    return value // step * step


def frames(length: int) -> int:
    """How many frames hold so many bytes."""
    return -(-length // FRAME)
