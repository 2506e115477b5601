"""Memory by address, in chunks so that a machine of 4 GiB costs what is written of it.
crates/bl_mem/README.md."""

from typing import Dict

CHUNK = 65536
# A block of 2^63 bytes or more is never asked for.
MAX_BLOCK = (1 << 63) - 1


class Memory:
    """One byte at each address below the size; each is `fill` until it is written."""

    def __init__(self, size: int, fill: int):
        self.size = size
        self.fill = fill
        self.chunks: Dict[int, bytearray] = {}

    def read(self, at: int, length: int) -> bytes:
        parts = []
        while length > 0:
            index, offset = divmod(at, CHUNK)
            count = min(length, CHUNK - offset)
            chunk = self.chunks.get(index)
            parts.append(bytes([self.fill]) * count if chunk is None
                         else bytes(chunk[offset:offset + count]))
            at, length = at + count, length - count
        return b"".join(parts)

    def write(self, at: int, data: bytes) -> None:
        """Changes these bytes and no other."""
        done = 0
        while done < len(data):
            index, offset = divmod(at + done, CHUNK)
            count = min(len(data) - done, CHUNK - offset)
            if index not in self.chunks:
                self.chunks[index] = bytearray([self.fill]) * CHUNK
            self.chunks[index][offset:offset + count] = data[done:done + count]
            done += count

    def zero(self, start: int, end: int) -> None:
        self.write(start, bytes(end - start))

    def holds(self, start: int, end: int) -> bool:
        """Whether the range goes forward and lies in memory."""
        return start <= end <= self.size
