"""For the test: what is on a machine's screen, by the picture that QEMU's command screendump makes of it, a PPM.

    screen.py letters PICTURE FONT   learns how Linux's console draws the printable characters of ASCII. They stand in three
                                     rows, which begin at the left; nothing above them is looked at. FONT becomes a file
    screen.py text PICTURE FONT      prints the rows of a console, `?` for what is no character; with `80x25` behind it of one
                                     that has so many columns and rows, in the middle of the screen
    screen.py share PICTURE          prints how many of 1000 pixels have another colour than the commonest one; of 2 to 500 there
                                     may be text
    screen.py painted PICTURE DESC   whether each pixel is as examples/kernels/screen.S paints the screen of a description
    screen.py png PICTURE OUT        the picture as a PNG of few bytes; it has at most 256 colours

The status is 1 if it is not so, and standard output says why."""

import re
import struct
import sys
import zlib
from collections import Counter
from pathlib import Path
from typing import Callable, Dict, Iterator, List, NamedTuple, Tuple

sys.dont_write_bytecode = True

WIDTH, HEIGHT = 8, 16  # of a character on Linux's console
CHARACTERS = [chr(code) for code in range(ord(" "), ord("~") + 1)]
IN_ROW = 32


class NotSo(Exception):
    pass


class Picture(NamedTuple):
    """Three bytes a pixel: red, green and blue."""

    width: int
    height: int
    pixels: bytes


def read_picture(path: str) -> Picture:
    read = Path(path).read_bytes()
    head = re.match(rb"P6\s(\d+)\s(\d+)\s255\s", read)
    if head is None or len(read) != head.end() + 3 * int(head[1]) * int(head[2]):
        raise NotSo(f"{path} is no picture of a screen")
    return Picture(int(head[1]), int(head[2]), read[head.end() :])


def pixels_of(picture: Picture) -> List[Tuple[int, ...]]:
    return list(zip(*(picture.pixels[place::3] for place in range(3))))


def colors(picture: Picture) -> List[Tuple[Tuple[int, ...], int]]:
    """The commonest first."""
    return Counter(pixels_of(picture)).most_common()


# ---- a console's text


def middle(picture: Picture, columns: int, rows: int) -> Picture:
    width, height = columns * WIDTH, rows * HEIGHT
    left, top = (picture.width - width) // 2, (picture.height - height) // 2
    if left < 0 or top < 0:
        raise NotSo(f"the screen has {picture.width} by {picture.height} pixels, fewer than {columns} by {rows} characters")
    starts = [((top + line) * picture.width + left) * 3 for line in range(height)]
    return Picture(width, height, b"".join(picture.pixels[start : start + width * 3] for start in starts))


def drawn(cell: bytes) -> bytes:
    """A byte for each of a cell's pixels: 0 in its commonest colour, else 1."""
    ground = max(set(cell), key=cell.count)
    return bytes(color != ground for color in cell)


def cells(picture: Picture) -> Iterator[List[bytes]]:
    """Of each row what is drawn in its cells. More colours than a byte has numbers are no text."""
    places = {color: min(at, 255) for at, (color, _) in enumerate(colors(picture))}
    numbers = bytes(places[color] for color in pixels_of(picture))
    for top in range(0, picture.height - HEIGHT + 1, HEIGHT):
        starts = range(top * picture.width, (top + HEIGHT) * picture.width, picture.width)
        lines = [numbers[start : start + picture.width] for start in starts]
        yield [drawn(b"".join(line[left : left + WIDTH] for line in lines)) for left in range(0, picture.width - WIDTH + 1, WIDTH)]


def learned(picture: Picture) -> Dict[bytes, str]:
    """The first rows that have 95 cells of which no two are alike, where the characters would stand."""
    rows = list(cells(picture))
    for at in range(len(rows) - 2):
        found = (rows[at][:IN_ROW] + rows[at + 1][:IN_ROW] + rows[at + 2])[: len(CHARACTERS)]
        if not any(found[0]) and len(set(found)) == len(CHARACTERS) and not any(map(any, rows[at][IN_ROW:])):
            return dict(zip(found, CHARACTERS))
    raise NotSo("the characters stand nowhere")


def read_font(path: str) -> Dict[bytes, str]:
    drawn = Path(path).read_bytes()
    size = WIDTH * HEIGHT
    return {drawn[at * size : (at + 1) * size]: character for at, character in enumerate(CHARACTERS)}


def text(picture: Picture, font: Dict[bytes, str]) -> str:
    rows = ["".join(font.get(cell, "?") for cell in row).rstrip() for row in cells(picture)]
    return "\n".join(rows).rstrip("\n")


# ---- what examples/kernels/screen.S paints

# in column x and line y, of which each colour has the lowest bits
LEVELS: Dict[str, Callable[[int, int], int]] = {"red": lambda x, y: x, "green": lambda x, y: y, "blue": lambda x, y: x ^ y}


def told_screen(path: str) -> Dict[str, List[int]]:
    """The numbers of the description's table firmware.screen."""
    table = re.search(r"^\[firmware\.screen\]\n((?:\w+ = .*\n)*)", Path(path).read_text(encoding="utf-8"), re.M)
    lines = re.findall(r"(\w+) = (.*)\n", table[1]) if table else []
    return {key: [int(number, 0) for number in re.findall(r"\w+", value)] for key, value in lines}


def compare_painted(picture: Picture, screen: Dict[str, List[int]]) -> None:
    if not screen:
        raise NotSo("the description has no screen")
    (width,), (height,) = screen["width"], screen["height"]
    if (picture.width, picture.height) != (width, height):
        raise NotSo(f"the screen has {picture.width} by {picture.height} pixels, wanted {width} by {height}")
    for place, (color, level) in enumerate(LEVELS.items()):
        bits = screen[color][1]
        highest = bytes(shade >> (8 - bits) for shade in range(256))  # QEMU widens each color to 8 bits
        came = picture.pixels[place::3].translate(highest)
        wanted = bytes(level(x, y) & ((1 << bits) - 1) for y in range(height) for x in range(width))
        if came != wanted:
            at = next(at for at, (one, other) in enumerate(zip(came, wanted)) if one != other)
            raise NotSo(f"{color} in column {at % width} of line {at // width} is {came[at]}, wanted {wanted[at]}")


# ---- PNG


def png(picture: Picture) -> bytes:
    palette = [color for color, _ in colors(picture)]
    if len(palette) > 256:
        raise NotSo(f"the picture has {len(palette)} colours")
    depth = next(bits for bits in (1, 2, 4, 8) if len(palette) <= 1 << bits)
    places, in_byte = {color: at for at, color in enumerate(palette)}, 8 // depth
    numbers = [places[color] for color in pixels_of(picture)]
    lines = []
    for start in range(0, len(numbers), picture.width):
        line = bytearray(-(-picture.width // in_byte))
        for x, number in enumerate(numbers[start : start + picture.width]):
            line[x // in_byte] |= number << (8 - depth - x % in_byte * depth)
        lines.append(b"\0" + bytes(line))  # no filter
    head = struct.pack(">IIBBBBB", picture.width, picture.height, depth, 3, 0, 0, 0)  # 3: by a palette
    chunks = ((b"IHDR", head), (b"PLTE", bytes(sum(palette, ()))), (b"IDAT", zlib.compress(b"".join(lines), 9)), (b"IEND", b""))
    made = [struct.pack(">I", len(data)) + kind + data + struct.pack(">I", zlib.crc32(kind + data)) for kind, data in chunks]
    return b"\x89PNG\r\n\x1a\n" + b"".join(made)


def main() -> int:
    command, path, *rest = sys.argv[1:]
    try:
        picture = read_picture(path)
        if command == "letters":
            Path(rest[0]).write_bytes(b"".join(learned(picture)))
        elif command == "text":
            if len(rest) > 1:
                picture = middle(picture, *map(int, rest[1].split("x")))
            print(text(picture, read_font(rest[0])))
        elif command == "share":
            share = 1000 - colors(picture)[0][1] * 1000 // (picture.width * picture.height)
            print(share)
            return 0 if 2 <= share <= 500 else 1
        elif command == "painted":
            compare_painted(picture, told_screen(rest[0]))
        elif command == "png":
            Path(rest[0]).write_bytes(png(picture))
        else:
            raise ValueError(command)
    except NotSo as reason:
        print(reason)
        return 1
    return 0


if __name__ == "__main__":
    sys.exit(main())
