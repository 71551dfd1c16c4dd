"""Pictures in few bytes: a PNG as a browser makes it, of at most 256 colours."""
from __future__ import annotations

import struct
import zlib
from collections import Counter
from typing import Dict, Iterator, List, Tuple

from ..clusters import Fault

START = b"\x89PNG\r\n\x1a\n"
Colour = Tuple[int, ...]


def chunks(picture: bytes) -> Iterator[Tuple[bytes, bytes]]:
    """The name and the content of each chunk."""
    at = len(START)
    while at < len(picture):
        (length,) = struct.unpack_from(">I", picture, at)
        yield picture[at + 4 : at + 8], picture[at + 8 : at + 8 + length]
        at += length + 12


def chunk(name: bytes, content: bytes) -> bytes:
    return struct.pack(">I", len(content)) + name + content + struct.pack(">I", zlib.crc32(name + content))


def nearest(left: int, up: int, corner: int) -> int:
    """The Paeth predictor of PNG."""
    guess = left + up - corner
    return min((abs(guess - left), 0, left), (abs(guess - up), 1, up), (abs(guess - corner), 2, corner))[2]


def rows_of(data: bytes, width: int, height: int) -> Iterator[bytearray]:
    """The rows of bytes, three for each pixel, without PNG's filters."""
    size = 3 * width
    above = bytearray(size + 3)
    for start in range(0, height * (size + 1), size + 1):
        kind = data[start]
        # three zeros stand before each row
        row = bytearray(3) + data[start + 1 : start + 1 + size]
        for at in range(3, size + 3) if kind else ():
            left, up, corner = row[at - 3], above[at], above[at - 3]
            row[at] = (row[at] + (left, up, (left + up) // 2, nearest(left, up, corner))[kind - 1]) & 255
        yield row[3:]
        above = row


def few_colours(picture: bytes) -> bytes:
    """The same picture with its 256 most frequent colours; each other one becomes the nearest of them."""
    parts = list(chunks(picture))
    width, height, *form = struct.unpack(">IIBBBBB", parts[0][1])
    if not picture.startswith(START) or form != [8, 2, 0, 0, 0]:
        raise Fault("the browser's picture has another form")
    data = zlib.decompress(b"".join(content for name, content in parts if name == b"IDAT"))
    rows: List[List[Colour]] = [[*zip(row[0::3], row[1::3], row[2::3])] for row in rows_of(data, width, height)]
    counts = Counter(colour for row in rows for colour in row)
    kept = [colour for colour, _ in counts.most_common(256)]
    places: Dict[Colour, int] = {colour: at for at, colour in enumerate(kept)}
    for colour in counts:
        if colour not in places:
            places[colour] = min(range(len(kept)), key=lambda at: sum((x - y) ** 2 for x, y in zip(kept[at], colour)))
    pixels = b"".join(b"\0" + bytes(places[colour] for colour in row) for row in rows)
    head = struct.pack(">IIBBBBB", width, height, 8, 3, 0, 0, 0)
    palette = b"".join(bytes(colour) for colour in kept)
    return START + chunk(b"IHDR", head) + chunk(b"PLTE", palette) + chunk(b"IDAT", zlib.compress(pixels, 9)) + chunk(b"IEND", b"")
