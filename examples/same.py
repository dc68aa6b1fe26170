#!/usr/bin/env -S python3 -B
"""Says whether a drawn PGM picture and a stored PNG file have the same pixels, byte by byte.

usage: examples/same.py DRAWN.pgm STORED.png [--ink]

Both are of the forms that `draw` and to_png.py write. With --ink the PNG file was written so: its
bytes are the cover's taken from 255. Exits with 1 where the two differ and says where first.
"""

import struct
import sys
import zlib
from pathlib import Path

from to_png import read_pgm

SIGNATURE = b"\x89PNG\r\n\x1a\n"
UNFILTERED = b"\0"


def chunks(data):
    """Kind and body of each chunk, its check sum held to it."""
    if not data.startswith(SIGNATURE):
        sys.exit("same: not a PNG file")
    at = len(SIGNATURE)
    while at < len(data):
        (length,) = struct.unpack_from(">I", data, at)
        checked = data[at + 4 : at + 8 + length]
        if struct.unpack_from(">I", data, at + 8 + length)[0] != zlib.crc32(checked):
            sys.exit("same: a chunk of the PNG file is damaged")
        yield checked[:4], checked[4:]
        at += 12 + length


def read_png(data):
    """Width, height and pixels of an 8-bit grey picture with unfiltered rows."""
    parts = list(chunks(data))
    width, height, *form = struct.unpack(">IIBBBBB", dict(parts)[b"IHDR"])
    body = zlib.decompress(b"".join(part for kind, part in parts if kind == b"IDAT"))
    rows = [body[at : at + width + 1] for at in range(0, len(body), width + 1)]
    unfiltered = all(row[:1] == UNFILTERED for row in rows)
    if form != [8, 0, 0, 0, 0] or not unfiltered or len(body) != (width + 1) * height:
        sys.exit("same: not a PNG file of the form that to_png.py writes")
    return width, height, b"".join(row[1:] for row in rows)


def main():
    words = [word for word in sys.argv[1:] if word != "--ink"]
    if len(words) != 2:
        sys.exit("usage: same.py DRAWN.pgm STORED.png [--ink]")
    width, height, drawn = read_pgm(Path(words[0]).read_bytes())
    stored_width, stored_height, stored = read_png(Path(words[1]).read_bytes())
    if "--ink" in sys.argv:
        stored = bytes(255 - byte for byte in stored)
    if (width, height) != (stored_width, stored_height):
        sys.exit(f"same: {width} x {height} drawn, {stored_width} x {stored_height} stored")
    for at, (is_so, should_be) in enumerate(zip(drawn, stored)):
        if is_so != should_be:
            y, x = divmod(at, width)
            sys.exit(f"same: pixel ({x}, {y}) is {is_so}, stored {should_be}")
    print(f"{words[0]} has the {len(stored)} pixels of {words[1]}")


if __name__ == "__main__":
    main()
