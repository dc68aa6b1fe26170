#!/usr/bin/env python3
"""Turns a binary PGM picture into a PNG file, with nothing but Python's own library.

usage: examples/to_png.py IN.pgm OUT.png [--ink]

With --ink a drawn label looks as printed: cover 255 becomes black, 0 becomes white paper.
"""

import re
import struct
import sys
import zlib
from pathlib import Path

HEADER = re.compile(rb"P5\n([1-9][0-9]*) ([1-9][0-9]*)\n255\n")


def read_pgm(data):
    """Width, height and pixels of a PGM file of the form that `draw` writes."""
    header = HEADER.match(data)
    if not header:
        sys.exit("to_png: not a binary PGM file of the form that draw writes")
    width, height = int(header[1]), int(header[2])
    pixels = data[header.end() :]
    if len(pixels) != width * height:
        sys.exit(f"to_png: {len(pixels)} pixels for {width} x {height}")
    return width, height, pixels


def chunk(kind, body):
    checked = kind + body
    return struct.pack(">I", len(body)) + checked + struct.pack(">I", zlib.crc32(checked))


def png(width, height, pixels):
    """An 8-bit grey picture, its rows unfiltered."""
    rows = (pixels[at : at + width] for at in range(0, len(pixels), width))
    body = b"".join(b"\0" + row for row in rows)
    head = struct.pack(">IIBBBBB", width, height, 8, 0, 0, 0, 0)
    parts = chunk(b"IHDR", head) + chunk(b"IDAT", zlib.compress(body, 9)) + chunk(b"IEND", b"")
    return b"\x89PNG\r\n\x1a\n" + parts


def main():
    words = [word for word in sys.argv[1:] if word != "--ink"]
    if len(words) != 2:
        sys.exit("usage: to_png.py IN.pgm OUT.png [--ink]")
    width, height, pixels = read_pgm(Path(words[0]).read_bytes())
    if "--ink" in sys.argv:
        pixels = bytes(255 - cover for cover in pixels)
    Path(words[1]).write_bytes(png(width, height, pixels))


if __name__ == "__main__":
    main()
