#!/usr/bin/python3
"""Writes label.mzp: an invented address in a frame, as a path list for a label of 640 x 240 pixels.

usage: examples/make_label.py [OUT.mzp]

The letters are outlines of Open Sans, from Debian's package fonts-open-sans (1.11-2), files
OpenSans-Semibold.ttf and OpenSans-Regular.ttf; OPEN-SANS.txt has the font's notice and licence.
Reading them takes Debian's package python3-fonttools. Letters give QuadTos, the frame's corners
CurveTos. Points are rounded to 1/256 of a pixel, which a drawing keeps exactly.
"""

import struct
import sys
from pathlib import Path

from fontTools.pens.basePen import BasePen
from fontTools.ttLib import TTFont

FONTS = Path("/usr/share/fonts/truetype/open-sans")
NAME, PLAIN = "OpenSans-Semibold.ttf", "OpenSans-Regular.ttf"

# Font file, size and baseline in pixels, text.
LINES = [
    (NAME, 40, 65, "Ottoline Grasmere"),
    (PLAIN, 36, 111, "Marsh & Kestrel Books"),
    (PLAIN, 36, 157, "27b Zephyr Lane"),
    (PLAIN, 36, 203, "MZ7 4QX Mossford"),
]
LEFT = 56

# Left, top, right, bottom and corner radius of the frame's outer and inner edge.
OUTER = (8, 8, 632, 232, 24)
INNER = (11, 11, 629, 229, 21)

# A cubic with control points this far along its tangents is nearly a quarter circle.
QUARTER = 0.5523

MOST_BYTES = 65536


class PathList:
    """Records behind each other: a 2-byte length, a 2-byte kind, then points as 32-bit floats."""

    def __init__(self):
        self.bytes = b""
        self.records = 0

    def record(self, kind, *points):
        parts = [round(part * 256) / 256 for point in points for part in point]
        length = 2 + 4 * len(parts)
        self.bytes += struct.pack(f"<HH{len(parts)}f", length, kind, *parts)
        self.records += 1

    def move_to(self, p):
        self.record(1, p)

    def line_to(self, p):
        self.record(2, p)

    def quad_to(self, c, p):
        self.record(3, c, p)

    def curve_to(self, c1, c2, p):
        self.record(4, c1, c2, p)

    def close(self):
        self.record(5)


class GlyphPen(BasePen):
    """Writes glyphs to a path list, y turned down, each from its own x on one baseline."""

    def __init__(self, glyphs, path, scale, baseline):
        super().__init__(glyphs)
        self.path, self.scale, self.baseline = path, scale, baseline
        self.x = 0

    def place(self, p):
        return (self.x + p[0] * self.scale, self.baseline - p[1] * self.scale)

    def _moveTo(self, p):
        self.path.move_to(self.place(p))

    def _lineTo(self, p):
        self.path.line_to(self.place(p))

    def _qCurveToOne(self, c, p):
        self.path.quad_to(self.place(c), self.place(p))

    def _curveToOne(self, c1, c2, p):
        self.path.curve_to(self.place(c1), self.place(c2), self.place(p))

    def _closePath(self):
        self.path.close()


def write_text(path, font_file, size, baseline, text):
    font = TTFont(FONTS / font_file)
    glyphs, names = font.getGlyphSet(), font.getBestCmap()
    pen = GlyphPen(glyphs, path, size / font["head"].unitsPerEm, baseline)
    pen.x = LEFT
    for letter in text:
        glyph = glyphs[names[ord(letter)]]
        glyph.draw(pen)
        pen.x += glyph.width * pen.scale


def rounded_rectangle(left, top, right, bottom, radius):
    """Four corners, clockwise, each as the points where its arc begins, bends twice and ends."""
    bend = radius * (1 - QUARTER)
    r = radius
    return [
        [(right - r, top), (right - bend, top), (right, top + bend), (right, top + r)],
        [(right, bottom - r), (right, bottom - bend), (right - bend, bottom), (right - r, bottom)],
        [(left + r, bottom), (left + bend, bottom), (left, bottom - bend), (left, bottom - r)],
        [(left, top + r), (left, top + bend), (left + bend, top), (left + r, top)],
    ]


def write_corners(path, corners):
    path.move_to(corners[0][0])
    for at, (begin, c1, c2, end) in enumerate(corners):
        if at > 0:
            path.line_to(begin)
        path.curve_to(c1, c2, end)
    path.close()


def write_frame(path):
    """The inner edge runs the other way round, so the nonzero rule leaves the inside white."""
    write_corners(path, rounded_rectangle(*OUTER))
    backwards = [corner[::-1] for corner in rounded_rectangle(*INNER)[::-1]]
    write_corners(path, backwards)


def main():
    beside = Path(__file__).with_name("label.mzp")
    out = Path(sys.argv[1]) if len(sys.argv) > 1 else beside
    path = PathList()
    write_frame(path)
    for line in LINES:
        write_text(path, *line)
    if len(path.bytes) > MOST_BYTES:
        sys.exit(f"{len(path.bytes)} bytes: a path list has at most {MOST_BYTES}")
    out.write_bytes(path.bytes)
    print(f"{out}: {path.records} records, {len(path.bytes)} bytes")


if __name__ == "__main__":
    main()
