#!/usr/bin/python3
"""Draws a page and its print side by side as a PNG: at the left the pixels of the page inside the profile's margins, at
the right the dots of its print, each pixel and each dot a square of some pixels.

    beside.py SCALE LEFT RIGHT TOP BOTTOM FILE.png PAGES PICTURE

The page is the first of PAGES, 8-bit grey or RGB, as `pages/make_page.py` writes it. The margins are the profile's.
PICTURE is what jinthbao-view made of the job, a pixel a dot.
"""
import struct

from figure import Refused, number, run
from page import Image, enlarged, read_picture

GAP = 12  # pixels of white between the page and the print
MODES = {8: "L", 24: "RGB"}


def read_line(stream, at, size, unit):
    """A coded line of so many bytes, and where the next one begins."""
    line = b""
    while len(line) < size:
        control = stream[at]
        count = unit if control < 128 else unit * (257 - control)
        line += stream[at + 1:at + 1 + count] * (control + 1 if control < 128 else 1)
        at += 1 + count
    return line, at


def read_page(name):
    """The first page as a picture."""
    with open(name, "rb") as file:
        stream = file.read()
    try:
        width, height = struct.unpack(">II", stream[376:384])
        mode = MODES[struct.unpack(">I", stream[392:396])[0]]
        unit, lines, at = len(mode), b"", 1800
        while len(lines) < width * height * unit:
            line, end = read_line(stream, at + 1, width * unit, unit)
            lines, at = lines + line * (stream[at] + 1), end
        return Image.frombytes(mode, (width, height), lines).convert("RGB")
    except (IndexError, KeyError, ValueError, struct.error):
        raise Refused(f"{name}: no page of 8-bit grey or RGB") from None


def main(words):
    scale, left, right, top, bottom = (number(word, 1 if place == 0 else 0) for place, word in enumerate(words[:5]))
    page, sheet = read_page(words[6]), read_picture(words[7])
    box = left, top, page.width - right, page.height - bottom
    if box[0] >= box[2] or box[1] >= box[3]:
        raise Refused("the margins leave nothing of the page")
    if sheet.size != page.size:
        raise Refused(f"{words[7]}: it is not of the size of the page")
    window, prints = (enlarged(picture.crop(box), scale) for picture in (page, sheet))
    paper = Image.new("RGB", (2 * window.width + GAP, window.height), "white")
    paper.paste(window, (0, 0))
    paper.paste(prints, (window.width + GAP, 0))
    paper.save(words[5], "PNG", optimize=True)


if __name__ == "__main__":
    run(main, __doc__, lambda count: count == 8)
