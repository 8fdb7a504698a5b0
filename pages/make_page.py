#!/usr/bin/env python3
"""Writes the two small pages that this repository prints to show that it works, as PWG Raster (PWG 5102.4) at 360 dots
an inch: sample.pwg, grey with 8 bits a pixel, a frame, a grey ramp and a disc; and colour.pwg, RGB with 24, eight
colours from white to full, and a ramp of grey.
"""

import os
import struct
import sys
from collections import namedtuple
from math import gcd
from pathlib import Path

WIDTH, HEIGHT, DPI = 200, 120, 360
COLOUR_WIDTH, COLOUR_HEIGHT = 314, 280
BLACK, WHITE = b"\x00", b"\xff"
SYNC_WORD = b"RaS2"
HEADER_BYTES = 1796
# ColorSpace, the colours of a pixel, and the bits of a colour
Kind = namedtuple("Kind", "space colours bits")
SGRAY_8, SRGB_8 = Kind(18, 1, 8), Kind(19, 3, 8)
BLACK_1, CMYK_8 = Kind(3, 1, 1), Kind(6, 4, 8)


class Refused(Exception):
    """What is wrong with a word or an input, in a sentence."""


# what a page is made for: dots an inch, the head, the inks, and the margins
Profile = namedtuple("Profile", "hdpi vdpi nozzles pitch inks left right top bottom")
MARGINS = {"left": "0", "right": "0", "top": "0", "bottom": "0"}


def whole_number(word, least=1):
    if not (word.isascii() and word.isdecimal()) or int(word) < least:
        raise Refused(f"'{word}' is no whole number from {least} on")
    return int(word)


def read_profile(name):
    """The profile whose text is in a file, or comes from standard input if the name is -."""
    if name == "-":
        text = sys.stdin.buffer.read() if sys.stdin else b""
    else:
        text = Path(name).read_bytes()
    head, *lines = text.decode("ascii", "replace").splitlines() or [""]
    if not head.startswith("escp2-profile "):
        raise Refused("this is no text of a profile, which `jinthbao profile profile=NAME` writes")
    values = MARGINS | dict(line.split("=", 1) for line in lines if "=" in line and not line.startswith("#"))
    try:
        profile = Profile(*(values[key] if key == "inks" else whole_number(values[key], 0) for key in Profile._fields))
    except KeyError as error:
        raise Refused(f"the text of the profile lacks {error}") from None
    resolutions = profile.hdpi in (360, 720) and profile.vdpi in (360, 720)
    if not resolutions or profile.inks not in ("k", "cmy", "cmyk") or gcd(profile.nozzles, profile.pitch) != 1:
        raise Refused("the driver refuses this profile: `jinthbao profile` says why")
    return profile


def run(main, usage, most_words=0):
    """Runs a script with its words, at most so many. What goes wrong is told in a sentence."""
    name, words = Path(sys.argv[0]).name, sys.argv[1:]
    if len(words) > most_words or words[:1] in (["-h"], ["--help"]):
        sys.exit(usage.strip())
    if sys.stdout is None:
        sys.exit(f"{name}: standard output is closed")
    try:
        main(words)
        sys.stdout.flush()
    except Refused as refused:
        sys.exit(f"{name}: {refused}")
    except BrokenPipeError:
        # what is left to write goes nowhere, so that the end of the script does not fail too
        os.dup2(os.open(os.devnull, os.O_WRONLY), sys.stdout.fileno())
        sys.exit(f"{name}: standard output was closed by its reader")
    except OSError as error:
        sys.exit(f"{name}: {error.filename}: {error.strerror}" if error.filename else f"{name}: {error}")


def page_header(width, height, resolution, kind):
    """The 1,796 bytes before a page's lines. Every field that is not named here is 0."""
    pixel_bits = kind.colours * kind.bits
    header = bytearray(HEADER_BYTES)
    header[0:10] = b"PwgRaster\0"
    fields = {
        276: resolution[0],  # HWResolution across the page
        280: resolution[1],  # and down it
        340: 1,  # NumCopies
        372: width,  # Width
        376: height,  # Height
        384: kind.bits,  # BitsPerColor
        388: pixel_bits,  # BitsPerPixel
        392: (width * pixel_bits + 7) // 8,  # BytesPerLine
        396: 0,  # ColorOrder: the colours of a pixel together
        400: kind.space,  # ColorSpace
        420: kind.colours,  # NumColors
        456: 1,  # CrossFeedTransform
        460: 1,  # FeedTransform
    }
    for offset, value in fields.items():
        struct.pack_into(">I", header, offset, value)
    return bytes(header)


def runs_of(line):
    """The line as (how many, which unit).

    A unit is a pixel, or a byte with eight pixels of one bit.
    """
    runs = []
    for unit in line:
        if runs and runs[-1][1] == unit:
            runs[-1][0] += 1
        else:
            runs.append([1, unit])
    return runs


def coded_line(line):
    """The packets of one line: a run of 2 to 128 like units, or a literal of 1 to 128 units."""
    packets = bytearray()
    literal = []

    def end_literal():
        while literal:
            part = literal[:128]
            # a literal of one unit is written as a run of one
            packets.append(257 - len(part) if len(part) > 1 else 0)
            packets.extend(b"".join(part))
            del literal[:128]

    for count, unit in runs_of(line):
        if count == 1:
            literal.append(unit)
            continue
        end_literal()
        for start in range(0, count, 128):
            packets.append(min(128, count - start) - 1)
            packets += unit
    end_literal()
    return bytes(packets)


def coded_lines(lines):
    """The lines in groups: a byte that says how many more times a line stands, and then its packets."""
    coded = bytearray()
    start = 0
    while start < len(lines):
        end = start + 1
        while end < len(lines) and end - start < 256 and lines[end] == lines[start]:
            end += 1
        coded.append(end - start - 1)
        coded += coded_line(lines[start])
        start = end
    return bytes(coded)


def pixel_at(x, y):
    """The grey at a place: 00 is black and FF is white."""
    if min(x, WIDTH - 1 - x, y, HEIGHT - 1 - y) < 3:
        return BLACK
    if (2 * x - 300) ** 2 + (2 * y - 119) ** 2 < 76**2:
        return b"\x60"
    if 16 <= x < 96 and 16 <= y < 104:
        return bytes([(x - 16) * 255 // 79])
    return WHITE


# red, yellow, green, cyan, blue, magenta, black and a brown, each as what it takes of white
FIELDS = [
    (0, 255, 255), (0, 0, 255), (255, 0, 255), (255, 0, 0),
    (255, 255, 0), (0, 255, 0), (255, 255, 255), (80, 150, 210)]


def colour_at(x, y):
    """The red, green and blue at a place.

    Fields grow from white to full downwards, and below them is a ramp of grey.
    """
    across, down = (x - 61) // 24, (y - 76) // 4
    if not 0 <= across < len(FIELDS):
        return 3 * WHITE
    if 0 <= down < 28:
        return bytes(255 - taken * (down + 1) // 28 for taken in FIELDS[across])
    if 30 <= down < 34:
        return 3 * bytes([(x - 61) // 4 * 255 // 47])
    return 3 * WHITE


def write_page(name, size, kind, pixel, resolution=(DPI, DPI)):
    """Writes a page of this name beside this file; `pixel` gives the bytes of a pixel at a place, or its one bit."""
    width, height = size
    lines = [[pixel(x, y) for x in range(width)] for y in range(height)]
    if kind.bits == 1:
        lines = [packed(line) for line in lines]
    page = SYNC_WORD + page_header(width, height, resolution, kind) + coded_lines(lines)
    Path(__file__).with_name(name).write_bytes(page)


def packed(bits):
    """The bytes of a line of bits, the leftmost pixel in the highest bit, and zeros past the last pixel."""
    whole = bits + [0] * (-len(bits) % 8)
    return [bytes([sum(128 >> place for place in range(8) if whole[x + place])]) for x in range(0, len(whole), 8)]


def main(_words):
    write_page("sample.pwg", (WIDTH, HEIGHT), SGRAY_8, pixel_at)
    write_page("colour.pwg", (COLOUR_WIDTH, COLOUR_HEIGHT), SRGB_8, colour_at)


if __name__ == "__main__":
    run(main, __doc__)
