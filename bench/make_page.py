#!/usr/bin/env python3
"""Writes a page of PWG Raster for the measurements of this folder.

    make_page.py KIND WIDTH HEIGHT DPI SEED FILE [LOOK]

KIND is gray, black, rgb, black1 (black of one bit) or cmyk. The page is the same for the same words. LOOK is one of

    noise   broad waves under fine grain, as packets without a run; no two lines are equal. This is the default
    blank   white
    text    black words on white, with hard edges; a fifth of the tiles have ink
    form    the same words with smooth edges, under rules and beside grey fields
    soft    broad waves in short runs and literals, as photos have them: 0.18 packets a pixel; no two lines are equal
"""
import itertools
import math
import random
import struct
import sys

# ColorSpace, BitsPerColor and channels of each kind (PWG 5102.4, section 4.3)
KINDS = {"gray": (18, 8, 1), "black": (3, 8, 1), "rgb": (19, 8, 3), "black1": (3, 1, 1), "cmyk": (6, 8, 4)}
# Letters of five by five cells, row by row.
LETTERS = ["01110 00001 01111 10001 01111", "01110 10001 11111 10000 01111", "00100 00100 00100 00100 00100",
           "11110 10001 10001 10001 10001", "01110 10001 10001 10001 01110", "10110 11001 10000 10000 10000",
           "01111 10000 01110 00001 11110", "01000 11110 01000 01001 00110"]
CELL = 6  # pixels of a cell of a letter
LEADING = 90  # pixels from one line of text to the next
MARGIN = 360  # pixels around the text


def header(kind, width, height, dpi):
    space, depth, channels = KINDS[kind]
    bits = depth * channels
    page = bytearray(1796)
    page[:9] = b"PwgRaster"
    fields = {276: dpi, 280: dpi, 340: 1, 372: width, 376: height, 384: depth, 388: bits,
              392: (width * bits + 7) // 8, 400: space, 420: channels, 456: 1, 460: 1}
    for offset, number in fields.items():
        struct.pack_into(">I", page, offset, number)
    return bytes(page)


def wave(length, period, phase):
    """A wave of 0 to 200 along a line or down the page."""
    return [int(100 + 100 * math.sin(2 * math.pi * (n / period + phase))) for n in range(length)]


def grain(state, count):
    """Noise of 0 to 55 from a linear congruential generator."""
    out = bytearray(count)
    for n in range(count):
        state = (1664525 * state + 1013904223) & 0xFFFFFFFF
        out[n] = (state >> 24) * 55 // 255
    return state, bytes(out)


def noise(kind, width, height, seed):
    channels = KINDS[kind][2]
    across = [wave(width, 700 + 90 * c, c / 3) for c in range(channels)]
    down = [wave(height, 900 + 70 * c, c / 5) for c in range(channels)]
    state, noise = grain(seed, 65521)
    for y in range(height):
        line = bytearray(width * channels)
        start = (y * 7919) % len(noise)
        speck = (noise * (2 + width * channels // len(noise)))[start:start + width * channels]
        for c in range(channels):
            row = across[c]
            level = down[c][y]
            line[c::channels] = bytes((row[x] * 3 + level) // 4 for x in range(width))
        if KINDS[kind][1] == 1:
            yield packed(line, noise, (y * 6007) % len(noise))
        else:
            yield bytes(a + b for a, b in zip(line, speck))


def packed(line, noise, start):
    """A line of one bit a pixel, black where the pixel's level is under a threshold of noise."""
    thresholds = (noise * (2 + len(line) // len(noise)))[start:start + len(line)]
    return bits_of(level < 5 * threshold for level, threshold in zip(line, thresholds))


def bits_of(pixels):
    """Pixels of one bit, eight a byte, the first in the highest bit."""
    bits = "".join("1" if pixel else "0" for pixel in pixels)
    whole = (len(bits) + 7) // 8
    return int(bits.ljust(8 * whole, "0"), 2).to_bytes(whole, "big")


def in_kind(kind, dark):
    """The bytes of a line of greys, each from 0 for white to 255 for black."""
    light = bytes(255 - level for level in dark)
    if kind == "rgb":
        return bytes(itertools.chain.from_iterable((level,) * 3 for level in light))
    if kind == "cmyk":
        return bytes(itertools.chain.from_iterable((0, 0, 0, level) for level in dark))
    if kind == "black1":
        return bits_of(level >= 128 for level in dark)
    return light if kind == "gray" else bytes(dark)


def blank(kind, width, height, seed):
    yield from [in_kind(kind, bytes(width))] * height


def words(width, choose):
    """The rows of cells of a line of text, five, each as wide as the page."""
    rows = [bytearray(width) for _ in range(5)]
    at = MARGIN
    while at + 60 * CELL < width - MARGIN:
        for _ in range(choose.randint(2, 9)):
            for row, cells in zip(rows, choose.choice(LETTERS).split()):
                row[at:at + 5 * CELL] = bytes(255 * int(cell) for cell in cells for _ in range(CELL))
            at += 6 * CELL
        at += 5 * CELL
    return [bytes(row) for row in rows]


def text_rows(width, height, seed):
    """The rows of a page of text, from 0 for white to 255 for black; the lower two fifths of the page have none."""
    choose = random.Random(seed)
    white = bytes(width)
    for top in range(0, height, LEADING):
        is_empty = not MARGIN <= top < height * 3 // 5 or top // LEADING % 7 == 6
        inked = [] if is_empty else [row for row in words(width, choose) for _ in range(CELL)]
        yield from (inked + [white] * LEADING)[:min(LEADING, height - top)]


def text(kind, width, height, seed):
    for row, same in itertools.groupby(text_rows(width, height, seed)):
        yield from [in_kind(kind, row)] * len(list(same))


def smooth(above, row):
    """The means of each pixel, the one before it, and the two above them."""
    return bytes((a + b + c + d) // 4 for a, b, c, d in zip(above, b"\0" + above, row, b"\0" + row))


def with_fields(width, height, y, row):
    """A row with what a form has: a rule below every sixth line of text, and grey fields on the right."""
    if not MARGIN <= y < height - MARGIN or width <= 4 * MARGIN:
        return row
    place = y % (6 * LEADING) - 60
    if 0 <= place < 4:
        return row[:MARGIN] + bytes([255]) * (width - 2 * MARGIN) + row[-MARGIN:]
    if 0 <= place < 3 * LEADING:
        return row[:-2 * MARGIN] + bytes(max(40, level) for level in row[-2 * MARGIN:-MARGIN]) + row[-MARGIN:]
    return row


def form(kind, width, height, seed):
    rows = (with_fields(width, height, y, row) for y, row in enumerate(text_rows(width, height, seed)))
    above = bytes(width)
    for pair, same in itertools.groupby(itertools.pairwise(itertools.chain([above], rows))):
        yield from [in_kind(kind, smooth(*pair))] * len(list(same))


def soft_units(choose, level, channels):
    """The next pixels of a line near a level: a run or a literal, by the lengths that photos have."""
    def unit():
        return bytes(min(255, max(0, level + choose.randint(-9, 9))) for _ in range(channels))
    if choose.random() < 0.75:
        return unit() * choose.choice([2, 2, 2, 2, 3, 3, 4, 2, 2, 5])
    return b"".join(unit() for _ in range(choose.randint(8, 18)))


def soft(kind, width, height, seed):
    channels, depth = KINDS[kind][2], KINDS[kind][1]
    choose = random.Random(seed)
    pool = [[soft_units(choose, level, channels) for _ in range(400)] for level in range(0, 256, 4)]
    across, down = wave(width, 900, 0), wave(height, 1100, 0.2)
    length = (width * channels * depth + 7) // 8
    for y in range(height):
        line = bytearray()
        while len(line) < length:
            x = min(width - 1, len(line) * 8 // (channels * depth))
            line += choose.choice(pool[(3 * across[x] + down[y] + 100) // 16])
        yield bytes(line[:length])


def literal(line, unit):
    """A line as packets of units that follow as they are."""
    out = bytearray()
    count = len(line) // unit
    for start in range(0, count, 128):
        units = min(128, count - start)
        out.append(0 if units == 1 else 257 - units)
        out += line[start * unit:(start + units) * unit]
    return bytes(out)


def coded(line, unit):
    """A line as runs of equal units and literals of the others."""
    out = bytearray()
    units = [line[at:at + unit] for at in range(0, len(line), unit)]
    alone = bytearray()
    for value, same in itertools.groupby(units):
        many = len(list(same))
        if many == 1:
            alone += value
            continue
        out += literal(alone, unit)
        alone.clear()
        for start in range(0, many, 128):
            out += bytes([min(128, many - start) - 1]) + value
    return bytes(out + literal(alone, unit))


def groups(lines, code):
    """Equal lines once, with how often they stand, up to 256 times."""
    for line, same in itertools.groupby(lines):
        many, packets = len(list(same)), code(line)
        for start in range(0, many, 256):
            yield bytes([min(256, many - start) - 1]) + packets


LOOKS = {"noise": noise, "blank": blank, "text": text, "form": form, "soft": soft}


def main(kind, width, height, dpi, seed, path, look="noise"):
    unit = KINDS[kind][2]
    code = literal if look == "noise" else coded
    with open(path, "wb") as out:
        out.write(b"RaS2" + header(kind, width, height, dpi))
        for group in groups(LOOKS[look](kind, width, height, seed), lambda line: code(line, unit)):
            out.write(group)


if __name__ == "__main__":
    if len(sys.argv) not in (7, 8) or sys.argv[7:] not in [[], *([look] for look in LOOKS)]:
        sys.exit(__doc__)
    main(sys.argv[1], *(int(word) for word in sys.argv[2:6]), *sys.argv[6:])
