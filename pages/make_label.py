#!/usr/bin/env python3
"""Writes label.pwg, a label of 62 x 29 mm in black with 1 bit a pixel, at 360 dots an inch: a frame, two lines of text,
and a row of bars.
"""
from make_page import BLACK_1, run, write_page

WIDTH, HEIGHT = 879, 411  # 62 x 29 mm
MARGIN, FRAME = 24, 4
GLYPHS = {
    "A": ".###. #...# #...# ##### #...# #...# #...#",
    "B": "####. #...# #...# ####. #...# #...# ####.",
    "D": "####. #...# #...# #...# #...# #...# ####.",
    "E": "##### #.... #.... ####. #.... #.... #####",
    "H": "#...# #...# #...# ##### #...# #...# #...#",
    "I": ".###. ..#.. ..#.. ..#.. ..#.. ..#.. .###.",
    "J": "..### ...#. ...#. ...#. ...#. #..#. .##..",
    "N": "#...# ##..# ##..# #.#.# #..## #..## #...#",
    "O": ".###. #...# #...# #...# #...# #...# .###.",
    "T": "##### ..#.. ..#.. ..#.. ..#.. ..#.. ..#..",
    " ": "..... ..... ..... ..... ..... ..... .....",
}
SPREAD = 6  # places from one glyph to the next
# text, its left and upper edge, and the pixels of a glyph's place
LINES = [("JINTHBAO", 60, 60, 15), ("ONE BIT A DOT", 62, 210, 9)]
BARS, BARS_TOP, BARS_HEIGHT, BAR = "1011001110100101100011010111001010011011101", 300, 60, 17


def in_text(x, y):
    """Whether a pixel is of a glyph."""
    for text, left, top, scale in LINES:
        row, place = (y - top) // scale, (x - left) // scale
        number, column = divmod(place, SPREAD)
        if 0 <= row < 7 and 0 <= number < len(text) and column < 5:
            return GLYPHS[text[number]].split()[row][column] == "#"
    return False


def in_bars(x, y):
    place = (x - 62) // BAR
    return BARS_TOP <= y < BARS_TOP + BARS_HEIGHT and 0 <= place < len(BARS) and BARS[place] == "1"


def pixel_at(x, y):
    """1 for black and 0 for white."""
    inside = min(x, WIDTH - 1 - x, y, HEIGHT - 1 - y) - MARGIN
    return int(0 <= inside < FRAME or in_text(x, y) or in_bars(x, y))


if __name__ == "__main__":
    run(lambda _words: write_page("label.pwg", (WIDTH, HEIGHT), BLACK_1, pixel_at), __doc__)
