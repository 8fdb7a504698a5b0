#!/usr/bin/env python3
"""Writes nozzles.pwg, by which a dead nozzle is found: a page on which each nozzle of a head draws a dash of its own,
with its number above it. Each ink of the profile has a block of dashes: black, cyan, magenta and yellow, from the top.

    jinthbao profile profile=NAME | make_nozzles.py

The text of the profile is read from standard input. Print the page with that profile, its curves straight and its
limits 255, and without the words shingle and dead: a dash that is missing is a nozzle that does not fire.
"""
import sys

from make_page import CMYK_8, Refused, read_profile, run, write_page

DIGITS = {
    "0": ".###. #...# #..## #.#.# ##..# #...# .###.",
    "1": "..#.. .##.. ..#.. ..#.. ..#.. ..#.. .###.",
    "2": ".###. #...# ....# ...#. ..#.. .#... #####",
    "3": ".###. #...# ....# ..##. ....# #...# .###.",
    "4": "...#. ..##. .#.#. #..#. ##### ...#. ...#.",
    "5": "##### #.... ####. ....# ....# #...# .###.",
    "6": ".###. #.... #.... ####. #...# #...# .###.",
    "7": "##### ....# ...#. ..#.. ..#.. ..#.. ..#..",
    "8": ".###. #...# #...# .###. #...# #...# .###.",
    "9": ".###. #...# #...# .#### ....# ....# .###.",
}
# dashes of a line, and the places of a digit, of a dash and of the gap after it in points of a digit
ACROSS, SPREAD, DASH, BLOCK, LABEL = 10, 6, 16, 20, 9
# the place in a pixel's four bytes
PLACES = {"k": 3, "c": 0, "m": 1, "y": 2}


class Pattern:
    """Where the page has ink."""

    def __init__(self, profile):
        self.nozzles = profile.nozzles
        self.left, self.right, self.top, self.bottom = profile.left, profile.right, profile.top, profile.bottom
        self.resolution = profile.hdpi, profile.vdpi
        self.inks = {"k": "k", "cmy": "cmy", "cmyk": "kcmy"}[profile.inks]
        # a point of a digit is a fifth of a millimetre, at least a pixel
        self.across, self.down = (max(1, dpi // 120) for dpi in self.resolution)
        self.inverse = pow(profile.pitch, -1, self.nozzles) if self.nozzles > 1 else 0
        self.band = LABEL * self.down + self.nozzles + 4 * self.down
        self.bands = -(-self.nozzles // ACROSS)

    def size(self):
        width = self.left + min(self.nozzles, ACROSS) * BLOCK * self.across + self.right
        return width, self.top + len(self.inks) * self.bands * self.band + self.bottom

    def nozzle_of(self, row):
        """The nozzle that fires a row of the window: in the first pass the last one stands on row 0."""
        return (self.nozzles - 1 + row * self.inverse) % self.nozzles

    def in_label(self, number, x, y):
        place, column = divmod(x // self.across, SPREAD)
        text = str(number)
        return place < len(text) and column < 5 and DIGITS[text[place]].split()[y // self.down][column] == "#"

    def ink_at(self, x, y):
        """The ink at a place of the page, if it has any."""
        band, down = divmod(y - self.top, self.band)
        across, along = divmod(x - self.left, BLOCK * self.across)
        ink, line = divmod(band, self.bands)
        number = line * ACROSS + across
        if not (0 <= ink < len(self.inks) and 0 <= across < ACROSS and number < self.nozzles):
            return None
        if down < 7 * self.down:
            drawn = self.in_label(number, along, down)
        else:
            dashes = 0 <= down - LABEL * self.down < self.nozzles
            drawn = dashes and along < DASH * self.across and self.nozzle_of(y - self.top) == number
        return self.inks[ink] if drawn else None

    def pixel(self, x, y):
        amounts = bytearray(4)
        ink = self.ink_at(x, y)
        if ink is not None:
            amounts[PLACES[ink]] = 255
        return bytes(amounts)


def main(_words):
    if sys.stdin is None or sys.stdin.isatty():
        raise Refused("the text of a profile is wanted on standard input: jinthbao profile | make_nozzles.py")
    pattern = Pattern(read_profile("-"))
    write_page("nozzles.pwg", pattern.size(), CMYK_8, pattern.pixel, pattern.resolution)


if __name__ == "__main__":
    run(main, __doc__)
