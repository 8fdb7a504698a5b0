#!/usr/bin/env python3
"""Writes a page of flat colours, one square beside the other, as PWG Raster (PWG 5102.4): RGB with 24 bits a pixel, 360
dots an inch, with room for the margins of the built-in profiles.

    make_flat.py NAME.pwg SIDE COLOUR ..

SIDE is that of a square in pixels. A COLOUR has six digits, as on web pages: f0d2be is a light skin tone. The file is
written beside this one.
"""
import re

from make_page import SRGB_8, Refused, run, whole_number, write_page

LEFT, RIGHT, TOP, BOTTOM = 45, 45, 60, 60  # pixels


def colour_of(word):
    if not re.fullmatch("[0-9A-Fa-f]{6}", word):
        raise Refused(f"'{word}' is no colour of six digits, as f0d2be")
    return bytes.fromhex(word)


def main(words):
    if len(words) < 3:
        raise Refused("a name, the side of a square, and colours are wanted")
    side, colours = whole_number(words[1]), [colour_of(word) for word in words[2:]]

    def pixel(x, y):
        place, row = (x - LEFT) // side, y - TOP
        return colours[place] if 0 <= place < len(colours) and 0 <= row < side else b"\xff\xff\xff"

    write_page(words[0], (len(colours) * side + LEFT + RIGHT, side + TOP + BOTTOM), SRGB_8, pixel)


if __name__ == "__main__":
    run(main, __doc__, 64)
