#!/usr/bin/env python3
"""Writes wedge.pwg, by which the tone curves of an ink are found: a page of CMYK with 8 bits a colour. A row of fields
for each ink, black, cyan, magenta and yellow from the top, has the amounts 0, 16, 32 and so on to 240, and 255, from
the left: those of the 17 points of a curve.

    make_wedge.py [FIELD [PROFILE]]

FIELD is the width of a field in pixels, 24 without it. For a densitometer a field of 7 millimetres is large enough: 100
pixels at 360 dots an inch, 200 at 720. PROFILE is a file with the text of a profile, or - for standard input. The page
has its resolution, its margins, and rows for its inks; without it, those of p360cmyk.
"""
from make_page import CMYK_8, Profile, Refused, read_profile, run, whole_number, write_page

P360CMYK = Profile(hdpi=360, vdpi=360, nozzles=15, pitch=4, inks="cmyk", left=45, right=45, top=60, bottom=60)
AMOUNTS = [min(255, 16 * step) for step in range(17)]
# the place of an ink in a pixel's four bytes
PLACES = {"k": 3, "c": 0, "m": 1, "y": 2}
MOST_COLUMNS, MOST_INCHES = 8191, 22


def wedge(profile, width, height, inks):
    """The function that gives the pixel at a place, for fields of a width and a height."""

    def pixel(x, y):
        step, row = (x - profile.left) // width, (y - profile.top) // height
        amounts = bytearray(4)
        if 0 <= step < len(AMOUNTS) and 0 <= row < len(inks):
            amounts[PLACES[inks[row]]] = AMOUNTS[step]
        return bytes(amounts)

    return pixel


def main(words):
    width = whole_number(words[0]) if words else 24
    profile = read_profile(words[1]) if len(words) > 1 else P360CMYK
    # a field is as high as it is wide
    height = max(1, width * profile.vdpi // profile.hdpi)
    inks = [ink for ink in "kcmy" if ink in profile.inks]
    size = profile.left + len(AMOUNTS) * width + profile.right, profile.top + len(inks) * height + profile.bottom
    if size[0] > MOST_COLUMNS or size[1] > MOST_INCHES * profile.vdpi:
        raise Refused(f"fields of {width} pixels make a page that is too large: {size[0]} x {size[1]} pixels")
    write_page("wedge.pwg", size, CMYK_8, wedge(profile, width, height, inks), (profile.hdpi, profile.vdpi))


if __name__ == "__main__":
    run(main, __doc__, 2)
