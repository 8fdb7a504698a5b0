#!/usr/bin/python3
"""Draws what is printed on a sheet, each dot a square of some pixels, as a PNG.

    page.py SCALE FILE.png PICTURE

PICTURE is what jinthbao-view made of the sheet, a pixel a dot. The paper around the dots is left out.
"""
import sys

try:
    from PIL import Image, ImageChops
except ImportError:
    sys.exit("page.py: the Python library PIL is not there: apt-get install python3-pil")

from figure import Refused, number, run

EDGE = 4  # dots of white around what is printed


def read_picture(name):
    with Image.open(name) as picture:
        return picture.convert("RGB")


def printed(picture, name):
    """The box around what is not white."""
    box = ImageChops.invert(picture).getbbox()
    if box is None:
        raise Refused(f"{name}: nothing is printed on this sheet")
    return box


def enlarged(picture, scale):
    return picture.resize((picture.width * scale, picture.height * scale), Image.Resampling.NEAREST)


def main(words):
    scale = number(words[0], 1)
    picture = read_picture(words[2])
    left, top, right, bottom = printed(picture, words[2])
    paper = Image.new("RGB", (right - left + 2 * EDGE, bottom - top + 2 * EDGE), "white")
    paper.paste(picture.crop((left, top, right, bottom)), (EDGE, EDGE))
    enlarged(paper, scale).save(words[1], "PNG", optimize=True)


if __name__ == "__main__":
    run(main, __doc__, lambda count: count == 3)
