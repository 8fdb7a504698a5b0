#!/usr/bin/python3
"""Draws prints one below the other as a PNG, each dot a square of some pixels.

    wedge.py SCALE FILE.png PRINT PRINT ..

A PRINT is what jinthbao-view made of a job, a pixel a dot. The paper above and below the dots is left out.
"""
from figure import number, run
from page import Image, enlarged, printed, read_picture

GAP = 12  # pixels of white above, between and below the prints
FULL_INKS = 8  # the colours of prints whose pixels are dots


def print_of(name, scale):
    """A print from its first to its last row with a dot."""
    picture = read_picture(name)
    _, top, _, bottom = printed(picture, name)
    return enlarged(picture.crop((0, top, picture.width, bottom)), scale)


def main(words):
    scale = number(words[0], 1)
    prints = [print_of(name, scale) for name in words[2:]]
    size = max(it.width for it in prints), sum(it.height for it in prints) + GAP * (len(prints) + 1)
    paper = Image.new("RGB", size, "white")
    top = GAP
    for picture in prints:
        paper.paste(picture, (0, top))
        top += picture.height + GAP
    paper.quantize(FULL_INKS).save(words[1], "PNG", optimize=True)


if __name__ == "__main__":
    run(main, __doc__, lambda count: count >= 4)
