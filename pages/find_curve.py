#!/usr/bin/env python3
"""Finds the tone curve of an ink from the densities of the 17 fields of its wedge (wedge.pwg), from the paper to the
full ink, and prints it as a line of a profile.

    find_curve.py INK DENSITY...

INK is k, c, m or y. A density has a decimal point or a decimal comma, and is at least that of the field before it. A
field's area is the part of the paper that its dots seem to cover (Murray and Davies). The curve gives to each amount
the least that was printed with an area of just as much. Its last point but one is at least 240 and its last 256, so
that the full ink stays full.
"""
import re

from make_page import Refused, run


def density_of(word):
    if not re.fullmatch(r"-?[0-9]+([.,][0-9]+)?", word):
        raise Refused(f"'{word}' is no density, as 0.53 or 0,53")
    return float(word.replace(",", "."))


def areas_of(densities):
    """The area of each field, from 0 for the paper to 1 for the full ink."""
    for field, (before, density) in enumerate(zip(densities, densities[1:]), 2):
        if density < before:
            raise Refused(f"field {field} has the density {density}, less than field {field - 1} with {before}")
    if densities[0] == densities[16]:
        raise Refused("the full ink is no denser than the paper")
    full = 1 - 10 ** (densities[0] - densities[16])
    return [(1 - 10 ** (densities[0] - density)) / full for density in densities]


def amount_of(areas, wanted):
    """The least amount, 0 to 256, that prints the wanted area, on the straight line between two fields."""
    step = next(number for number in range(17) if areas[number] >= wanted)
    if step == 0:
        return 0
    return round(16 * (step - 1 + (wanted - areas[step - 1]) / (areas[step] - areas[step - 1])))


def main(words):
    if len(words) != 18 or words[0] not in ("k", "c", "m", "y"):
        raise Refused("an ink (k, c, m or y) and 17 densities are wanted; find_curve.py --help says more")
    areas = areas_of([density_of(word) for word in words[1:]])
    points = [amount_of(areas, number / 16) for number in range(17)]
    points[15:] = max(240, points[15]), 256
    print(f"curve_{words[0]}={','.join(map(str, points))}")


if __name__ == "__main__":
    run(main, __doc__, 18)
