#!/usr/bin/env python3
"""Draws which stroke of a head fires which row and column, as an SVG: the jobs side by side, each stroke a picture of
the window's dots of its own, those that it fires filled.

    strokes.py COLUMNS ROWS JOB LISTING JOB LISTING .. > FILE.svg

COLUMNS and ROWS are those of the window. The jobs are of one ink and begin with a page. The strokes of a job are those
of its listing, which `list` writes: where each raster begins, how many rows it has, and how far the head goes down. The
dots of the rows are read from the job at these places.
"""
from figure import Refused, number, run

# bytes of a raster before its rows
HEADER = 8

DOT, GAP, BETWEEN, LEFT, TOP = 8, 12, 40, 60, 40
INK, PAPER, LINE, TEXT = "#1f2933", "#fdf6e3", "#d0c8b0", "#52606d"


def read_row(job, at, size):
    """A coded row of so many bytes, and where the next one begins."""
    row = bytearray()
    while len(row) < size:
        control = job[at]
        count = 1 + control if control < 128 else 1
        row += job[at + 1:at + 1 + count] * (1 if control < 128 else 257 - control)
        at += 1 + count
    return row, at


def strokes(job, listing):
    """The strokes of the first sheet: the dots of each, as columns and rows of the window."""
    y, found = 0, []
    for line in listing:
        offset, name, *numbers = line.split()
        if name == "EJECT":
            break
        if name == "DOWNBY":
            y += int(numbers[0]) * 5
        elif name == "RASTER":
            found.append(stroke(job, int(offset) + HEADER, [int(number) for number in numbers], y))
    return shifted(found)


def stroke(job, at, numbers, y):
    """The dots of a raster whose rows begin at a place, by column and row; rows are as far apart as columns."""
    _, down, across, nozzles, columns, _ = numbers
    dots = []
    for nozzle in range(nozzles):
        row, at = read_row(job, at, (columns + 7) // 8)
        place = (y + nozzle * down) // across
        dots += [(x, place) for x in range(columns) if row[x // 8] & 128 >> x % 8]
    return dots


def shifted(found):
    """The strokes with the first row that has a dot as row 0."""
    first = min((y for dots in found for _, y in dots), default=0)
    return [[(x, y - first) for x, y in dots] for dots in found]


def text(x, y, anchor, words):
    return (f'<text x="{x}" y="{y}" font-size="10" text-anchor="{anchor}" '
            f'font-family="sans-serif" fill="{TEXT}">{words}</text>')


def panel(left, dots, columns, rows):
    """The window with the dots of one stroke."""
    out = [f'<rect x="{left}" y="{TOP}" width="{columns * DOT}" height="{rows * DOT}" fill="{PAPER}" stroke="{LINE}"/>']
    for x, y in dots:
        out.append(f'<circle cx="{left + x * DOT + DOT // 2}" cy="{TOP + y * DOT + DOT // 2}" r="3" fill="{INK}"/>')
    return out


def draw(columns, rows, jobs):
    left, out = LEFT, [text(LEFT - 8, TOP - 8, "end", "stroke")]
    out += [text(LEFT - 8, TOP + row * DOT + 8, "end", f"row {row}") for row in range(0, rows, 2)]
    for fired in jobs:
        for place, dots in enumerate(fired):
            out.append(text(left + columns * DOT // 2, TOP - 8, "middle", place))
            out += panel(left, dots, columns, rows)
            left += columns * DOT + GAP
        left += BETWEEN
    width, height = left - BETWEEN, TOP + rows * DOT + 16
    head = f'<svg xmlns="http://www.w3.org/2000/svg" width="{width}" height="{height}" viewBox="0 0 {width} {height}">'
    return "\n".join([head, '<title>What each stroke fires</title>',
                      '<rect width="100%" height="100%" fill="white"/>', *out, "</svg>"])


def read_strokes(name, listed):
    """The strokes of a job and its listing."""
    with open(name, "rb") as job, open(listed, errors="replace") as listing:
        try:
            found = strokes(job.read(), listing.readlines())
        except (IndexError, ValueError):
            found = []
    if not found:
        raise Refused(f"{listed}: no listing of {name}")
    return found


def main(words):
    columns, rows = (number(word, 1) for word in words[:2])
    print(draw(columns, rows, [read_strokes(*pair) for pair in zip(words[2::2], words[3::2])]))


if __name__ == "__main__":
    run(main, __doc__, lambda count: count >= 4 and count % 2 == 0)
