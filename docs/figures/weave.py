#!/usr/bin/env python3
"""Draws which nozzle fires which row in which pass, as an SVG.

    weave.py NOZZLES PITCH ROWS > FILE.svg

Each column of the picture is a pass of the head across the page, each row of it a row of dots. A circle is a nozzle: it
is filled where it stands on a row of the window and fires it, and open where it stands above or below the window.
"""
from figure import number as count_of, run

PASS, LEFT, TOP = 26, 74, 40
INK, PAPER, LINE, TEXT = "#1f2933", "#fdf6e3", "#d0c8b0", "#52606d"


def row_height(rows):
    """So that no picture is taller than a page."""
    return max(6, min(14, 800 // rows))


def passes(nozzles, pitch, rows):
    """How many passes the window takes."""
    return (rows + (nozzles - 1) * pitch + nozzles - 1) // nozzles


def text(x, y, size, anchor, words):
    return (f'<text x="{x}" y="{y}" font-size="{size}" text-anchor="{anchor}" '
            f'font-family="sans-serif" fill="{TEXT}">{words}</text>')


def row_lines(above, rows, below, width, step):
    """The rows that nozzles stand on, those of the window on paper."""
    lines = [f'<rect x="{LEFT - 8}" y="{TOP + above * step - step // 2}" width="{width - LEFT}" '
             f'height="{rows * step}" fill="{PAPER}" stroke="{LINE}"/>']
    for row in range(-above, rows + below):
        y = TOP + (row + above) * step
        lines.append(f'<line x1="{LEFT - 8}" y1="{y}" x2="{width - 8}" y2="{y}" stroke="{LINE}" stroke-width="0.5"/>')
        if row % (5 if step > 8 else 10) == 0:
            lines.append(text(LEFT - 14, y + 4, 10, "end", f"row {row}"))
    return lines


def nozzle(x, y, fires, step):
    fill = INK if fires else "none"
    return f'<circle cx="{x}" cy="{y}" r="{max(2.5, step * 2 / 7):g}" fill="{fill}" stroke="{INK}" stroke-width="1"/>'


def draw(nozzles, pitch, rows):
    above = (nozzles - 1) * pitch
    count = passes(nozzles, pitch, rows)
    below = max(0, (count - 1) * nozzles - rows + 1)
    step = row_height(above + rows + below)
    width = LEFT + count * PASS + 8
    height = TOP + (above + rows + below) * step + 16
    out = [f'<svg xmlns="http://www.w3.org/2000/svg" width="{width}" height="{height}" viewBox="0 0 {width} {height}">',
           f'<title>{nozzles} nozzles, {pitch} rows apart, over {rows} rows</title>',
           '<rect width="100%" height="100%" fill="white"/>']
    out += row_lines(above, rows, below, width, step)
    for number in range(count):
        x = LEFT + number * PASS + PASS // 2
        out.append(text(x, TOP - 20, 10, "middle", f"{number}"))
        for place in range(nozzles):
            row = number * nozzles - above + place * pitch
            out.append(nozzle(x, TOP + (row + above) * step, 0 <= row < rows, step))
    out.append(text(LEFT - 14, TOP - 20, 10, "end", "pass"))
    out.append("</svg>")
    return "\n".join(out)


if __name__ == "__main__":
    run(lambda words: print(draw(*(count_of(word, 1) for word in words))), __doc__, lambda count: count == 3)
