#!/usr/bin/env python3
"""Draws where the window of a page falls on paper, as an SVG.

    margins.py > FILE.svg

At the left is a page with its margins. Beside it the same page is printed on two printers, whose heads have their zero at
different places. The head stands where it is in its first pass: at its zero, its last nozzle on the window's first row.
"""
from figure import run

INK, PAPER, WINDOW, LINE, TEXT, ZERO = "#1f2933", "#ffffff", "#fdf6e3", "#9aa5b1", "#52606d", "#c0392b"
WIDTH, HEIGHT = 170, 230  # a page
LEFT, RIGHT, TOP, BOTTOM = 34, 22, 52, 26  # its margins
NOZZLES, PITCH = 5, 8
GAP, ABOVE, BELOW = 96, 68, 46


def text(x, y, words, anchor="middle", colour=TEXT, size=11):
    return (f'<text x="{x}" y="{y}" font-size="{size}" text-anchor="{anchor}" font-family="sans-serif" '
            f'fill="{colour}">{words}</text>')


def box(x, y, width, height, fill, stroke=LINE, more=""):
    return f'<rect x="{x}" y="{y}" width="{width}" height="{height}" fill="{fill}" stroke="{stroke}" {more}/>'


def line(x1, y1, x2, y2, stroke=LINE, more=""):
    return f'<line x1="{x1}" y1="{y1}" x2="{x2}" y2="{y2}" stroke="{stroke}" {more}/>'


def span(x1, x2, y, words):
    """A length across, with its name below."""
    ends = "".join(line(x, y - 4, x, y + 4, TEXT) for x in (x1, x2))
    return line(x1, y, x2, y, TEXT) + ends + text((x1 + x2) / 2, y + 14, words, size=10)


def rise(x, y1, y2, words):
    """A length down, with its name at the right."""
    ends = "".join(line(x - 4, y, x + 4, y, TEXT) for y in (y1, y2))
    return line(x, y1, x, y2, TEXT) + ends + text(x + 7, (y1 + y2) / 2 + 4, words, "start", size=10)


def picture(x, y):
    """What the page shows inside its margins: a frame and a letter."""
    width, height = WIDTH - LEFT - RIGHT, HEIGHT - TOP - BOTTOM
    frame = box(x + 8, y + 8, width - 16, height - 16, "none", INK, 'stroke-width="3"')
    letter = (f'<text x="{x + width / 2}" y="{y + height / 2 + 26}" font-size="76" text-anchor="middle" '
              f'font-family="sans-serif" font-weight="bold" fill="{INK}">F</text>')
    return frame + letter


def window(x, y):
    width, height = WIDTH - LEFT - RIGHT, HEIGHT - TOP - BOTTOM
    return box(x, y, width, height, WINDOW, LINE, 'stroke-dasharray="4 3"') + picture(x, y)


def head(x, y):
    """The head at its zero, its last nozzle on the row y."""
    length = (NOZZLES - 1) * PITCH
    body = box(x - 9, y - length - 7, 18, length + 14, "#e4e7eb", INK)
    nozzles = "".join(f'<circle cx="{x}" cy="{y - place * PITCH}" r="2.4" fill="{INK}"/>' for place in range(NOZZLES))
    return body + nozzles


def page(x, y):
    parts = [text(x + WIDTH / 2, y - 38, "the page", size=13), box(x, y, WIDTH, HEIGHT, PAPER, INK)]
    parts.append(window(x + LEFT, y + TOP))
    parts.append(span(x, x + LEFT, y + HEIGHT + 12, "left"))
    parts.append(span(x + WIDTH - RIGHT, x + WIDTH, y + HEIGHT + 12, "right"))
    parts.append(span(x + LEFT, x + WIDTH - RIGHT, y + HEIGHT + 12, "window"))
    parts.append(rise(x + WIDTH + 8, y, y + TOP, "top"))
    parts.append(rise(x + WIDTH + 8, y + HEIGHT - BOTTOM, y + HEIGHT, "bottom"))
    return parts


def paper(x, y, zero, title):
    """The printed sheet, where the head's zero is so far from the paper's left edge."""
    at = x + zero
    parts = [text(x + WIDTH / 2, y - 52, title[0], size=13), text(x + WIDTH / 2, y - 36, title[1], size=11)]
    parts += [box(x, y, WIDTH, HEIGHT, PAPER, INK), window(at, y + TOP)]
    parts.append(line(at, y - 6, at, y + HEIGHT + 20, ZERO, 'stroke-width="1.5" stroke-dasharray="6 3"'))
    parts.append(text(at + 4, y - 10, "the head's zero", "start", ZERO))
    parts.append(span(x, at, y + HEIGHT + 12, "left" if zero == LEFT else ""))
    parts.append(head(at, y + TOP))
    return parts


def draw():
    width, height = 3 * WIDTH + 2 * GAP + 100, ABOVE + HEIGHT + BELOW
    out = [f'<svg xmlns="http://www.w3.org/2000/svg" width="{width}" height="{height}" viewBox="0 0 {width} {height}">',
           "<title>A page with its margins, and where its window falls on paper</title>",
           '<rect width="100%" height="100%" fill="white"/>']
    out += page(30, ABOVE)
    out += paper(30 + WIDTH + GAP, ABOVE, LEFT, ("printed: zero at left", "the picture is where the page has it"))
    out += paper(30 + 2 * (WIDTH + GAP), ABOVE, 12, ("printed: zero nearer to the edge", "the picture is too far left"))
    return "\n".join([*out, "</svg>"])


if __name__ == "__main__":
    run(lambda _: print(draw()), __doc__, lambda count: count == 0)
