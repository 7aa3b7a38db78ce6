#!/usr/bin/env python3
"""Draws how costs grow, from tables that all.py printed: a picture (SVG) with a panel for each kind of work, seconds over
documents, both by powers of ten, index_run beside FTS5.

usage: plot.py TABLE > costs.svg          TABLE: a file with such tables; other lines are passed over
"""
import math
import re
import sys
from html import escape
from typing import NamedTuple

from started import start

# A panel's title, and the phase that it shows.
PANELS = [("write documents", "grow: write"), ("the same, and update each", "grow: update"),
          ("50 commits on older documents", "commits: 50 on older rows"), ("ask three questions", "grow: ask 3")]
COLOURS = {"index_run": "#1f5fa8", "FTS5": "#b8621b"}
WIDTH, HEIGHT, LEFT, TOP, RIGHT, BOTTOM = 220, 200, 44, 30, 24, 36


class Range(NamedTuple):
    """A part of an axis: from one power of ten to another, drawn from one place to another."""
    low: int
    high: int
    begin: float
    end: float

    def place(self, value):
        part = (math.log10(value) - self.low) / (self.high - self.low)
        return self.begin + part * (self.end - self.begin)

    def powers(self):
        return range(self.low, self.high + 1)


def range_of(values, begin, end):
    low, high = math.floor(math.log10(min(values))), math.ceil(math.log10(max(values)))
    return Range(low, max(high, low + 1), begin, end)


def points_in(text):
    """Of each phase and program its points, documents and seconds, by documents. A phase that stands twice counts as it
    stands last."""
    found = {}
    for line in text.splitlines():
        cells = [cell.strip() for cell in line.strip().strip("|").split("|")]
        if len(cells) >= 4 and cells[1] in COLOURS and re.fullmatch(r"[\d,]+", cells[2]):
            seconds = max(float(cells[3]), 0.005)
            found.setdefault((cells[0], cells[1]), {})[int(cells[2].replace(",", ""))] = seconds
    return {key: sorted(points.items()) for key, points in found.items()}


def shown(power):
    """A power of ten, as a number."""
    return f"{10 ** power:,}" if power >= 0 else f"{10.0 ** power:.{-power}f}"


def line(x1, y1, x2, y2):
    return f'<line x1="{x1:.1f}" y1="{y1:.1f}" x2="{x2:.1f}" y2="{y2:.1f}" stroke="#ccc"/>'


def words(x, y, text, more=""):
    return f'<text x="{x:.1f}" y="{y:.1f}" {more}>{escape(text)}</text>'


def curve(points, across, up, colour):
    placed = [(across.place(documents), up.place(seconds)) for documents, seconds in points]
    path = " ".join(f"{x:.1f},{y:.1f}" for x, y in placed)
    yield f'<polyline points="{path}" fill="none" stroke="{colour}" stroke-width="2"/>'
    yield from (f'<circle cx="{x:.1f}" cy="{y:.1f}" r="3" fill="{colour}"/>' for x, y in placed)


def axes(across, up):
    for power in up.powers():
        y = up.place(10 ** power)
        yield line(across.begin, y, across.end, y)
        yield words(across.begin - 5, y + 4, shown(power), 'text-anchor="end"')
    for power in across.powers():
        x = across.place(10 ** power)
        yield line(x, up.begin, x, up.end)
        yield words(x, up.begin + 15, shown(power), 'text-anchor="middle"')


def panel(title, phase, points, across, up, left):
    yield f'<g transform="translate({left},0)">'
    yield words(across.begin, TOP - 12, title, 'font-weight="bold"')
    yield from axes(across, up)
    for by, colour in COLOURS.items():
        yield from curve(points.get((phase, by), []), across, up, colour)
    yield "</g>"


def key(left, top):
    """Which colour is whose."""
    for at, (by, colour) in enumerate(COLOURS.items()):
        x = left + 110 * at
        yield f'<circle cx="{x}" cy="{top - 4}" r="4" fill="{colour}"/>'
        yield words(x + 9, top, by)
    yield words(left + 230, top, "seconds over documents, both by powers of ten")


def picture(points):
    asked = [phase for _, phase in PANELS]
    drawn = [point for (phase, _), list in points.items() if phase in asked for point in list]
    if not drawn:
        sys.exit("the table has none of these phases: " + ", ".join(asked))
    across = range_of([documents for documents, _ in drawn], LEFT, WIDTH - RIGHT)
    up = range_of([seconds for _, seconds in drawn], HEIGHT - BOTTOM, TOP)
    wide, high = WIDTH * len(PANELS), HEIGHT + 24
    yield (f'<svg xmlns="http://www.w3.org/2000/svg" width="{wide}" height="{high}" viewBox="0 0 {wide} {high}" '
           'font-family="sans-serif" font-size="11">')
    yield f'<rect width="{wide}" height="{high}" fill="white"/>'
    for at, (title, phase) in enumerate(PANELS):
        yield from panel(title, phase, points, across, up, at * WIDTH)
    yield from key(LEFT, HEIGHT + 12)
    yield "</svg>"


def draw():
    with open(sys.argv[1]) as table:
        print("\n".join(picture(points_in(table.read()))))


if __name__ == "__main__":
    start(draw)
