#!/usr/bin/env python3
"""Draws a report as a picture: the bits of noise of each register, and the limit of the set.

    tools/noise_plot.py REPORT > PICTURE.svg

REPORT is a file that the command `report` wrote. A register has as many bits of noise as the binary logarithm of its bound.
"""
import json
import math
import sys
from html import escape

WIDTH, HEIGHT = 800, 400
LEFT, RIGHT, TOP, BOTTOM = 60, 20, 50, 60
MOST_NAMES = 40


def bits(bound):
    """The binary logarithm of a bound, and 0 for the bound 0."""
    return math.log2(bound["mant"]) + bound["exp"] if bound["mant"] else 0.0


def line(x1, y1, x2, y2, kind):
    return f'<line class="{kind}" x1="{x1:.1f}" y1="{y1:.1f}" x2="{x2:.1f}" y2="{y2:.1f}"/>'


def label(x, y, text, anchor="middle"):
    return f'<text x="{x:.1f}" y="{y:.1f}" text-anchor="{anchor}">{escape(text)}</text>'


def picture(report):
    """The lines of the picture."""
    noise = [bits(bound) for bound in report["bounds"]]
    limit = bits(report["limit"])
    top = max([limit, *noise]) * 1.05
    across = (WIDTH - LEFT - RIGHT) / len(noise)

    def x(register):
        return LEFT + register * across

    def y(value):
        return HEIGHT - BOTTOM - value / top * (HEIGHT - TOP - BOTTOM)

    yield f'<svg xmlns="http://www.w3.org/2000/svg" viewBox="0 0 {WIDTH} {HEIGHT}" font-family="sans-serif" font-size="12">'
    yield "<style>.grid{stroke:#ddd}.axis{stroke:#333}.limit{stroke:#c33;stroke-dasharray:6 4}"
    yield ".noise{stroke:#26c;stroke-width:2;fill:none}</style>"
    yield f'<rect width="{WIDTH}" height="{HEIGHT}" fill="#fff"/>'
    yield label(LEFT, 25, f"Bits of noise of each register, set {report['set']}", "start")
    step = 10 ** math.floor(math.log10(top)) / 2
    for mark in range(int(top / step) + 1):
        yield line(LEFT, y(mark * step), WIDTH - RIGHT, y(mark * step), "grid")
        yield label(LEFT - 8, y(mark * step) + 4, f"{mark * step:g}", "end")
    yield line(LEFT, y(limit), WIDTH - RIGHT, y(limit), "limit")
    yield label(LEFT + 6, y(limit) + 14, f"limit {limit:.1f}", "start")
    ends = [f"{x(i):.1f},{y(value):.1f} {x(i + 1):.1f},{y(value):.1f}" for i, value in enumerate(noise)]
    yield f'<polyline class="noise" points="{" ".join(ends)}"/>'
    yield line(LEFT, y(0), WIDTH - RIGHT, y(0), "axis")
    for i in range(0, len(noise), -(-len(noise) // MOST_NAMES)):
        yield label(x(i + 0.5), y(0) + 18, report["bounds"][i]["name"])
    yield label((LEFT + WIDTH - RIGHT) / 2, HEIGHT - 15, "register, in order")
    yield "</svg>"


def main():
    if len(sys.argv) != 2:
        print(__doc__, file=sys.stderr)
        return 2
    with open(sys.argv[1]) as file:
        report = json.load(file)
    print("\n".join(picture(report)))
    return 0


if __name__ == "__main__":
    sys.exit(main())
