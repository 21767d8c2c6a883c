"""Draws bench.csv as an SVG: digest times as bars; producer, check, packing and unpacking over the blocks as lines.

Usage: plot.py IN.csv OUT.svg. Uses the standard library alone."""

import csv
import sys
from html import escape

WIDTH, HEIGHT, LEFT, TOP, GAP, ACROSS = 300, 240, 70, 50, 90, 3
COLOURS = {"sm3rows": "#1b6ca8", "openssl": "#b5651d", "openssl-one-call": "#d9a86c", "libgcrypt": "#5b8c5a",
           "c-loop": "#b5651d", "c-copied": "#d9a86c", "c-sparse": "#b5651d"}


def text(x, y, words, anchor="middle", size=12, extra=""):
    return f'<text x="{x:.1f}" y="{y:.1f}" text-anchor="{anchor}" font-size="{size}" {extra}>{escape(words)}</text>'


def round_up(value):
    """The next number of the form 1, 2 or 5 times a power of ten."""
    step = 1e-6
    while True:
        for factor in (1, 2, 5):
            if factor * step >= value:
                return factor * step
        step *= 10


class Panel:
    """A drawing area with an upright axis in microseconds. So many stand across, the others below them."""

    def __init__(self, number, title, most):
        down, along = divmod(number, ACROSS)
        self.left, self.top = LEFT + along * (WIDTH + GAP), TOP + down * (HEIGHT + GAP)
        self.bottom = self.top + HEIGHT
        self.most = round_up(most)
        self.parts = [text(self.left + WIDTH / 2, self.top - 20, title, size=14)]
        for tick in range(6):
            value = self.most * tick / 5
            y = self.y(value)
            self.parts.append(f'<path d="M{self.left} {y:.1f}h{WIDTH}" stroke="#ddd"/>')
            self.parts.append(text(self.left - 6, y + 4, f"{value:g}", "end"))
        self.parts.append(text(self.left - 52, self.top + HEIGHT / 2, "microseconds", extra=(
            f'transform="rotate(-90 {self.left - 52} {self.top + HEIGHT / 2})"')))

    def y(self, value):
        return self.bottom - HEIGHT * value / self.most

    def key(self, sides):
        for number, side in enumerate(sides):
            y = self.top + 12 + 16 * number
            self.parts.append(f'<path d="M{self.left + 8} {y}h16" stroke="{COLOURS[side]}" stroke-width="4"/>')
            self.parts.append(text(self.left + 30, y + 4, side, "start"))


def bars(number, rows):
    """Digest times: a group of bars for each record length."""
    sides = list(dict.fromkeys(row["side"] for row in rows))
    lengths = list(dict.fromkeys(row["bits"] for row in rows))
    panel = Panel(number, "digest, by bits of the record", max(row["us"] for row in rows))
    panel.key(sides)
    group, bar = WIDTH / len(lengths), WIDTH / len(lengths) / (len(sides) + 1)
    for row in rows:
        x = panel.left + group * lengths.index(row["bits"]) + bar * (0.5 + sides.index(row["side"]))
        y = panel.y(row["us"])
        panel.parts.append(f'<path d="M{x:.1f} {panel.bottom}V{y:.1f}h{bar:.1f}V{panel.bottom}z" '
                           f'fill="{COLOURS[row["side"]]}"/>')
    for place, length in enumerate(lengths):
        panel.parts.append(text(panel.left + group * (place + 0.5), panel.bottom + 18, length))
    return panel.parts


def lines(number, title, rows):
    """Times over the blocks: a line for each side. The judge, which is not written for speed, is left out."""
    rows = [row for row in rows if row["side"] in COLOURS]
    sides = list(dict.fromkeys(row["side"] for row in rows))
    blocks = sorted({row["blocks"] for row in rows})
    panel = Panel(number, f"{title}, by blocks", max(row["us"] for row in rows))
    panel.key(sides)

    def x(count):
        return panel.left + WIDTH * count / max(blocks)

    for side in sides:
        points = [(x(row["blocks"]), panel.y(row["us"])) for row in rows if row["side"] == side]
        path = " ".join(f"{px:.1f},{py:.1f}" for px, py in points)
        panel.parts.append(f'<polyline points="{path}" fill="none" stroke="{COLOURS[side]}" stroke-width="2"/>')
        panel.parts += [f'<circle cx="{px:.1f}" cy="{py:.1f}" r="3" fill="{COLOURS[side]}"/>' for px, py in points]
    panel.parts += [text(x(count), panel.bottom + 18, str(count)) for count in blocks]
    return panel.parts


def main(source, target):
    with open(source, newline="") as file:
        rows = list(csv.DictReader(file))
    for row in rows:
        row["us"], row["blocks"] = float(row["nanoseconds"]) / 1000, int(row["blocks"])

    def of(measure):
        return [row for row in rows if row["measure"] == measure]

    parts = bars(0, of("digest"))
    over_blocks = ["produce", "check", "pack", "unpack"]
    for number, measure in enumerate(over_blocks, start=1):
        parts += lines(number, measure, of(measure))
    width = LEFT + ACROSS * WIDTH + (ACROSS - 1) * GAP + 20
    height = TOP + len(over_blocks) // ACROSS * (HEIGHT + GAP) + HEIGHT + 40
    head = f'<svg xmlns="http://www.w3.org/2000/svg" width="{width}" height="{height}" font-family="sans-serif">'
    with open(target, "w") as file:
        file.write("\n".join([head, '<rect width="100%" height="100%" fill="white"/>', *parts, "</svg>\n"]))


main(*sys.argv[1:])
