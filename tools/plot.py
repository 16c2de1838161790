#!/usr/bin/env python3
"""Draws the benchmark's numbers: tools/plot.py NUMBERS.csv PICTURE.svg

Left, nanoseconds a byte of the Rust and of ours on every text; right, looks against the bound.
"""
import csv
import math
import sys
from html import escape

RUST, OURS = "#c2571a", "#1f5fa8"
INK, GREY, FAINT = "#222222", "#666666", "#dddddd"
ROW = 24                                                     # height of a text's row
TOP = 92                                                     # where both panels begin
LEFT, LEFT_WIDTH = 280, 430                                  # the first panel, after the names
RIGHT, RIGHT_WIDTH = LEFT + LEFT_WIDTH + 112, 430
WIDTH = RIGHT + RIGHT_WIDTH + 28


class Axis:
    """A logarithmic axis from a power of ten to a power of ten."""

    def __init__(self, values, start, length):
        self.first = math.floor(math.log10(min(values)))
        self.last = math.ceil(math.log10(max(values)))
        self.start, self.step = start, length / (self.last - self.first)

    def at(self, value):
        return self.start + (math.log10(value) - self.first) * self.step

    def marks(self):
        for power in range(self.first, self.last + 1):
            yield self.start + (power - self.first) * self.step, power


def number(power):
    """A power of ten as people write it."""
    return f"{10 ** power:,}" if power >= 0 else f"{10 ** power:.{-power}f}"


def ten_to(power):
    return "10" + str(power).translate(str.maketrans("-0123456789", "⁻⁰¹²³⁴⁵⁶⁷⁸⁹"))


def text(x, y, words, anchor="start", size=12, colour=INK, weight="normal"):
    return (f'<text x="{x:.1f}" y="{y:.1f}" text-anchor="{anchor}" font-size="{size}" fill="{colour}"'
            f' font-weight="{weight}">{escape(words)}</text>')


def line(x1, y1, x2, y2, colour=FAINT, width=1, dashes=""):
    dashes = f' stroke-dasharray="{dashes}"' if dashes else ""
    return (f'<line x1="{x1:.1f}" y1="{y1:.1f}" x2="{x2:.1f}" y2="{y2:.1f}" stroke="{colour}"'
            f' stroke-width="{width}"{dashes}/>')


def dot(x, y, colour, filled, title="", radius=4.5):
    title = f"<title>{escape(title)}</title>" if title else ""
    return (f'<circle cx="{x:.1f}" cy="{y:.1f}" r="{radius}" fill="{colour if filled else "#ffffff"}"'
            f' stroke="{colour}" stroke-width="1.6">{title}</circle>')


def times(texts):
    """The first panel: a row for each text."""
    height = ROW * len(texts)
    every = [float(row[who]) for rows in texts.values() for row in rows for who in ("rust", "ours")]
    axis = Axis(every, LEFT, LEFT_WIDTH)
    yield text(LEFT, 30, "Nanoseconds a byte", size=15, weight="bold")
    key = [(RUST, "the Rust", 0), (OURS, "ours", 92)]
    for colour, name, shift in key:
        yield dot(LEFT + shift + 5, 52, colour, True)
        yield text(LEFT + shift + 15, 56, name)
    yield dot(LEFT + 165, 52, INK, False)
    yield text(LEFT + 175, 56, "1 MB")
    yield dot(LEFT + 225, 52, INK, True)
    yield text(LEFT + 235, 56, "16 MB")
    yield text(LEFT + 292, 56, "logarithmic, left is faster", colour=GREY)
    for x, power in axis.marks():
        yield line(x, TOP, x, TOP + height)
        yield text(x, TOP + height + 18, number(power), "middle", 11)
    for place, (name, rows) in enumerate(texts.items()):
        y = TOP + ROW * place + ROW / 2
        if place and rows[0]["kind"] != kind:
            yield line(14, y - ROW / 2, LEFT + LEFT_WIDTH, y - ROW / 2, "#888888", 1, "3 3")
        kind = rows[0]["kind"]
        yield text(LEFT - 36, y + 4, name.replace("`", ""), "end")
        yield text(LEFT - 12, y + 4, str(place + 1), "end", 11, GREY)
        for who, colour, lift in (("rust", RUST, -4), ("ours", OURS, 4)):
            ends = [axis.at(float(row[who])) for row in rows]
            yield line(min(ends), y + lift, max(ends), y + lift, colour, 1.6)
            for x, row in sorted(zip(ends, rows), key=lambda pair: int(pair[1]["mb"]) == 1):
                title = f"{name}, {row['mb']} MB: {row[who]} ns/byte"
                yield dot(x, y + lift, colour, row["mb"] != "1", title, 3.6)


def looks(texts):
    """The second panel: a dot for each text and size, at the larger size with the text's number."""
    height = ROW * len(texts)
    rows = [(place + 1, name, row) for place, (name, rows) in enumerate(texts.items()) for row in rows]
    every = [int(row[what]) for _, _, row in rows for what in ("looks", "bound")]
    across, up = Axis(every, RIGHT, RIGHT_WIDTH), Axis(every, TOP + height, -height)
    yield text(RIGHT, 30, "Looks against the bound", size=15, weight="bold")
    yield text(RIGHT, 56, "No dot may be above the line. Numbers: the texts on the left, at 16 MB.", colour=GREY)
    for x, power in across.marks():
        yield line(x, TOP, x, TOP + height)
        yield text(x, TOP + height + 18, ten_to(power), "middle", 11)
    for y, power in up.marks():
        yield line(RIGHT, y, RIGHT + RIGHT_WIDTH, y)
        yield text(RIGHT - 8, y + 4, ten_to(power), "end", 11)
    yield text(RIGHT + RIGHT_WIDTH / 2, TOP + height + 40, "bound: 3 x lines x (deepest nesting + 1)", "middle")
    middle = TOP + height / 2
    yield f'<g transform="rotate(-90 {RIGHT - 58} {middle})">{text(RIGHT - 58, middle, "looks", "middle")}</g>'
    yield line(RIGHT, TOP + height, RIGHT + RIGHT_WIDTH, TOP, INK, 1.4)
    yield text(RIGHT + RIGHT_WIDTH * 0.72, TOP + height * 0.19, "looks = bound", "end", 11)
    places = [(across.at(int(row["bound"])), up.at(int(row["looks"]))) for _, _, row in rows]
    labels = {}                                              # texts at one place share a label
    for (x, y), (place, name, row) in zip(places, rows):
        title = f"{name}, {row['mb']} MB: {row['looks']} looks, bound {row['bound']}"
        yield dot(x, y, OURS, row["mb"] != "1", title, 4)
        if row["mb"] != "1":
            labels.setdefault((round(x, 1), round(y, 1)), []).append(str(place))
    # A label stands beside its dot where that is alone; the labels of a crowd stand in a column.
    crowd = []
    for (x, y), names in labels.items():
        if any(0 < math.dist((x, y), other) < 30 for other in labels):
            crowd.append((y, x, ", ".join(names)))
        else:
            yield text(x + 9, y + 4 if y + 4 < TOP + height else y - 4, ", ".join(names), size=11)
    column = max((x for _, x, _ in crowd), default=0) + 26
    at = 0
    for y, x, words in sorted(crowd):
        at = max(y, at + 14)
        yield line(x + 4, y, column - 3, at, "#aaaaaa", 0.8)
        yield text(column, at + 4, words, size=11)


def main():
    source, target = sys.argv[1:]
    texts = {}
    with open(source, newline="", encoding="utf-8") as file:
        for row in csv.DictReader(file):
            texts.setdefault(row["text"], []).append(row)
    height = TOP + ROW * len(texts) + 60
    parts = [
        f'<svg xmlns="http://www.w3.org/2000/svg" viewBox="0 0 {WIDTH} {height}" width="{WIDTH}" height="{height}"'
        ' font-family="DejaVu Sans, Verdana, sans-serif">',
        "<!-- made by tools/plot.py -->",
        f'<rect width="{WIDTH}" height="{height}" fill="#ffffff"/>',  # readable on dark pages too
        *times(texts),
        *looks(texts),
        "</svg>",
    ]
    with open(target, "w", encoding="utf-8") as file:
        file.write("\n".join(parts) + "\n")


main()
