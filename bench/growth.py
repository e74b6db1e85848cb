#!/usr/bin/env python3
"""Draws the table of bench/growth.c, and prints the part of it that docs/speed.md has: bench/growth.py TABLE.csv PICTURE.svg

On the left the time of a timing here and in plain C over the crossings, on the right the ratio of the two; every axis goes
by factors. The rows of one block into longer tables are left out: they have one number of crossings."""
import csv
import math
import sys

WIDTH, HEIGHT, SIDE, GAP = 420, 320, 60, 90
SHAPES = {"layers": "circle", "selectors": "square"}
HERE, IN_C = "#b5452c", "#3b6ea5"


class Axis:
    """Maps numbers from least to most to lengths on the page, equal factors to equal lengths."""

    def __init__(self, least, most, first, last):
        self.least, self.factor, self.first, self.last = least, math.log(most / least), first, last

    def at(self, number):
        return self.first + math.log(number / self.least) / self.factor * (self.last - self.first)


def text(x, y, words, anchor="middle", turn=""):
    return f'<text x="{x:.1f}" y="{y:.1f}" text-anchor="{anchor}"{turn}>{words}</text>'


def line(x1, y1, x2, y2, color="#ccc"):
    return f'<line x1="{x1:.1f}" y1="{y1:.1f}" x2="{x2:.1f}" y2="{y2:.1f}" stroke="{color}"/>'


def mark(shape, x, y, color):
    if shape == "circle":
        return f'<circle cx="{x:.1f}" cy="{y:.1f}" r="3.5" fill="{color}" fill-opacity="0.7"/>'
    return f'<rect x="{x - 3:.1f}" y="{y - 3:.1f}" width="6" height="6" fill="{color}" fill-opacity="0.7"/>'


def in_words(number):
    return f"{number:,.0f}" if number >= 10 or number == int(number) else f"{number:.1f}"


def frame(across, up, ticks_across, ticks_up, title_across, title_up):
    parts = []
    for number in ticks_across:
        parts += [line(across.at(number), up.first, across.at(number), up.last),
                  text(across.at(number), up.first + 16, in_words(number))]
    for number in ticks_up:
        parts += [line(across.first, up.at(number), across.last, up.at(number)),
                  text(across.first - 6, up.at(number) + 4, in_words(number), "end")]
    middle = (up.first + up.last) / 2
    parts += [text((across.first + across.last) / 2, up.first + 36, title_across),
              text(across.first - 48, middle, title_up, turn=f' transform="rotate(-90 {across.first - 48:.1f} {middle:.1f})"')]
    return parts


def legend(x, y):
    parts = []
    for i, (name, color) in enumerate([("here", HERE), ("plain C", IN_C)]):
        parts += [mark("circle", x, y + 18 * i, color), text(x + 12, y + 4 + 18 * i, name, "start")]
    for i, (name, shape) in enumerate(SHAPES.items()):
        parts += [mark(shape, x, y + 36 + 18 * i, "#555"), text(x + 12, y + 40 + 18 * i, name, "start")]
    return parts


def picture(rows):
    top, bottom = 20, 20 + HEIGHT
    left = Axis(30, 200_000, SIDE + 20, SIDE + 20 + WIDTH)
    right = Axis(30, 200_000, left.last + GAP, left.last + GAP + WIDTH)
    time, ratio = Axis(1, 10_000, bottom, top), Axis(0.5, 8, bottom, top)
    powers = [100, 1_000, 10_000, 100_000]
    parts = frame(left, time, powers, [1, 10, 100, 1_000, 10_000], "crossings of an arc by a line", "microseconds a timing")
    parts += frame(right, ratio, powers, [0.5, 1, 2, 4, 8], "crossings of an arc by a line", "ratio to plain C")
    for row in rows:
        shape, met = SHAPES[row["block"]], float(row["crossings"])
        parts += [mark(shape, left.at(met), time.at(float(row["C ns"]) / 1000), IN_C),
                  mark(shape, left.at(met), time.at(float(row["here ns"]) / 1000), HERE),
                  mark(shape, right.at(met), ratio.at(float(row["ratio"])), HERE)]
    parts += legend(left.first + 16, top + 16)
    size = f'width="{right.last + 20:.0f}" height="{bottom + 50}"'
    return "\n".join([f'<svg xmlns="http://www.w3.org/2000/svg" {size} font-family="sans-serif" font-size="12">',
                      '<rect width="100%" height="100%" fill="white"/>', *parts, "</svg>", ""])


# of each kind of block the rows that are shown: by sets, or by the lines of the tables
SHOWN = {"layers": ("sets", {"0", "16"}), "selectors": ("sets", {"5", "8", "10"}), "tables": ("table lines", {"256", "4096"})}
WHOLE = ["arcs", "sets", "lines", "table lines", "crossings"]
EXACT = ["ratio", "here ns a crossing", "C ns a crossing"]


def shown(row):
    column, values = SHOWN[row["block"]]
    return row[column] in values


def table_row(row):
    cells = [row["block"], *(f"{int(row[column]):,}" for column in WHOLE)]
    cells += [f"{int(row[column]) / 1000:,.1f}" for column in ("here ns", "C ns")]
    return "| " + " | ".join(cells + [row[column] for column in EXACT]) + " |"


def main():
    table, drawn = sys.argv[1:]
    with open(table, newline="") as file:
        rows = list(csv.DictReader(file))
    with open(drawn, "w") as file:
        file.write(picture([row for row in rows if row["block"] in SHAPES]))
    print("| block | arcs | sets | lines | table | crossings | here, µs | C, µs | ratio | here, ns a crossing | C, ns a crossing |")
    print("|---" * 11 + "|")
    for row in rows:
        if shown(row):
            print(table_row(row))


main()
