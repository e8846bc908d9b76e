#!/usr/bin/env python3
"""bench/plots.py: draws docs/speed.svg and docs/cost.svg from the tables bench/figures/speed.tsv and cost.tsv.

It needs only Python's standard library. A table has lines that begin with # (the first becomes the caption), a line of column names, and a
line for each row; tabs separate columns. Text and lines are in a grey that is visible on white and on dark backgrounds, and the background
is transparent.
"""
import math
import pathlib
from xml.sax.saxutils import escape

BENCH = pathlib.Path(__file__).resolve().parent
DOCS = BENCH.parent / "docs"

GREY = "#7a828c"
FAINT = "#7a828c55"
COLOURS = ("#2f7fe8", "#9aa3ad", "#c8961e", "#3fa45b", "#a67be0", "#d65c4f", "#3aa5a5")
FONT = "font-family='ui-sans-serif, Helvetica, Arial, sans-serif'"


def table(name):
    """Return the first comment of a table, its column names, and its rows."""
    lines = (BENCH / "figures" / name).read_text(encoding="utf-8").splitlines()
    notes = [line.lstrip("# ") for line in lines if line.startswith("#")]
    rows = [line.split("\t") for line in lines if line and not line.startswith("#")]
    return notes[0], rows[0], rows[1:]


def number(word):
    """Return a figure, None for a dash."""
    return None if word == "-" else float(word.replace(",", ""))


class Drawing:
    """An SVG built from shapes."""

    def __init__(self, width, height, title):
        self.width, self.height, self.shapes = width, height, [f"<title>{escape(title)}</title>"]

    def text(self, x, y, text, size=12, anchor="start", colour=GREY, weight="normal"):
        look = f"font-size='{size}' text-anchor='{anchor}' fill='{colour}' font-weight='{weight}'"
        self.shapes.append(f"<text x='{x:.1f}' y='{y:.1f}' {look}>{escape(text)}</text>")

    def line(self, x1, y1, x2, y2, colour=FAINT, width=1.0, dash=""):
        dashed = f" stroke-dasharray='{dash}'" if dash else ""
        self.shapes.append(
            f"<line x1='{x1:.1f}' y1='{y1:.1f}' x2='{x2:.1f}' y2='{y2:.1f}' stroke='{colour}' stroke-width='{width}'{dashed}/>"
        )

    def box(self, x, y, width, height, colour):
        self.shapes.append(f"<rect x='{x:.1f}' y='{y:.1f}' width='{width:.1f}' height='{height:.1f}' rx='1.5' fill='{colour}'/>")

    def dot(self, x, y, colour):
        self.shapes.append(f"<circle cx='{x:.1f}' cy='{y:.1f}' r='3.5' fill='{colour}'/>")

    def path(self, points, colour):
        way = " ".join(f"{x:.1f},{y:.1f}" for x, y in points)
        self.shapes.append(f"<polyline points='{way}' fill='none' stroke='{colour}' stroke-width='2'/>")

    def write(self, path):
        size = f"viewBox='0 0 {self.width} {self.height}' width='{self.width}' height='{self.height}'"
        head = f"<svg xmlns='http://www.w3.org/2000/svg' {size} {FONT}>"
        path.write_text("\n".join([head, *self.shapes, "</svg>"]) + "\n", encoding="utf-8")


def step_for(most):
    """Return a round step for an axis with four to eight steps."""
    step = 10 ** math.floor(math.log10(most))
    for part in (1, 2, 4, 5, 10):
        if most / (step / part) >= 4:
            return step / part
    return step


def short(value):
    """Return a figure in three digits at most, or its whole integer part."""
    return f"{value:.0f}" if value >= 100 else f"{value:.3g}"


def speed():
    note, names, rows = table("speed.tsv")
    inputs = names[2:]
    sizes = list(dict.fromkeys(row[0] for row in rows))
    programs = list(dict.fromkeys(row[1] for row in rows))
    colours = {program: COLOURS[at % len(COLOURS)] for at, program in enumerate(programs)}
    left, top, high, gap = 52, 62, 180, 82
    wide = 128
    drawing = Drawing(left + wide * len(inputs) + 16, top + len(sizes) * (high + gap) + 14, "Speed beside peers")
    at = left
    for program in programs:
        drawing.box(at, 14, 11, 11, colours[program])
        drawing.text(at + 16, 24, program, 12, weight="bold" if program == programs[0] else "normal")
        at += 36 + 6.4 * len(program)
    most = max(number(word) or 0 for row in rows for word in row[2:])
    step = step_for(most)
    most = step * (math.floor(most / step) + 1)
    for place, size in enumerate(sizes):
        base = top + place * (high + gap) + high
        drawing.text(left, base - high - 10, f"{size}, MB/s", 12, weight="bold")
        for mark in range(round(most / step) + 1):
            y = base - high * mark * step / most
            drawing.line(left, y, left + wide * len(inputs), y)
            drawing.text(left - 8, y + 4, short(mark * step), 11, "end")
        group = sorted((row for row in rows if row[0] == size), key=lambda row: programs.index(row[1]))
        bar = min(30, (wide - 22) / len(group))
        for column, name in enumerate(inputs):
            figures = {row[1]: number(row[2 + column]) for row in group}
            begin = left + wide * column + (wide - bar * len(group)) / 2
            for index, row in enumerate(group):
                figure = figures[row[1]]
                if figure is None:
                    continue
                tall = high * figure / most
                drawing.box(begin + bar * index + 1.5, base - tall, bar - 3, tall, colours[row[1]])
                drawing.text(begin + bar * (index + 0.5), base - tall - 4, f"{figure:.0f}", 10, "middle")
            drawing.text(left + wide * (column + 0.5), base + 16, name, 12, "middle")
            own = figures.get(programs[0])
            peers = [figure for program, figure in figures.items() if program != programs[0] and figure]
            if own and peers:
                drawing.text(left + wide * (column + 0.5), base + 31, f"× {own / max(peers):.1f}", 11, "middle", weight="bold")
        drawing.line(left, base, left + wide * len(inputs), base, GREY)
    drawing.text(left, drawing.height - 26, f"×: {programs[0]} to the best of the others", 10.5)
    drawing.text(left, drawing.height - 10, note, 10.5)
    drawing.write(DOCS / "speed.svg")


def cost():
    note, names, rows = table("cost.tsv")
    sizes = names[1:]
    cells = [math.prod(int(part) for part in size.split(" by ")) for size in sizes]
    figures = [(row[0], [number(word) for word in row[1:]]) for row in rows]
    known = [figure for _, line in figures for figure in line if figure]
    low, high = math.floor(math.log10(min(known))), math.ceil(math.log10(max(known)))
    left, top, wide, tall = 62, 44, 470, 330
    right = 40 + 7 * max(len(name) for name, _ in figures)
    drawing = Drawing(left + wide + right, top + tall + 62, "Cost by the size of the screen")
    first, last = math.log10(cells[0]), math.log10(cells[-1])

    def across(count):
        return left + 20 + (wide - 40) * (math.log10(count) - first) / (last - first)

    def down(figure):
        return top + tall - tall * (math.log10(figure) - low) / (high - low)

    drawing.text(left, 22, "microseconds, by the size of the screen (both scales logarithmic)", 12, weight="bold")
    for power in range(low, high + 1):
        drawing.line(left, down(10**power), left + wide, down(10**power))
        drawing.text(left - 8, down(10**power) + 4, f"{10**power:,}" if power >= 0 else f"{10**power:g}", 11, "end")
    for size, count in zip(sizes, cells):
        drawing.line(across(count), top, across(count), top + tall)
        drawing.text(across(count), top + tall + 18, size, 12, "middle")
        drawing.text(across(count), top + tall + 33, f"{count:,} cells", 10.5, "middle")
    # A cost proportional to the cells, from the cheapest cost's first figure on.
    start = min(line[0] for _, line in figures if line[0])
    end = [(count, start * count / cells[0]) for count in cells if start * count / cells[0] <= 10**high]
    drawing.line(across(cells[0]), down(start), across(end[-1][0]), down(end[-1][1]), GREY, 1.2, "2 5")
    labels = []
    for at, (name, line) in enumerate(figures):
        colour = COLOURS[at % len(COLOURS)]
        points = [(across(count), down(figure)) for count, figure in zip(cells, line) if figure]
        drawing.path(points, colour)
        for point in points:
            drawing.dot(*point, colour)
        labels.append([points[-1][1], name, colour, points[-1]])
    # Figures are above their points, and never overlap.
    for column, count in enumerate(cells):
        above = top + tall + 20
        for figure in sorted(line[column] for _, line in figures if line[column]):
            above = min(down(figure) - 9, above - 12)
            drawing.text(across(count), above, short(figure), 10, "middle")
    # Names are at the right, by the last figure, and never overlap.
    labels.sort()
    for index, label in enumerate(labels):
        label[0] = max(label[0], labels[index - 1][0] + 18) if index else label[0]
    spare = max(0, labels[-1][0] - (top + tall - 6))
    for y, name, colour, (x, from_y) in labels:
        drawing.line(x + 6, from_y, left + wide + 8, y - spare, colour, 0.8, "1 3")
        drawing.box(left + wide + 12, y - spare - 8, 9, 9, colour)
        drawing.text(left + wide + 27, y - spare, name, 12)
    drawing.text(left, drawing.height - 8, f"{note}; dotted: in proportion to the cells", 10.5)
    drawing.write(DOCS / "cost.svg")


def main():
    speed()
    cost()


if __name__ == "__main__":
    main()
