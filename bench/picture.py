"""Draws the figures of bench/run as SVG: the cost of a check against blocks, and of a read against files.

Usage: picture.py FIGURES PICTURE
"""

import math
import sys
from collections import namedtuple
from xml.sax.saxutils import escape

WIDTH, HEIGHT = 980, 420
PANEL_WIDTH, PANEL_HEIGHT, TOP, LEFT, GAP = 330, 300, 60, 60, 130
COLORS = {"ours": "#0b5fa5", "C": "#c2571a", "limit": "#777777", "SQLite": "#3a8f3a"}
NAMES = {"ours": "the library", "C": "plain C", "limit": "reading once", "SQLite": "SQLite"}
DASHES = {10: "", 100: "7 3", 250: "3 3", 900: "1 3"}

Line = namedtuple("Line", "points color dash label")


def read_figures(path):
    """The rows of the file, numbers as numbers; a time of 0 means that there is none."""
    with open(path) as file:
        names = file.readline().rstrip("\n").split("\t")
        rows = [dict(zip(names, line.rstrip("\n").split("\t"))) for line in file]
    for row in rows:
        for name in names[1:]:
            row[name] = float(row[name])
    return rows


def points(rows, across, column):
    return sorted((row[across], row[column]) for row in rows if row[column] > 0)


class Panel:
    """A picture with logarithmic axes, whose ranges are whole powers of a base."""

    def __init__(self, left, title, across, lines, base):
        self.left, self.title, self.across, self.base = left, title, across, base
        self.lines = [line for line in lines if line.points]
        self.x = self.span([x for line in self.lines for x, _ in line.points], base)
        self.y = self.span([y for line in self.lines for _, y in line.points], 10)

    @staticmethod
    def span(values, base):
        low = math.floor(math.log(min(values), base) + 1e-9)
        high = math.ceil(math.log(max(values), base) - 1e-9)
        return low, max(high, low + 1)

    def place(self, x, y):
        across = (math.log(x, self.base) - self.x[0]) / (self.x[1] - self.x[0])
        up = (math.log10(y) - self.y[0]) / (self.y[1] - self.y[0])
        return self.left + across * PANEL_WIDTH, TOP + (1 - up) * PANEL_HEIGHT

    def grid(self):
        for power in range(self.x[0], self.x[1] + 1):
            x, _ = self.place(self.base**power, 10 ** self.y[0])
            yield line(x, TOP, x, TOP + PANEL_HEIGHT)
            yield text(x, TOP + PANEL_HEIGHT + 18, f"{self.base ** power:,}", "middle")
        for power in range(self.y[0], self.y[1] + 1):
            _, y = self.place(self.base ** self.x[0], 10**power)
            yield line(self.left, y, self.left + PANEL_WIDTH, y)
            yield text(self.left - 6, y + 4, f"{10.0 ** power:,g}", "end")

    def draw(self):
        yield text(self.left, TOP - 30, self.title, "start", weight="bold")
        yield text(self.left, TOP - 12, "microseconds", "start")
        yield text(self.left + PANEL_WIDTH, TOP + PANEL_HEIGHT + 38, self.across, "end")
        yield from self.grid()
        for drawn in self.lines:
            path = " ".join("{:.1f},{:.1f}".format(*self.place(x, y)) for x, y in drawn.points)
            yield (f'<polyline points="{path}" fill="none" stroke="{drawn.color}" stroke-width="2"'
                   f' stroke-dasharray="{drawn.dash or "none"}"/>')
        yield from self.labels()

    def labels(self):
        """Each line's name at its right end, moved down where it would stand on another."""
        lowest = -math.inf
        ends = [(self.place(*drawn.points[-1]), drawn) for drawn in self.lines]
        for (x, y), drawn in sorted(ends, key=lambda end: end[0][1]):
            lowest = max(y + 4, lowest + 14)
            yield text(x + 6, lowest, drawn.label, "start", drawn.color)


def line(x1, y1, x2, y2):
    return f'<line x1="{x1:.1f}" y1="{y1:.1f}" x2="{x2:.1f}" y2="{y2:.1f}" stroke="#dddddd"/>'


def text(x, y, words, anchor, color="#333333", weight="normal"):
    return (f'<text x="{x:.1f}" y="{y:.1f}" text-anchor="{anchor}" fill="{color}"'
            f' font-weight="{weight}">{escape(words)}</text>')


def by_blocks(rows):
    """The check against n, a line for each number of files, and the limit of the fewest and the most."""
    checks = [row for row in rows if row["call"] == "check"]
    counts = sorted({int(row["files"]) for row in checks})
    for files in counts:
        some = [row for row in checks if row["files"] == files]
        label = f"{files} files"
        yield Line(points(some, "blocks", "ours"), COLORS["ours"], DASHES.get(files, ""), label)
    for files in (counts[0], counts[-1]):
        some = [row for row in checks if row["files"] == files]
        label = f"reading once, {files}"
        yield Line(points(some, "blocks", "limit"), COLORS["limit"], DASHES.get(files, ""), label)


def by_files(rows, blocks):
    """The read against the number of files, a line for each column."""
    reads = [row for row in rows if row["call"] == "read" and row["blocks"] == blocks]
    for column in ("ours", "C", "SQLite", "limit"):
        yield Line(points(reads, "files", column), COLORS[column], "", NAMES[column])


def picture(rows):
    blocks = 4096
    panels = [
        Panel(LEFT, "check: cost against blocks", "blocks of 512 bytes", by_blocks(rows), 4),
        Panel(LEFT + PANEL_WIDTH + GAP + 40, f"read: cost against files, {blocks:,} blocks", "files",
              by_files(rows, blocks), 10),
    ]
    yield (f'<svg xmlns="http://www.w3.org/2000/svg" width="{WIDTH}" height="{HEIGHT}"'
           f' viewBox="0 0 {WIDTH} {HEIGHT}" font-family="sans-serif" font-size="12">')
    yield f'<rect width="{WIDTH}" height="{HEIGHT}" fill="#ffffff"/>'
    for panel in panels:
        yield from panel.draw()
    yield "</svg>"


def main():
    if len(sys.argv) != 3:
        sys.exit("usage: picture.py FIGURES PICTURE")
    with open(sys.argv[2], "w") as file:
        file.write("\n".join(picture(read_figures(sys.argv[1]))) + "\n")


if __name__ == "__main__":
    main()
