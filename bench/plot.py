"""Draws docs/benchmarks.svg: the ratios of all tables that have targets, but growth, as bars, and the cost of one feed by the records held."""

import math
from html import escape

from figures import ROOT, rows

WIDTH = 860
LEFT = 330  # where the bars and the curves begin
RIGHT = WIDTH - 70
BAR = 20
LONGEST = 2.0  # the ratio at which a bar is cut; its figure stands behind it
INK, GRID, MET, OVER, RUST = "#1f2328", "#d8dee4", "#2f6fb3", "#c4501b", "#7a5195"


def text(x, y, words, anchor="start", colour=INK, size=12, weight="normal"):
    style = f'text-anchor="{anchor}" fill="{colour}" font-size="{size}" font-weight="{weight}"'
    return f'<text x="{x:.1f}" y="{y:.1f}" {style}>{escape(words)}</text>\n'


def line(x1, y1, x2, y2, colour):
    return f'<line x1="{x1:.1f}" y1="{y1:.1f}" x2="{x2:.1f}" y2="{y2:.1f}" stroke="{colour}"/>\n'


def rect(x, y, width, height, colour):
    return f'<rect x="{x:.1f}" y="{y:.1f}" width="{width:.1f}" height="{height:.1f}" fill="{colour}"/>\n'


def dot(x, y, colour):
    return f'<circle cx="{x:.1f}" cy="{y:.1f}" r="3" fill="{colour}"/>\n'


def curve(points, colour):
    path = " ".join(f"{x:.1f},{y:.1f}" for x, y in points)
    return f'<polyline points="{path}" fill="none" stroke="{colour}" stroke-width="2"/>\n' + "".join(dot(x, y, colour) for x, y in points)


def bar(row, y, unit):
    end = LEFT + min(row.ratio(), LONGEST) * unit
    mark = LEFT + row.target() * unit
    drawn = text(LEFT - 10, y + 13, row.label(), "end")
    drawn += rect(LEFT, y + 3, end - LEFT, BAR - 7, OVER if row.ratio() > row.target() else MET)
    drawn += line(mark, y, mark, y + BAR, INK)
    return drawn + text(max(end, mark) + 6, y + 13, f"{row.ratio():.2f}")


def bars(found, top):
    """The bars of the rows, and where they end."""
    unit = (RIGHT - LEFT) / min(LONGEST, max(1.2, max(row.ratio() for row in found)))
    title = f"Time of the port / time of the Rust (upright mark: the target; cut at {LONGEST:g})"
    drawn, y = text(20, top, title, weight="bold", size=14), top + 14
    for name in ("feed", "split", "readers", "files", "headers"):
        drawn += text(20, y + 13, name, weight="bold")
        for row in (row for row in found if row.table == name):
            drawn += bar(row, y, unit)
            y += BAR
        y += 8
    return drawn, y


class Axes:
    """Both logarithmic."""

    def __init__(self, top, bottom, xs, ys):
        self.top, self.bottom, self.xs, self.ys = top, bottom, xs, ys

    def x(self, value):
        return LEFT + (RIGHT - LEFT) * math.log(value / self.xs[0]) / math.log(self.xs[1] / self.xs[0])

    def y(self, value):
        return self.bottom - (self.bottom - self.top) * math.log(value / self.ys[0]) / math.log(self.ys[1] / self.ys[0])

    def grid(self):
        drawn, value = "", self.ys[0]
        while value <= self.ys[1]:
            drawn += line(LEFT, self.y(value), RIGHT, self.y(value), GRID)
            drawn += text(LEFT - 10, self.y(value) + 4, f"{value:,} ns", "end")
            value *= 10
        for held in (1, 4, 16, 64, 256, 1024, 2048):
            drawn += text(self.x(held), self.bottom + 16, f"{held:,}", "middle")
        return drawn


def held(row):
    return int(row.name.split(",")[0])


def growth(found, top):
    """The curves of both sides while the list is not whole."""
    waiting = [row for row in found if row.table == "growth" and "waiting" in row.name]
    axes = Axes(top + 20, top + 270, (1, 2048), (10, 10_000))
    drawn = text(20, top, "Time of one feed, by the records that its slot holds before", weight="bold", size=14) + axes.grid()
    slower = max(("port", "rust"), key=lambda side: waiting[-1].median[side])
    for side, name, colour in (("port", "port", MET), ("rust", "Rust", RUST)):
        points = [(axes.x(held(row)), axes.y(row.median[side])) for row in waiting]
        x, y = points[-1]
        drawn += curve(points, colour) + text(x + 8, y if side == slower else y + 14, name, colour=colour, weight="bold")
    return drawn + text((LEFT + RIGHT) / 2, top + 308, "records held", "middle")


def main():
    found = rows()
    drawn, end = bars([row for row in found if row.table != "growth" and row.target()], 28)
    drawn += growth(found, end + 30)
    height = end + 360
    head = f'<svg xmlns="http://www.w3.org/2000/svg" width="{WIDTH}" height="{height}" viewBox="0 0 {WIDTH} {height}" font-family="sans-serif">\n'
    (ROOT / "docs/benchmarks.svg").write_text(head + rect(0, 0, WIDTH, height, "#ffffff") + drawn + "</svg>\n")


main()
