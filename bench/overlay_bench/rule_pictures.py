"""Two pictures of the rules, from the program's own answers: docs/picture.svg (input, hot pixels, result) and docs/fill-rules.svg (how a layer's overlaps are read)."""
from __future__ import annotations

import os
import subprocess
import tempfile
from collections.abc import Iterable, Iterator, Sequence
from dataclasses import dataclass

from . import programs, shapes
from .shapes import Polygon

FOLDER = os.path.join(programs.ROOT, "docs")
FIRST, SECOND, RESULT, HOT, INK, GRID = "#2f6db5", "#c8642a", "#3c8d4e", "#ffdf80", "#333", "#e4e4e4"
BOTH = "#7d4aa8"
# Pixels of the screen: a panel's sides, what stands above it, between two of them, below all, and a line of words.
PANEL, TITLE, GAP, EDGE, LINE = 270, 30, 16, 10, 20

# Two layers of one polygon each, whose crossings lie beside the grid's points.
LAYERS = ("POLYGON ((1 1, 9 0, 12 7, 4 10, 1 1))", "POLYGON ((0 4, 7 2, 13 5, 8 6, 10 11, 3 7, 0 4))")
# One layer of two polygons: a star that crosses itself, and a square over a part of it; so large that rounding isn't seen.
OVERLAPPING = "POLYGON ((440 860, 200 100, 840 580, 40 580, 680 100, 440 860))\nPOLYGON ((480 340, 1000 340, 1000 860, 480 860, 480 340))"
MARGIN = 20

Point = tuple[float, float]
Edge = tuple[Point, Point]


@dataclass(frozen=True)
class Panel:
    """A part of the plane, from (0, 0) to a corner, and where it is drawn."""

    left: float
    corner: Point

    @property
    def scale(self) -> float:
        return PANEL / (max(self.corner) + 2)

    def at(self, point: Point) -> str:
        return "%.1f %.1f" % (self.left + (point[0] + 1) * self.scale, TITLE + PANEL - (point[1] + 1) * self.scale)

    def title(self, words: str) -> str:
        return text(self.left, TITLE - 12, words, weight="bold")

    def grid(self) -> str:
        """The borders of the pixels, each round a point of the grid."""
        side = max(self.corner) + 1
        lines = ((((k - 0.5, -1), (k - 0.5, side)), ((-1, k - 0.5), (side, k - 0.5))) for k in range(int(side) + 1))
        return self.lines((line for pair in lines for line in pair), GRID, 0.7)

    def lines(self, edges: Iterable[Edge], colour: str, width: float, dashes: str = "") -> str:
        drawn = "".join("M%sL%s" % (self.at(start), self.at(end)) for start, end in edges)
        return '<path d="%s" stroke="%s" stroke-width="%g" stroke-dasharray="%s" stroke-linecap="round" fill="none"/>' % (drawn, colour, width, dashes)

    def filled(self, polygons: Sequence[Polygon], colour: str, opacity: float) -> str:
        drawn = "".join("M" + "L".join(map(self.at, ring)) + "Z" for rings in polygons for ring in rings)
        return '<path d="%s" fill="%s" fill-opacity="%g" fill-rule="evenodd"/>' % (drawn, colour, opacity)

    def pixels(self, centres: Iterable[Point]) -> str:
        side = self.scale
        drawn = "".join("M%sh%.1fv%.1fh-%.1fz" % (self.at((x - 0.5, y + 0.5)), side, side, side) for x, y in centres)
        return '<path d="%s" fill="%s" stroke="#d9b64a" stroke-width="0.7"/>' % (drawn, HOT)

    def dots(self, points: Iterable[Point]) -> str:
        return "".join('<circle cx="%s" cy="%s" r="2.2" fill="%s"/>' % (*self.at(point).split(), INK) for point in points)


def text(x: float, y: float, words: str, weight: str = "normal") -> str:
    return '<text x="%.1f" y="%.1f" font-family="sans-serif" font-size="13" font-weight="%s" fill="%s">%s</text>' % (x, y, weight, INK, words)


def panels(corner: Point, count: int = 3) -> list[Panel]:
    return [Panel(EDGE + number * (PANEL + GAP), corner) for number in range(count)]


def picture(drawn: Sequence[str], words: Sequence[str], signs: Sequence[str]) -> str:
    """The whole drawing, with a legend: a sign, 24 wide, before each of some words."""
    wide = 2 * EDGE + 3 * PANEL + 2 * GAP
    high = TITLE + PANEL + 2 * EDGE + LINE * len(words)
    lines = ['<svg xmlns="http://www.w3.org/2000/svg" viewBox="0 0 %d %d" width="%d" height="%d" role="img">' % (wide, high, wide, high)]
    lines += ['<path d="M0 0H%dV%dH0Z" fill="#fff"/>' % (wide, high), *drawn]
    for number, (sign, said) in enumerate(zip(signs, words)):
        y = TITLE + PANEL + EDGE + LINE * number + 10
        lines += ['<g transform="translate(%d %d)">%s</g>' % (EDGE, y - 4, sign), text(EDGE + 34, y, said)]
    return "\n".join([*lines, "</svg>", ""])


def line_sign(colour: str, width: float, dashes: str = "") -> str:
    return '<path d="M0 0H24" stroke="%s" stroke-width="%g" stroke-dasharray="%s"/>' % (colour, width, dashes)


def box_sign(colour: str, opacity: float, stroke: str = "none") -> str:
    return '<rect x="5" y="-7" width="14" height="14" fill="%s" fill-opacity="%g" stroke="%s"/>' % (colour, opacity, stroke)


def answer(program: str, command: str, layers: Sequence[str], *words: str) -> str:
    """What the program prints for a command on layers."""
    with tempfile.TemporaryDirectory() as folder:
        paths = [os.path.join(folder, "%d.wkt" % number) for number in range(len(layers))]
        for path, layer in zip(paths, layers):
            with open(path, "w", encoding="ascii") as file:
                file.write(layer)
        return subprocess.run([program, command, *paths, *words], stdout=subprocess.PIPE, text=True, check=True).stdout


def outline(polygons: Sequence[Polygon]) -> Iterator[Edge]:
    for rings in polygons:
        for ring in rings:
            yield from zip(ring, [*ring[1:], ring[0]])


def rounding(program: str) -> str:
    """Two layers, the hot pixels and rounded edges of both, and what both cover."""
    layers = [shapes.of_lines(layer) for layer in LAYERS]
    rows = [tuple(map(int, line.split())) for line in answer(program, "edges", LAYERS).splitlines()]
    edges: list[Edge] = [((row[0], row[1]), (row[2], row[3])) for row in rows]
    centres = sorted({end for edge in edges for end in edge})
    common = shapes.of_lines(answer(program, "intersection", LAYERS))
    corner = (max(x for x, _ in centres), max(y for _, y in centres))
    given, hot, found = panels(corner)
    drawn = []
    for panel, title in ((given, "1. Two layers"), (hot, "2. Hot pixels and rounded edges"), (found, "3. Their intersection")):
        drawn += [panel.title(title), panel.grid()]
    for layer, colour in zip(layers, (FIRST, SECOND)):
        drawn += [given.filled(layer, colour, 0.14), given.lines(outline(layer), colour, 1.6)]
    drawn.append(hot.pixels(centres))
    drawn += [hot.lines(outline(layer), colour, 1.0, "4 3") for layer, colour in zip(layers, (FIRST, SECOND))]
    drawn += [hot.lines(edges, INK, 1.8), hot.dots(centres)]
    drawn += [found.lines(edges, "#bbb", 1.0), found.filled(common, RESULT, 0.4), found.lines(outline(common), RESULT, 2.2), found.dots(sorted({p for edge in outline(common) for p in edge}))]
    words = (
        "layer A; a square of the grid is one pixel, with a grid point in its middle",
        "layer B",
        "hot pixel: a vertex lies in its middle, or two edges cross in it",
        "rounded edge: each edge of the input is led through the middle of every hot pixel that it touches",
        "result: the polygons that the rounded edges of both layers enclose",
    )
    signs = (line_sign(FIRST, 1.6), line_sign(SECOND, 1.6), box_sign(HOT, 1, "#d9b64a"), line_sign(INK, 1.8), box_sign(RESULT, 0.4, RESULT))
    return picture(drawn, words, signs)


def fill_rules(program: str) -> str:
    """One layer whose two features overlap: read by the even-odd rule, as covered, and its faces."""
    layer = shapes.of_lines(OVERLAPPING)
    even_odd, covered = (shapes.of_lines(answer(program, "union", (OVERLAPPING, ""), *words)) for words in ((), ("--covered",)))
    rows = [line.split("\t") for line in answer(program, "faces", (OVERLAPPING,)).splitlines()]
    points = [point for edge in outline(layer) for point in edge]
    corner = (MARGIN + max(x for x, _ in points), MARGIN + max(y for _, y in points))
    by_parity, by_cover, by_faces = panels(corner)
    colours = {"1": FIRST, "2": SECOND, "1,2": BOTH}
    drawn = [by_parity.title("overlay union: the even-odd rule"), by_cover.title("overlay union --covered"), by_faces.title("overlay faces")]
    drawn += [by_parity.filled(even_odd, RESULT, 0.4), by_cover.filled(covered, RESULT, 0.4)]
    drawn += [by_faces.filled(shapes.of_lines(polygons), colours[features], 0.4) for _, features, polygons in rows]
    drawn += [panel.lines(outline(layer), INK, 1.4) for panel in (by_parity, by_cover, by_faces)]
    words = (
        "input: one layer of two polygons, a star that crosses itself and a square",
        "inside: by the even-odd rule what an odd number of rings contain, by --covered what a polygon covers",
        "faces: what the star alone covers",
        "faces: what the square alone covers",
        "faces: what both cover",
    )
    signs = (line_sign(INK, 1.4), box_sign(RESULT, 0.4), *(box_sign(colours[features], 0.4) for features in ("1", "2", "1,2")))
    return picture(drawn, words, signs)


def write(program: str) -> list[str]:
    """Draws both; their paths."""
    made = {"picture.svg": rounding(program), "fill-rules.svg": fill_rules(program)}
    for name, drawing in made.items():
        with open(os.path.join(FOLDER, name), "w", encoding="utf-8") as file:
            file.write(drawing)
    return [os.path.join(FOLDER, name) for name in made]
