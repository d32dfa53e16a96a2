"""show: layers, edges and results on the grid, drawn over one another as an SVG picture."""

from __future__ import annotations

import sys
from argparse import ArgumentParser, Namespace
from dataclasses import dataclass, field
from html import escape
from math import floor, log10
from typing import Iterator

from . import options
from .columns import GridPoint, GridPolygon
from .faults import Fault, Refusal
from .messages import put, shown
from .parsing import Edge, edge_rows, edges, polygons_in
from .texts import EDGES, LAYERS, checked, kind_in, text_of
from .whole import draft, target_of

EXAMPLE = "overlay edges a.wkt b.wkt | overlay-gis show a.wkt b.wkt - -o rounding.svg"

COLOURS = ("#2f6db5", "#c8642a", "#7d4aa8", "#3c8d4e", "#8a6d1f")
BOTH = "#7d3fa0"
RESULT = "#3c8d4e"
HOT, HOT_SIDE = "#ffdf80", "#d9b64a"
INK = "#333"
EMPTY = "nothing in it"

# The picture's sides, in pixels of the screen, and from which size of a grid pixel it shows pixels
# and lines.
WIDTH, HEIGHT, MARGIN, LINE = 860, 560, 16, 20
PIXEL_SHOWN, GRID_SHOWN = 4.0, 9.0

Ends = tuple[GridPoint, GridPoint]  # the lesser one first

# How thick an edge is drawn that is a border by parity, and one that isn't.
THICK, THIN = 2.4, 1.0


def add_arguments(parser: ArgumentParser) -> None:
    parser.add_argument(
        "files",
        metavar="FILE",
        type=options.given,
        nargs="+",
        help=(
            "a text on the grid, told apart by its form: a layer, what `overlay edges` or what an"
            " operation printed; - is standard input"
        ),
    )
    parser.add_argument(
        "-o",
        "--out",
        metavar="OUT.svg",
        type=options.given,
        help="the picture's file (default: standard output)",
    )
    parser.add_argument(
        "--title", metavar="TEXT", type=options.text, help="a line below the drawing"
    )


@dataclass
class Shown:
    """A file's text as it is drawn: polygons of a layer or a result, or edges."""

    name: str
    kind: str
    colour: str
    polygons: list[GridPolygon] = field(default_factory=list)
    edges: list[Edge] = field(default_factory=list)

    def points(self) -> Iterator[GridPoint]:
        for polygon in self.polygons:
            for ring in polygon:
                yield from ring
        for edge in self.edges:
            yield edge.p
            yield edge.q

    def told(self) -> str:
        if self.kind == EDGES:
            return f"{self.name}: {counted(len(self.edges), 'rounded edge')}"
        return (
            f"{self.name}: {self.kind},"
            f" {counted(len(self.polygons), 'polygon') if self.polygons else EMPTY}"
        )

    def outline(self) -> list[Ends]:
        """The segments of all rings, each once, whichever way they run."""
        return sorted({ends(a, b) for polygon in self.polygons for ring in polygon for a, b in zip(ring, ring[1:])})


def ends(a: GridPoint, b: GridPoint) -> Ends:
    return (a, b) if a < b else (b, a)


def counted(number: int, word: str) -> str:
    return f"{number:,} {word}" + ("" if number == 1 else "s")


def standard_input(name: str) -> bytes:
    if sys.stdin is None:
        raise Fault(name, "is closed")
    try:
        return sys.stdin.read().encode("utf-8", "surrogateescape")
    except UnicodeDecodeError as error:
        raise Refusal(name, "is no text") from error


def read(name: str, number: int) -> Shown:
    """A file to be drawn, the so many-th layer of the command."""
    told = "standard input" if name == "-" else name
    text = checked(standard_input(told), told) if name == "-" else text_of(name)
    kind = kind_in(text, told)
    if kind == EDGES:
        return Shown(told, kind, BOTH, edges=list(edges(edge_rows(text, told))))
    colour = COLOURS[number % len(COLOURS)] if kind == LAYERS else RESULT
    features = polygons_in(text, told).lists()
    return Shown(told, kind, colour, polygons=[polygon for polygons in features for polygon in polygons])


@dataclass
class View:
    """Where a point of the grid stands in the picture."""

    left: int
    high: int
    scale: float
    width: float
    height: float

    @classmethod
    def of(cls, points: list[GridPoint]) -> View:
        xs, ys = [x for x, _ in points] or [0], [y for _, y in points] or [0]
        left, right, low, high = min(xs) - 1, max(xs) + 1, min(ys) - 1, max(ys) + 1
        scale = min((WIDTH - 2 * MARGIN) / (right - left), (HEIGHT - 2 * MARGIN) / (high - low))
        return cls(left, high, scale, (right - left) * scale + 2 * MARGIN, (high - low) * scale + 2 * MARGIN)

    def x(self, x: float) -> float:
        return MARGIN + (x - self.left) * self.scale

    def y(self, y: float) -> float:
        return MARGIN + (self.high - y) * self.scale

    def at(self, point: GridPoint) -> str:
        return f"{self.x(point[0]):.1f} {self.y(point[1]):.1f}"


def grid_lines(view: View) -> Iterator[str]:
    """The borders of the pixels, where they are large enough to be seen."""
    if view.scale < GRID_SHOWN:
        return
    right, low = MARGIN + view.width - 2 * MARGIN, MARGIN + view.height - 2 * MARGIN
    columns = range(round((right - MARGIN) / view.scale))
    upright = " ".join(
        f"M{MARGIN + (k + 0.5) * view.scale:.1f} {MARGIN}V{low:.1f}" for k in columns
    )
    level = " ".join(
        f"M{MARGIN} {MARGIN + (k + 0.5) * view.scale:.1f}H{right:.1f}"
        for k in range(round((low - MARGIN) / view.scale))
    )
    yield f'<path d="{upright} {level}" stroke="#e4e4e4" stroke-width="0.7" fill="none"/>'


def hot_pixels(view: View, files: list[Shown]) -> Iterator[str]:
    """The ends of rounded edges, which are the hot pixels."""
    if view.scale < PIXEL_SHOWN:
        return
    centres = sorted({end for file in files for edge in file.edges for end in (edge.p, edge.q)})
    side = view.scale
    squares = " ".join(
        f"M{view.x(x - 0.5):.1f} {view.y(y + 0.5):.1f}h{side:.1f}v{side:.1f}h-{side:.1f}z"
        for x, y in centres
    )
    if centres:
        yield f'<path d="{squares}" fill="{HOT}" stroke="{HOT_SIDE}" stroke-width="0.7"/>'


def filled(view: View, file: Shown) -> Iterator[str]:
    """The inside of a layer or of a result by parity, as it is read."""
    rings = " ".join(
        "M" + "L".join(view.at(point) for point in ring[:-1]) + "z" for polygon in file.polygons for ring in polygon
    )
    opacity = 0.14 if file.kind == LAYERS else 0.4
    if rings:
        yield f'<path d="{rings}" fill="{file.colour}" fill-rule="evenodd" fill-opacity="{opacity}"/>'


def outlined(view: View, file: Shown) -> Iterator[str]:
    """The borders, dashed for a layer and solid for a result."""
    lines = " ".join(f"M{view.at(a)}L{view.at(b)}" for a, b in file.outline())
    dashes = ' stroke-dasharray="6 4"' if file.kind == LAYERS else ""
    if lines:
        yield f'<path d="{lines}" stroke="{file.colour}" stroke-width="1.4"{dashes} fill="none"/>'


def edge_classes() -> list[tuple[str, str, bool, bool]]:
    """Colour and words of an edge by the layers that have it."""
    return [
        (COLOURS[0], "edges of A", True, False),
        (COLOURS[1], "edges of B", False, True),
        (BOTH, "edges of both", True, True),
    ]


def edges_drawn(view: View, file: Shown) -> Iterator[str]:
    """Rounded edges, thick where they are borders by parity, thin where an even number cancels."""
    for colour, _, first, second in edge_classes():
        for odd, width in ((True, THICK), (False, THIN)):
            chosen = [
                e
                for e in file.edges
                if (e.counts[0] > 0) == first
                and (e.counts[1] > 0) == second
                and any(count % 2 for count in e.counts) == odd
            ]
            lines = " ".join(f"M{view.at(e.p)}L{view.at(e.q)}" for e in chosen)
            if chosen:
                yield f'<path d="{lines}" stroke="{colour}" stroke-width="{width}" stroke-linecap="round" fill="none"/>'
    if file.edges and view.scale >= PIXEL_SHOWN:
        dots = sorted({end for edge in file.edges for end in (edge.p, edge.q)})
        yield "".join(f'<circle cx="{view.x(x):.1f}" cy="{view.y(y):.1f}" r="2.2" fill="{INK}"/>' for x, y in dots)


def words_of(text: str) -> str:
    """A text as the picture has it: a name's bytes may be no signs, or none that XML allows."""
    return escape(shown(text).encode("utf-8", "backslashreplace").decode())


def line_sign(colour: str, width: float) -> str:
    return f'<path d="M0 0H24" stroke="{colour}" stroke-width="{width}"/>'


def box_sign(file: Shown) -> str:
    dashes = ' stroke-dasharray="6 4"' if file.kind == LAYERS else ""
    style = f'fill="{file.colour}" fill-opacity="0.2" stroke="{file.colour}" stroke-width="1.4"{dashes}'
    return f'<rect y="-6" width="24" height="12" {style}/>'


def signs(view: View, files: list[Shown]) -> list[tuple[str, str]]:
    """The legend: a sign, 24 wide, and what it means."""
    told = [(line_sign(INK, THICK) if file.kind == EDGES else box_sign(file), file.told()) for file in files]
    edges = [edge for file in files for edge in file.edges]
    for colour, words, first, second in edge_classes():
        if any((edge.counts[0] > 0) == first and (edge.counts[1] > 0) == second for edge in edges):
            told.append((line_sign(colour, THICK), words))
    if any(not any(count % 2 for count in edge.counts) for edge in edges):
        told.append((line_sign(INK, THIN), "thin: occurs an even number of times, no border"))
    if edges and view.scale >= PIXEL_SHOWN:
        told.append((f'<rect x="6" y="-6" width="12" height="12" fill="{HOT}" stroke="{HOT_SIDE}"/>', "hot pixel"))
    return told


def legend(view: View, files: list[Shown], title: str | None) -> tuple[list[str], float]:
    """The title and the legend below the drawing, the legend in two columns, and where they end."""
    told, lines, top = signs(view, files), [], view.height + LINE / 2
    if title:
        lines.append(f'<text x="{MARGIN}" y="{top:.1f}" font-weight="bold">{words_of(title)}</text>')
        top += LINE
    column = max(view.width, 640) / 2
    for number, (sign, words) in enumerate(told):
        x, y = MARGIN + (number % 2) * column, top + (number // 2) * LINE
        lines.append(f'<g transform="translate({x:.1f} {y:.1f})">{sign}<text x="32" y="4">{words_of(words)}</text></g>')
    return lines, top + (len(told) + 1) // 2 * LINE


def round_length(room: float) -> int:
    """The greatest of 1, 2 and 5 times a power of ten that is no more than `room`, or else 1."""
    power = 10 ** max(0, floor(log10(room)))
    return next((factor * power for factor in (5, 2) if factor * power <= room), power)


def scale_bar(view: View, top: float) -> str:
    units = round_length(160 / view.scale)
    length = units * view.scale
    bar = f'<path d="M0 -4V4M0 0H{length:.1f}M{length:.1f} -4V4" stroke="{INK}" fill="none"/>'
    words = f'<text x="{length + 8:.1f}" y="4">{counted(units, "grid unit")}</text>'
    return f'<g transform="translate({MARGIN} {top:.1f})">{bar}{words}</g>'


def picture(files: list[Shown], title: str | None) -> str:
    view = View.of([point for file in files for point in file.points()])
    told, bottom = legend(view, files, title)
    width, height = max(view.width, 640 + 2 * MARGIN), bottom + LINE
    drawn = [line for file in files for line in filled(view, file)]
    drawn += [*grid_lines(view), *hot_pixels(view, files)]
    for file in files:
        drawn += [*outlined(view, file), *edges_drawn(view, file)]
    head = f'<svg xmlns="http://www.w3.org/2000/svg" viewBox="0 0 {width:.0f} {height:.0f}" width="{width:.0f}" height="{height:.0f}" font-family="sans-serif" font-size="13">'
    return "\n".join(
        [head, '<rect width="100%" height="100%" fill="white"/>', *drawn, *told, scale_bar(view, bottom), "</svg>", ""]
    )


def main(arguments: Namespace) -> int:
    numbers, files = 0, []
    if arguments.files.count("-") > 1:
        raise Refusal("-", "is standard input, which is read once")
    for name in arguments.files:
        file = read(name, numbers)
        numbers += file.kind == LAYERS
        files.append(file)
    text = picture(files, arguments.title)
    if not arguments.out:
        put(text)
        return 0
    target = target_of(arguments.out, True, arguments.files)
    with draft(target) as folder:
        (folder / target.path.name).write_text(text, encoding="utf-8")
    return 0
